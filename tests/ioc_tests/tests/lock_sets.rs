//! Scripts with the line `sets`.
use crate::tests::programs::Program;

pub static PROGRAMS: [Program; 7] = [
    ("no records", b"", b"sets\n", b"sets\n"),
    (
        "aliases aren't printed, and a link to one joins its record",
        b"record(longin,\"a\"){alias(\"b\")} record(*,\"a\"){field(VAL,3)} alias(\"a\",\"c\") record(fanout,\"f\"){field(LNK0,\"c\") field(DESC,\"${X=none}\")}",
        b"get b.VAL\nget f.LNK0\nget f.DESC\nsets\n",
        b"= 3\n= c.VAL NPP NMS\n= none\nsets {a f}\n",
    ),
    (
        "records that nothing joins",
        b"record(longin,\"a\"){} record(longin,\"b\"){}",
        b"sets\nsets x\nsets \nget a.VAL\n",
        b"sets {a} {b}\nbad\nbad\n= 0\n",
    ),
    (
        "an input link, a forward link and a record that waits",
        b"record(longin,\"a\"){field(INP,\"@d\") field(FLNK,\"b\")} record(longin,\"b\"){}",
        b"process a\nsets\ndone a 1 4\ndone a 1 4\nget a.VAL\n",
        b"ok processed\nsets {a b}\nok\nE8 Stale\n= 4\n",
    ),
    (
        "parts by their lowest records, records by number",
        b"record(longin,\"z\"){field(FLNK,\"b\")} record(longin,\"y\"){field(INP,\"a\")} record(longin,\"b\"){} record(longin,\"x\"){field(SDIS,\"x\")} record(longin,\"a\"){field(FLNK,\"w\")} record(longin,\"w\"){field(INP,\"v\")} record(longin,\"v\"){}",
        b"sets\n",
        b"sets {z b} {y a w v} {x}\n",
    ),
    (
        "absent links, constants and devices join nothing",
        b"record(longin,\"a\"){field(INP,\"@d\") field(FLNK,\"nobody\")} record(longin,\"b\"){field(INP,\"@d\") field(FLNK,\"a.NOPE\")} record(longin,\"c\"){field(INP,\"5\") field(FLNK,\"a.FLNK\")}",
        b"sets\n",
        b"sets {a} {b} {c}\n",
    ),
    (
        "sixteen links of a fanout, and an output",
        b"record(fanout,\"f\"){field(LNK0,\"a\") field(LNKF,\"b\") field(SELL,\"d\")} record(longin,\"a\"){} record(longin,\"b\"){} record(longout,\"c\"){field(OUT,\"e\") field(DOL,\"g\")} record(longin,\"d\"){} record(longin,\"e\"){} record(longin,\"g\"){} record(longin,\"h\"){}",
        b"sets\n",
        b"sets {f a b d} {c e g} {h}\n",
    ),
];
