//! Scripts with link changes, puts with notification and `sets`.
use crate::tests::programs::Program;

pub static PROGRAMS: [Program; 15] = [
    (
        "a link that is cut parts two records",
        b"record(longin,\"a\"){field(INP,\"@d\") field(FLNK,\"b\")} record(longin,\"b\"){}",
        b"process a\nsets\nlink a.FLNK\nsets\ndone a 1 4\ndone a 1 4\nget a.VAL\n",
        b"ok processed\nsets {a b}\nok\nsets {a} {b}\nok\nE8 Stale\n= 4\n",
    ),
    (
        "a link joins two records, and is cut again",
        b"record(longin,\"a\"){} record(longin,\"b\"){}",
        b"sets\nlink a.INP b\nsets\nlink a.INP\nsets\n",
        b"sets {a} {b}\nok\nsets {a b}\nok\nsets {a} {b}\n",
    ),
    (
        "a link change beside a live notification",
        b"record(longin,\"p\"){field(INP,\"@d\")} record(longin,\"a\"){}",
        b"notify p.VAL 3\nlink a.INP p\ndone p 1 4\nlink a.INP p\nsets\n",
        b"ok notify 1\nok\nok\nended 1\nok\nsets {p a}\n",
    ),
    (
        "a notification over records that are parted ends with the last of them",
        b"record(longin,\"p\"){field(INP,\"@d\")} record(longin,\"q\"){field(INP,\"@e\")} record(fanout,\"f\"){field(LNK1,\"p\") field(LNK2,\"q\")}",
        b"notify f.VAL 1\nlink f.LNK1\nsets\ndone p 1 5\ndone q 1 6\n",
        b"ok notify 1\nok\nsets {p} {q f}\nok\nok\nended 1\n",
    ),
    (
        "and is cancelled as a whole",
        b"record(longin,\"p\"){field(INP,\"@d\")} record(longin,\"q\"){field(INP,\"@e\")} record(fanout,\"f\"){field(LNK1,\"p\") field(LNK2,\"q\")}",
        b"notify f.VAL 1\nlink f.LNK1\ncancel 1\ndone p 1 5\ndone q 1 6\ncancel 1\n",
        b"ok notify 1\nok\nok\nok\nok\nE8 Stale\n",
    ),
    (
        "a link in a chain is cut, joins another, and closes a ring",
        b"record(longin,c0){field(FLNK,c1)} record(longin,c1){field(FLNK,c2)} record(longin,c2){field(FLNK,c3)} record(longin,c3){field(FLNK,c4)} record(longin,c4){field(FLNK,c5)} record(longin,c5){field(FLNK,c6)} record(longin,c6){field(FLNK,c7)} record(longin,c7){field(FLNK,c8)} record(longin,c8){field(FLNK,c9)} record(longin,c9){} record(longin,x){}",
        b"link c2.FLNK\nsets\nlink c2.FLNK x\nsets\nlink c2.FLNK c9\nsets\nlink c9.FLNK c0\nsets\n",
        b"ok\nsets {c0 c1 c2} {c3 c4 c5 c6 c7 c8 c9} {x}\nok\nsets {c0 c1 c2 x} {c3 c4 c5 c6 c7 c8 c9}\nok\nsets {c0 c1 c2 c3 c4 c5 c6 c7 c8 c9} {x}\nok\nsets {c0 c1 c2 c3 c4 c5 c6 c7 c8 c9} {x}\n",
    ),
    (
        "refusals in their order",
        b"record(longin,\"a\"){}",
        b"link z.INP a\nlink a.XYZ a\nlink a.VAL a\nput a.DISP 1\nlink a.VAL a\nlink a.INP a CP\nput a.DISP 0\nlink a.INP a CP\nlink a.INP 1.5.2\nlink a.FLNK @d\nget a.INP\n",
        b"E1 NoRecord\nE2 NoField\nE2 NoField\nok\nE2 NoField\nE4 PutDisabled\nok\nE6 BadLink\nE6 BadLink\nE6 BadLink\n= \n",
    ),
    (
        "a link change processes nothing, and links lead where they lead from then on",
        b"record(longin,\"a\"){field(VAL,7)} record(longin,\"b\"){field(VAL,8)} record(longin,\"r\"){field(INP,\"a\")}",
        b"process r\nget r.VAL\nlink r.INP b PP\nget r.VAL\nget r.INP\nprocess r\nget r.VAL\nlink r.INP nobody\nprocess r\nget r.STAT\nget r.INP\nlink r.FLNK b.INP\nlink r.INP 5\nprocess r\nget r.VAL\n",
        b"ok processed\n= 7\nok\n= 7\n= b.VAL PP NMS\nok processed\n= 8\nok\nok processed\n= LINK\n= nobody.VAL NPP NMS\nok\nok\nok processed\n= 8\n",
    ),
    (
        "a device keeps its record, after link changes away and back, and another's link to it is absent",
        b"record(longin,\"p\"){field(INP,\"@d\")} record(longin,\"q\"){}",
        b"link p.INP\nnext p done 4\nlink q.INP @d\nprocess q\nget q.STAT\nlink p.INP @d\nprocess p\nget p.VAL\nnext q done 4\n",
        b"ok\nok\nok\nok processed\n= LINK\nok\nok processed\n= 4\nE2 NoField\n",
    ),
    (
        "forms of the line",
        b"record(longin,\"a\"){}",
        b"link\nlink \nlink a\nlink a INP\nlink a.INP\nlink a.INP \nlink a.INP   a  PP\nget a.INP\nlink .INP a\nlink a. a\n",
        b"bad\nbad\nbad\nbad\nok\nok\nok\n= a.VAL PP NMS\nE1 NoRecord\nE2 NoField\n",
    ),
    (
        "a real constant stays as it was written, and puts nothing in a link change",
        b"record(longin,\"a\"){field(VAL,7)}",
        b"link a.INP 1.\nget a.INP\nlink a.INP -.5E-3\nget a.INP\nprocess a\nget a.VAL\nget a.STAT\nlink a.INP 1e\nget a.INP\nlink a.INP inf\nprocess a\nget a.STAT\n",
        b"ok\n= 1.\nok\n= -.5E-3\nok processed\n= 7\n= NO_ALARM\nok\n= 1e.VAL NPP NMS\nok\nok processed\n= LINK\n",
    ),
    (
        "a real constant goes into a text as it was written",
        b"record(stringin,\"s\"){field(INP,\" 2.50 \")} record(stringout,\"o\"){field(DOL,\"+1e3\")} record(event,\"e\"){field(INP,\".5\")}",
        b"get s.VAL\nget s.UDF\nget s.INP\nprocess s\nget s.VAL\nget o.VAL\nget o.UDF\nget e.VAL\n",
        b"= 2.50\n= 0\n= 2.50\nok processed\n= 2.50\n= +1e3\n= 0\n= .5\n",
    ),
    (
        "a real constant puts nothing in OUT, FLNK and the links of a fanout",
        b"record(longout,\"o\"){field(OUT,\"1.5\") field(FLNK,\"2.5\")} record(fanout,\"f\"){field(LNK0,\"1e2\") field(LNKF,\"3.\")}",
        b"put o.VAL 4\nget o.STAT\nget o.OUT\nget o.FLNK\nprocess f\nget f.STAT\nget f.LNK0\nget f.LNKF\n",
        b"ok processed\n= NO_ALARM\n= 1.5\n= 2.5\nok processed\n= NO_ALARM\n= 1e2\n= 3.\n",
    ),
    (
        "a real constant is no name, and longer ones are no link",
        b"record(longin,\"1e5\"){field(VAL,3)} record(longin,\"a\"){}",
        b"link a.INP 1e5\nprocess a\nget a.VAL\nlink a.INP 1e5 NPP\nprocess a\nget a.VAL\nlink a.INP 0.1234567890123456789012345678901234567\nlink a.INP 0.12345678901234567890123456789012345678\n",
        b"ok\nok processed\n= 0\nok\nok processed\n= 3\nok\nE6 BadLink\n",
    ),
    (
        "the text of a real constant is kept over a copy of its record",
        b"record(stringin,\"s\"){field(INP,\"2.5\")} record(stringin,\"s\"){field(DESC,\"again\")}",
        b"get s.INP\nget s.VAL\nsets\n",
        b"= 2.5\n= 2.5\nsets {s}\n",
    ),
];
