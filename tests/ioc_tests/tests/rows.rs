//! Databases with a script and the expected output.
use crate::tests::programs::Program;

pub static PROGRAMS: [Program; 12] = [
    ("empty database and script", b"", b"", b""),
    (
        "constant input",
        b"record(longin,\"c\"){field(INP,\"5\")}",
        b"get c.VAL\nget c.UDF\nprocess c\nget c.STAT\n",
        b"= 5\n= 0\nok processed\n= NO_ALARM\n",
    ),
    (
        "two records that follow each other",
        b"record(longin,\"a\"){field(FLNK,\"b\")} record(longin,\"b\"){field(FLNK,\"a\")}",
        b"process a\nget a.PACT\nget b.PACT\nget a.LCNT\n",
        b"ok processed\n= 0\n= 0\n= 1\n",
    ),
    (
        "a record that reads itself",
        b"record(longin,\"q\"){field(INP,\"q PP MS\")}",
        b"process q\nget q.STAT\nget q.LCNT\nget q.INP\n",
        b"ok processed\n= NO_ALARM\n= 1\n= q.VAL PP MS\n",
    ),
    (
        "a record reads one that it processes",
        b"record(longin,\"a\"){field(INP,\"b PP\")} record(longin,\"b\"){field(INP,\"7\") field(FLNK,\"c\")} record(longin,\"c\"){field(INP,\"b\")}",
        b"process a\nget a.VAL\nget c.VAL\n",
        b"ok processed\n= 7\n= 7\n",
    ),
    (
        "a record that another disables",
        b"record(longin,\"s\"){field(INP,\"1\")} record(longin,\"r\"){field(SDIS,\"s\") field(DISS,MAJOR)}",
        b"process r\nget r.STAT\nget r.SEVR\nprocess r\nget r.STAT\nget r.SEVR\n",
        b"ok disabled\n= DISABLE\n= MAJOR\nok disabled\n= DISABLE\n= MAJOR\n",
    ),
    (
        "a record that is disabled by a constant, and no longer",
        b"record(longin,\"r\"){field(SDIS,\"1\") field(UDF,0)}",
        b"process r\nget r.DISA\nput r.DISV 2\nprocess r\nget r.STAT\n",
        b"ok disabled\n= 1\nok\nok processed\n= NO_ALARM\n",
    ),
    (
        "refusals",
        b"record(longin,\"a\"){}",
        b"get z.VAL\nget a.XYZ\nput a.PACT 1\nput a.DISP 1\nput a.VAL 1\nput a.DISP 0\nput a.VAL 1x\nput a.VAL 2147483648\nhello\n",
        b"E1 NoRecord\nE2 NoField\nE3 NoMod\nok\nE4 PutDisabled\nok\nE5 BadValue\nE5 BadValue\nbad\n",
    ),
    (
        "bad lines",
        b"record(longin,\"a\"){field(VAL,\"3\")}",
        b"hello\nprocess\nprocess \nprocess a b\nput\nput a 1\nput  a.VAL 1\nget a\nget a.VAL 1\n get a.VAL\nprocess a\r\n",
        b"bad\nbad\nbad\nbad\nbad\nbad\nbad\nbad\nbad\nbad\nE1 NoRecord\n",
    ),
    (
        "a field with a second dot",
        b"record(longin,\"a\"){field(VAL,\"3\")}",
        b"get a.VAL.x\nget a.\nget .VAL\n",
        b"E2 NoField\nE2 NoField\nE1 NoRecord\n",
    ),
    (
        "a text may be missing",
        b"record(longin,\"a\"){field(VAL,\"3\")}",
        b"put a.UDFS\nput a.UDFS \nput a.UDFS  \nput a.XYZ\n",
        b"E5 BadValue\nE5 BadValue\nE5 BadValue\nE2 NoField\n",
    ),
    (
        "a moment is decimal digits alone, below 2^64",
        b"record(longin,\"a\"){}",
        b"get a.TIME\nat 18446744073709551615\nprocess a\nget a.TIME\nat 18446744073709551616\nat\nat \nat -1\nat +1\nat 0x1\nat  1\nat 1 \nat 1 2\nprocess a\nget a.TIME\nat 00000000000000000000000000000000000000000007\nget a.TIME\nprocess a\nget a.TIME\n",
        b"= 0\nok\nok processed\n= 18446744073709551615\nbad\nbad\nbad\nbad\nbad\nbad\nbad\nbad\nbad\nok processed\n= 18446744073709551615\nok\n= 18446744073709551615\nok processed\n= 7\n",
    ),
];
