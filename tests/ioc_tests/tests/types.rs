//! Databases of each record type with a script, and the expected output.
use crate::tests::programs::Program;

pub static PROGRAMS: [Program; 12] = [
    (
        "an undefined value hides the limits until a put",
        b"record(longin,\"u\"){field(UDFS,MINOR) field(LOW,0) field(LSV,MAJOR)}",
        b"process u\nget u.STAT\nget u.SEVR\nput u.VAL 0\nget u.STAT\n",
        b"ok processed\n= UDF\n= MINOR\nok processed\n= LOW\n",
    ),
    (
        "a high limit holds with its hysteresis",
        b"record(longin,\"h\"){field(HIGH,10) field(HSV,MINOR) field(HYST,2)}",
        b"put h.VAL 10\nget h.STAT\nput h.VAL 9\nget h.STAT\nput h.VAL 7\nget h.STAT\n",
        b"ok processed\n= HIGH\nok processed\n= HIGH\nok processed\n= NO_ALARM\n",
    ),
    (
        "a limit without its hysteresis may be below any value",
        b"record(longin,\"h\"){field(HIGH,-2000000000) field(HSV,MINOR) field(HYST,2000000000)}",
        b"put h.VAL -2000000000\nget h.STAT\nput h.VAL -2147483648\nget h.STAT\n",
        b"ok processed\n= HIGH\nok processed\n= HIGH\n",
    ),
    (
        "a link hands on severities by its mode",
        b"record(longin,\"s\"){field(INP,\"10\") field(HIGH,10) field(HSV,MINOR)} record(longin,\"i\"){field(INP,\"s MSI\")} record(longin,\"m\"){field(INP,\"s MS\")} record(longin,\"x\"){field(INP,\"s MSS\")}",
        b"process s\nprocess i\nprocess m\nprocess x\nget i.STAT\nget i.SEVR\nget m.STAT\nget m.SEVR\nget x.STAT\nget x.SEVR\n",
        b"ok processed\nok processed\nok processed\nok processed\n= NO_ALARM\n= NO_ALARM\n= LINK\n= MINOR\n= HIGH\n= MINOR\n",
    ),
    (
        "a raw value that is no state, and a text that is cut",
        b"record(longin,\"s\"){field(INP,\"7\")} record(mbbi,\"m\"){field(DTYP,\"Raw Soft Channel\") field(INP,\"s\") field(ZRVL,1) field(ONVL,2) field(UNSV,MAJOR)} record(stringin,\"t\"){}",
        b"process m\nget m.VAL\nget m.STAT\nget m.SEVR\nput t.VAL 0123456789012345678901234567890123456789\nget t.VAL\n",
        b"ok processed\n= 65535\n= STATE\n= MAJOR\nok processed\n= 012345678901234567890123456789012345678\n",
    ),
    (
        "a fanout follows the links of a shifted mask",
        b"record(longin,\"a\"){} record(longin,\"b\"){} record(fanout,\"f\"){field(SELM,Mask) field(SELN,1) field(LNK0,\"a\") field(LNK1,\"b\")}",
        b"at 9\nprocess f\nget a.TIME\nget b.TIME\nput f.SHFT 16\nprocess f\nget f.STAT\nget f.SEVR\n",
        b"ok\nok processed\n= 0\n= 9\nok\nok processed\n= SOFT\n= INVALID\n",
    ),
    (
        "a fanout follows the link of a number with an offset",
        b"record(longin,\"a\"){} record(fanout,\"f\"){field(SELM,Specified) field(SELN,2) field(OFFS,-3) field(LNK0,\"a\")}",
        b"process f\nget f.STAT\nget a.STAT\nput f.OFFS -2\nat 3\nprocess f\nget f.STAT\nget a.TIME\n",
        b"ok processed\n= SOFT\n= UDF\nok\nok\nok processed\n= NO_ALARM\n= 3\n",
    ),
    (
        "an output within its drive limits, and its alarm handed on",
        b"record(longin,\"t\"){} record(longout,\"o\"){field(OUT,\"t PP MS\") field(DRVH,100) field(HIGH,90) field(HSV,MAJOR)}",
        b"put o.VAL 150\nget o.VAL\nget t.VAL\nget t.STAT\nget t.SEVR\nget o.STAT\n",
        b"ok processed\n= 100\n= 100\n= LINK\n= MAJOR\n= HIGH\n",
    ),
    (
        "a change of state is an alarm once",
        b"record(bi,\"s\"){field(ZNAM,Off) field(ONAM,On) field(COSV,MINOR)}",
        b"put s.VAL On\nget s.VAL\nget s.STAT\nprocess s\nget s.STAT\n",
        b"ok processed\n= On\n= COS\nok processed\n= NO_ALARM\n",
    ),
    (
        "a state is written raw, and a number that is no state is refused",
        b"record(longin,\"t\"){} record(mbbo,\"o\"){field(DTYP,\"Raw Soft Channel\") field(OUT,\"t\") field(NOBT,2) field(SHFT,4) field(ONVL,2) field(ONST,Run)}",
        b"put o.VAL Run\nget o.VAL\nget o.RVAL\nget t.VAL\nput o.VAL 16\n",
        b"ok processed\n= Run\n= 32\n= 32\nE5 BadValue\n",
    ),
    (
        "an undefined output writes its IVOV",
        b"record(longin,\"t\"){} record(bo,\"b\"){field(IVOA,\"Set output to IVOV\") field(IVOV,1) field(OUT,\"t\")}",
        b"process b\nget b.VAL\nget b.STAT\nget t.VAL\n",
        b"ok processed\n= 1\n= UDF\n= 1\n",
    ),
    (
        "numbers of 64 bits, and readers that they don't fit",
        b"record(int64in,\"x\"){field(INP,\"9223372036854775807\") field(HIGH,\"-9223372036854775807\") field(HSV,MINOR) field(HYST,\"9223372036854775807\")} record(longin,\"l\"){field(INP,\"x\")} record(stringin,\"s\"){field(INP,\"x\")}",
        b"get x.VAL\nprocess x\nget x.STAT\nput x.VAL -9223372036854775808\nget x.STAT\nput x.VAL 9223372036854775808\nprocess l\nget l.STAT\nget l.SEVR\nprocess s\nget s.VAL\n",
        b"= 9223372036854775807\nok processed\n= HIGH\nok processed\n= HIGH\nE5 BadValue\nok processed\n= LINK\n= INVALID\nok processed\n= -9223372036854775808\n",
    ),
];
