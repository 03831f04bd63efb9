//! Scripts with devices, counts and once requests.
use crate::tests::programs::Program;

pub static PROGRAMS: [Program; 10] = [
    (
        "two records that follow each other, counted",
        b"record(longin,\"a\"){field(FLNK,\"b\")} record(longin,\"b\"){field(FLNK,\"a\")}",
        b"process a\ntally\nget a.PACT\nget b.PACT\nget a.LCNT\n",
        b"ok processed\ntally begun=3 processed=2 disabled=0 active=1 reprocess=0 started=0 completed=0 dropped=0\n= 0\n= 0\n= 1\n",
    ),
    (
        "a fanout with two links to one record",
        b"record(longin,\"a\"){} record(fanout,\"f\"){field(LNK1,\"a\") field(LNK2,\"a\")}",
        b"process f\ntally\n",
        b"ok processed\ntally begun=3 processed=3 disabled=0 active=0 reprocess=0 started=0 completed=0 dropped=0\n",
    ),
    (
        "a record that awaits its device is found active",
        b"record(longin,\"r\"){field(INP,\"@d\") field(UDF,0)}",
        b"process r\nprocess r\nprocess r\nprocess r\nprocess r\nprocess r\nprocess r\nprocess r\nprocess r\nprocess r\nprocess r\nget r.LCNT\nprocess r\nget r.LCNT\nget r.STAT\nget r.SEVR\nprocess r\nget r.LCNT\n",
        b"ok processed\nok active\nok active\nok active\nok active\nok active\nok active\nok active\nok active\nok active\nok active\n= 10\nok active\n= 11\n= SCAN\n= INVALID\nok active\n= 11\n",
    ),
    (
        "a put on an active record has it processed once more",
        b"record(longin,\"r\"){field(INP,\"@d\")}",
        b"process r\nput r.VAL 7\nget r.RPRO\ndone r 1 5\nget r.VAL\nget r.RPRO\nget r.PACT\ntally\n",
        b"ok processed\nok reprocess\n= 1\nok\n= 5\n= 0\n= 1\ntally begun=3 processed=2 disabled=0 active=0 reprocess=1 started=2 completed=1 dropped=0\n",
    ),
    (
        "a record that reads itself, counted",
        b"record(longin,\"q\"){field(INP,\"q PP MS\")}",
        b"process q\ntally\nget q.STAT\nget q.LCNT\nget q.INP\n",
        b"ok processed\ntally begun=2 processed=1 disabled=0 active=1 reprocess=0 started=0 completed=0 dropped=0\n= NO_ALARM\n= 1\n= q.VAL PP MS\n",
    ),
    (
        "an output device that faults at last",
        b"record(longout,\"o\"){field(OUT,\"@d\")}",
        b"put o.VAL 3\nget o.PACT\nfault o 1\nget o.STAT\nget o.SEVR\nget o.PACT\n",
        b"ok processed\n= 1\nok\n= WRITE\n= INVALID\n= 0\n",
    ),
    (
        "a put that a link hands to an active record",
        b"record(longin,\"r\"){field(INP,\"@d\") field(UDF,0)} record(longin,\"s\"){field(FLNK,\"r\")}",
        b"process r\nput s.VAL 1\nget r.RPRO\ndone r 1 5\ntally\n",
        b"ok processed\nok processed\n= 1\nok\ntally begun=4 processed=3 disabled=0 active=0 reprocess=1 started=2 completed=1 dropped=0\n",
    ),
    (
        "completions out of turn",
        b"record(longin,\"r\"){field(INP,\"@d\")}",
        b"done r 1 5\nprocess r\ndone r 2 5\ndone r 1 x\nget r.STAT\nfault r 1\n",
        b"E8 Stale\nok processed\nE8 Stale\nok\n= READ\nE8 Stale\n",
    ),
    (
        "answers are queued for the first record that names a device",
        b"record(longin,\"a\"){field(INP,\"@d\")} record(longin,\"b\"){field(INP,\"@d\")} record(longin,\"c\"){field(INP,\"@e\")}",
        b"next a done 4\nnext c done 6\nnext b done 1\nnext z later\nnext a fault\nprocess a\nprocess b\nprocess c\nget a.VAL\nget b.STAT\nget c.VAL\nprocess a\nget a.STAT\nprocess a\nget a.PACT\n",
        b"ok\nok\nE2 NoField\nE1 NoRecord\nok\nok processed\nok processed\nok processed\n= 4\n= LINK\n= 6\nok processed\n= READ\nok processed\n= 1\n",
    ),
    (
        "forms of the lines for devices",
        b"record(longin,\"r\"){field(INP,\"@d\")} record(stringin,\"t\"){field(INP,\"@e\")}",
        b"next\nnext r\nnext  done 1\nnext r done\nnext r done \nnext r fault x\nnext r fault \nnext r later x\nnext r soon\ndone r\ndone r x 1\ndone r 1x\ndone  1 2\nfault r\nfault r 1 \nfault r 1 x\ntally \ntally x\ndone r 18446744073709551616 1\nnext t done 0123456789012345678901234567890123456789\nprocess t\nget t.VAL\n",
        b"bad\nbad\nbad\nok\nok\nbad\nbad\nbad\nbad\nbad\nbad\nbad\nbad\nbad\nbad\nbad\nbad\nbad\nbad\nok\nok processed\n= 012345678901234567890123456789012345678\n",
    ),
];
