//! Scripts with puts with notification.
use crate::tests::programs::Program;

pub static PROGRAMS: [Program; 12] = [
    (
        "a notification ends with the last record that has it, and one that waits starts then",
        b"record(longin,\"a\"){} record(longin,\"p\"){field(INP,\"@d\")} record(fanout,\"f\"){field(LNK1,\"a\") field(LNK2,\"p\")}",
        b"notify f.VAL 1\nnotify p.VAL 7\ndone p 1 5\nget p.VAL\ndone p 2 8\nget p.VAL\ncancel 2\n",
        b"ok notify 1\nok notify 2\nok\nended 1\n= 7\nok\nended 2\n= 8\nE8 Stale\n",
    ),
    (
        "a record that is disabled, and a field that has nothing processed",
        b"record(longin,\"r\"){field(DISA,1)}",
        b"notify r.VAL 1\nget r.PUTF\nnotify r.DESC hi\n",
        b"ok notify 1\nended 1\n= 0\nok notify 2\nended 2\n",
    ),
    (
        "refusals use no number",
        b"record(longin,\"a\"){}",
        b"notify z.VAL 1\nnotify a.XYZ 1\nnotify a.PACT 1\nput a.DISP 1\nnotify a.VAL 1\nput a.DISP 0\nnotify a.VAL 1x\nnotify a.VAL 2147483648\nnotify a.INP a\nnotify a.VAL 4\nget a.VAL\nnotify a.DISP 1\nnotify a.VAL 5\nnotify a.DISP 0\n",
        b"E1 NoRecord\nE2 NoField\nE3 NoMod\nok\nE4 PutDisabled\nok\nE5 BadValue\nE5 BadValue\nE3 NoMod\nok notify 1\nended 1\n= 4\nok notify 2\nended 2\nE4 PutDisabled\nok notify 3\nended 3\n",
    ),
    (
        "a cancelled one doesn't end, and the next in line starts",
        b"record(longin,\"p\"){field(INP,\"@d\")}",
        b"notify p.VAL 1\nnotify p.VAL 2\nnotify p.VAL 3\ncancel 2\ncancel 2\ndone p 1 5\nget p.VAL\ncancel 1\ncancel 3\ndone p 2 6\nget p.VAL\ncancel 3\n",
        b"ok notify 1\nok notify 2\nok notify 3\nok\nE8 Stale\nok\nended 1\n= 3\nE8 Stale\nok\nok\n= 6\nE8 Stale\n",
    ),
    (
        "one that waits is tested at its call alone",
        b"record(longin,\"p\"){field(INP,\"@d\")}",
        b"process p\nnotify p.VAL 3\nput p.DISP 1\ndone p 1 5\nget p.VAL\ndone p 2 6\n",
        b"ok processed\nok notify 1\nok\nok\n= 3\nok\nended 1\n",
    ),
    (
        "one that waits for an active record starts when that is idle",
        b"record(longin,\"p\"){field(INP,\"@d\")}",
        b"process p\nnotify p.DESC hi\nget p.DESC\ndone p 1 5\nget p.DESC\n",
        b"ok processed\nok notify 1\n= \nok\nended 1\n= hi\n",
    ),
    (
        "one that is cancelled at its record leaves that active",
        b"record(longin,\"p\"){field(INP,\"@d\")}",
        b"notify p.VAL 3\ncancel 1\nget p.PACT\nnotify p.VAL 4\ndone p 1 5\nget p.VAL\ndone p 2 6\n",
        b"ok notify 1\nok\n= 1\nok notify 2\nok\n= 4\nok\nended 2\n",
    ),
    (
        "a record that a link finds active doesn't take the notification",
        b"record(longin,\"p\"){field(INP,\"@d\")} record(longin,\"s\"){field(FLNK,\"p\")}",
        b"process p\nnotify s.VAL 1\nget p.RPRO\ndone p 1 5\nget p.PACT\n",
        b"ok processed\nok notify 1\nended 1\n= 1\nok\n= 1\n",
    ),
    (
        "puts with notification beside requests that are served",
        b"record(longin,\"p\"){field(INP,\"@d\")} record(longin,\"w\"){field(SCAN,Event) field(EVNT,go) field(INP,\"1\") field(FLNK,\"x\")} record(longin,\"x\"){field(INP,\"@e\")} record(event,\"b\"){field(VAL,go)}",
        b"notify p.VAL 1\nnotify b.DESC u\nput p.DISV 0\nevent go\nnotify x.VAL 2\ndone x 1 3\ndone x 2 4\ndone p 1 9\n",
        b"ok notify 1\nok notify 2\nended 2\nok\nok 1\nok notify 3\nok\nok\nended 3\nok\nended 1\n",
    ),
    (
        "several end in one event, in the order of ending",
        b"record(longin,\"p\"){field(INP,\"@d\")} record(longin,\"q\"){field(FLNK,\"p\")}",
        b"process p\nnotify p.DESC a\nnotify p.DESC b\nnotify p.DESC c\nnotify q.VAL 1\ndone p 1 5\nget p.DESC\n",
        b"ok processed\nok notify 1\nok notify 2\nok notify 3\nok notify 4\nended 4\nok\nended 1\nended 2\nended 3\n= c\n",
    ),
    (
        "a record with RPRO ends its notification before it is processed once more",
        b"record(longin,\"p\"){field(INP,\"@d\")}",
        b"notify p.VAL 1\nput p.VAL 2\ndone p 1 5\nget p.PACT\n",
        b"ok notify 1\nok reprocess\nok\nended 1\n= 1\n",
    ),
    (
        "forms of the lines",
        b"record(longin,\"a\"){}",
        b"notify\nnotify \nnotify a\nnotify a 1\nnotify a.VAL\nnotify a.VAL \nnotify  a.VAL 1\nnotify a.DESC\nnotify a.DESC \nnotify a.DESC  x y\nget a.DESC\nnotify .VAL 1\nnotify a. 1\nnotify a.VAL.x 1\ncancel\ncancel \ncancel x\ncancel 1 \ncancel 1 2\ncancel -1\ncancel 0\ncancel 007\ncancel 18446744073709551615\ncancel 18446744073709551616\nended 1\n",
        b"bad\nbad\nbad\nbad\nE5 BadValue\nE5 BadValue\nbad\nok notify 1\nended 1\nok notify 2\nended 2\nok notify 3\nended 3\n=  x y\nE1 NoRecord\nE2 NoField\nE2 NoField\nbad\nbad\nbad\nbad\nbad\nbad\nE8 Stale\nE8 Stale\nE8 Stale\nbad\nbad\n",
    ),
];
