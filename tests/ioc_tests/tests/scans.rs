//! Scripts with scan lists, posted events, interrupts, and records with PINI.
use crate::tests::programs::Program;

pub static PROGRAMS: [Program; 9] = [
    (
        "a list in the order of PHAS, and after a put to PHAS",
        b"record(longin,\"a\"){field(SCAN,\"1 second\") field(PHAS,2) field(INP,\"b\")} record(longin,\"b\"){field(SCAN,\"1 second\") field(PHAS,1) field(INP,\"@d\")}",
        b"next b done 7\nscan 1 second\nget a.VAL\nput b.PHAS 3\nnext b done 9\nscan 1 second\nget a.VAL\nscan Passive\n",
        b"ok\nok 2\n= 7\nok\nok\nok 2\n= 7\nbad\n",
    ),
    (
        "a record with PINI, and an interrupt",
        b"record(longin,\"p\"){field(INP,\"@d\") field(PINI,YES)} record(longin,\"i\"){field(SCAN,\"I/O Intr\") field(INP,\"@card 3\")}",
        b"get p.PACT\ndone p 1 5\nget p.VAL\nio card\nget i.PACT\n",
        b"= 1\nok\n= 5\nok 1\n= 1\n",
    ),
    (
        "an event that a record posts",
        b"record(event,\"e\"){field(VAL,\"go\")} record(longin,\"w\"){field(SCAN,Event) field(EVNT,\" go \") field(PRIO,HIGH)}",
        b"at 4\nprocess e\nget w.TIME\nevent go\nevent 0\n",
        b"ok\nok processed\n= 4\nok 1\nok 0\n",
    ),
    (
        "records with PINI go by PHAS, and not by number",
        b"record(longin,\"a\"){field(PINI,YES) field(PHAS,1) field(INP,\"b\")} record(longin,\"b\"){field(PINI,YES) field(INP,\"c\")} record(longin,\"c\"){field(VAL,6)}",
        b"get a.VAL\nget b.VAL\ntally\n",
        b"= 6\n= 6\ntally begun=2 processed=2 disabled=0 active=0 reprocess=0 started=0 completed=0 dropped=0\n",
    ),
    (
        "what records with PINI post is served after the first line",
        b"record(event,\"e\"){field(VAL,\"go\") field(PINI,YES)} record(longin,\"w\"){field(SCAN,Event) field(EVNT,go) field(INP,\"3\") field(FLNK,\"n\")} record(longin,\"n\"){field(INP,\"w\")}",
        b"get n.VAL\nget n.VAL\n",
        b"= 0\n= 3\n",
    ),
    (
        "callback queues are served from HIGH to LOW",
        b"record(longin,\"l\"){field(SCAN,Event) field(EVNT,go) field(PRIO,LOW) field(INP,\"h\")} record(longin,\"h\"){field(SCAN,Event) field(EVNT,go) field(PRIO,HIGH) field(INP,\"s\")} record(longin,\"s\"){field(VAL,8)}",
        b"event go\nget l.VAL\n",
        b"ok 2\n= 8\n",
    ),
    (
        "a put to SCAN or EVNT moves a record, and one through a link does",
        b"record(longin,\"a\"){} record(stringout,\"o\"){field(OUT,\"a.EVNT\")}",
        b"scan 1 second\nput a.SCAN 1 second\nscan 1 second\nput a.SCAN Event\nscan 1 second\nevent x\nput o.VAL x\nevent x\nput a.SCAN Passive\nevent x\n",
        b"ok 0\nok\nok 1\nok\nok 0\nok 0\nok processed\nok 1\nok\nok 0\n",
    ),
    (
        "interrupts go by the first word, also of a device that another record owns",
        b"record(longin,\"a\"){field(SCAN,\"I/O Intr\") field(INP,\"@card 3\")} record(longin,\"b\"){field(SCAN,\"I/O Intr\") field(INP,\"@card 3\")} record(longout,\"o\"){field(SCAN,\"I/O Intr\") field(OUT,\"@cards\")} record(longin,\"n\"){field(SCAN,\"I/O Intr\")}",
        b"io card\nio cards\nio car\nget a.PACT\nget b.STAT\nget o.PACT\nget n.UDF\n",
        b"ok 2\nok 1\nok 0\n= 1\n= LINK\n= 1\n= 1\n",
    ),
    (
        "forms of the lines for scan lists",
        b"",
        b"event\nevent \nevent  a  b \nio\nio \nio a b\nio a\nscan\nscan 1 second \nscan 6\nscan 1 seconds\nscan Event\nscan 10 second\nscan .1 second\n",
        b"ok 0\nok 0\nok 0\nbad\nbad\nbad\nok 0\nbad\nbad\nbad\nbad\nbad\nok 0\nok 0\n",
    ),
];
