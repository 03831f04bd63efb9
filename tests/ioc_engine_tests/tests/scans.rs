//! Sessions with scans, posted events, interrupts, PINI and requests that wait, by one thread.
use crate::tests::calling::Call::{Complete, Get, Process, Put, SetLink};
use crate::tests::sessions::{AtEnd, Session};
use crate::tests::steps::Step::{Interrupts, Lists, Makes, Posts, ScanFails, Scans, Serves};
use crate::tests::steps::Wanted::{Moves, Shows};
use crate::tests::steps::{Says, Wanted};
use ioc_engine::{IocError, Scan};

const PLAIN: Wanted = Wanted::Says(Says::Plain);

const PROCESSED: Wanted = Wanted::Says(Says::Processed);

// Two records that are scanned each second, the second one first.
const SCANNED: &[u8] =
    b"record(longin,\"a\"){field(SCAN,\"1 second\") field(PHAS,2) field(INP,\"b\")}
record(longin,\"b\"){field(SCAN,\"1 second\") field(PHAS,1) field(INP,\"@seven\")}
";

/// Sessions in which records are scanned.
pub static SCANS: [Session; 6] = [
    // A list is walked by PHAS, and a put to PHAS puts its record at another place of the list. The
    // device answers 7, and then 9.
    Session {
        name: "scans by PHAS",
        text: SCANNED,
        later: &[b"seven"],
        places: None,
        steps: &[
            Lists(Scan::OneSecond, &[b"b", b"a"]),
            Scans(Scan::OneSecond, 2),
            Makes(Get(b"a.VAL"), Shows(b"7")),
            Makes(Put(b"b.PHAS", b"3"), PLAIN),
            Lists(Scan::OneSecond, &[b"a", b"b"]),
            Scans(Scan::OneSecond, 2),
            Makes(Get(b"a.VAL"), Shows(b"7")),
            Makes(Get(b"b.VAL"), Shows(b"9")),
            ScanFails(Scan::Passive, IocError::BadValue),
            ScanFails(Scan::Event, IocError::BadValue),
            Scans(Scan::TenSeconds, 0),
        ],
        end: &[
            AtEnd::Counts(4, 0, 0),
            AtEnd::Dropped(0, 0),
            AtEnd::Queued(0, 0, 0, 4, 0),
        ],
    },
    // A record with PINI is requested at the start. An interrupt requests the record whose device
    // link begins with its word.
    Session {
        name: "PINI and an interrupt",
        text: b"record(longin,\"p\"){field(INP,\"@d\") field(PINI,YES)}
record(longin,\"i\"){field(SCAN,\"I/O Intr\") field(INP,\"@card 3\")}
",
        later: &[b"d", b"card 3"],
        places: None,
        steps: &[
            Makes(Get(b"p.PACT"), Wanted::At(1, Says::Shown(b"1"))),
            Makes(Complete(b"p", 1, 5), PLAIN),
            Makes(Get(b"p.VAL"), Shows(b"5")),
            Interrupts(b"card", 1),
            Serves(1),
            Makes(Get(b"i.PACT"), Shows(b"1")),
            Interrupts(b"car", 0),
            Makes(SetLink(b"i.INP", b""), Moves(0)),
            Interrupts(b"card", 0),
            Serves(0),
        ],
        end: &[
            AtEnd::Counts(2, 2, 1),
            AtEnd::Dropped(0, 0),
            AtEnd::Queued(0, 1, 1, 2, 0),
        ],
    },
    // A record that is active when a value is put is reprocessed once its device has answered.
    Session {
        name: "a record that is reprocessed",
        text: b"record(longin,\"r\"){field(INP,\"@d\")}\n",
        later: &[b"d"],
        places: None,
        steps: &[
            Makes(Process(b"r"), PROCESSED),
            Makes(Put(b"r.VAL", b"7"), Wanted::Says(Says::Reprocess)),
            Makes(Get(b"r.RPRO"), Shows(b"1")),
            Makes(Complete(b"r", 1, 5), PLAIN),
            Makes(Get(b"r.PACT"), Shows(b"0")),
            Serves(1),
            Makes(Get(b"r.VAL"), Shows(b"5")),
            Makes(Get(b"r.RPRO"), Shows(b"0")),
            Makes(Get(b"r.PACT"), Shows(b"1")),
        ],
        end: &[
            AtEnd::Active(1),
            AtEnd::Dropped(0, 0),
            AtEnd::Queued(1, 0, 1, 2, 0),
        ],
    },
    // An event record posts its event, and so does a call. The clock counts the calls.
    Session {
        name: "posted events",
        text: b"record(event,\"e\"){field(VAL,\"go\")}
record(longin,\"w\"){field(SCAN,Event) field(EVNT,\" go \") field(PRIO,HIGH)}
",
        later: &[],
        places: None,
        steps: &[
            Makes(Process(b"e"), PROCESSED),
            Serves(1),
            Makes(Get(b"w.TIME"), Shows(b"2")),
            Posts(b"go", 1),
            Posts(b"0", 0),
            Posts(b"", 0),
            Posts(b" go", 1),
            Serves(2),
        ],
        end: &[
            AtEnd::Counts(4, 0, 0),
            AtEnd::Dropped(0, 0),
            AtEnd::Queued(0, 3, 3, 4, 0),
        ],
    },
    // Requests are served from HIGH, MEDIUM and LOW, and then those of reprocessing. The event's
    // list has the records in the order of PHAS.
    Session {
        name: "queues by priority",
        text: b"record(longin,\"l\"){field(SCAN,Event) field(EVNT,go) field(PRIO,LOW)}
record(longin,\"h\"){field(SCAN,Event) field(EVNT,go) field(PRIO,HIGH)}
record(longin,\"m\"){field(SCAN,Event) field(EVNT,go) field(PRIO,MEDIUM)}
record(longin,\"i\"){field(SCAN,Event) field(EVNT,go) field(PRIO,HIGH) field(PHAS,-1)}
",
        later: &[],
        places: None,
        steps: &[
            Posts(b"go", 4),
            Serves(4),
            Makes(Get(b"i.TIME"), Shows(b"2")),
            Makes(Get(b"h.TIME"), Shows(b"3")),
            Makes(Get(b"m.TIME"), Shows(b"4")),
            Makes(Get(b"l.TIME"), Shows(b"5")),
        ],
        end: &[AtEnd::Counts(4, 0, 0), AtEnd::Queued(0, 4, 4, 4, 0)],
    },
    // Puts to SCAN and EVNT put a record on another list. Requests that wait at the end are handed
    // back.
    Session {
        name: "records change their lists",
        text: b"record(longin,\"a\"){}\n",
        later: &[],
        places: None,
        steps: &[
            Scans(Scan::TenthSecond, 0),
            Makes(Put(b"a.SCAN", b".1 second"), PLAIN),
            Scans(Scan::TenthSecond, 1),
            Makes(Put(b"a.SCAN", b"Event"), PLAIN),
            Scans(Scan::TenthSecond, 0),
            Posts(b"7", 0),
            Makes(Put(b"a.EVNT", b"7"), PLAIN),
            Posts(b"7", 1),
            Serves(1),
            Posts(b"7", 1),
        ],
        end: &[
            AtEnd::Counts(2, 0, 0),
            AtEnd::Dropped(0, 0),
            AtEnd::Queued(0, 2, 1, 2, 1),
        ],
    },
];
