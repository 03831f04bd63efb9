//! Sessions with requests that wait, which one thread serves while another makes the calls. The
//! clock always shows 4.
use crate::tests::calling::Call::{Complete, Get, Process, Put};
use crate::tests::sessions::{AtEnd, Session};
use crate::tests::steps::Step::{Interrupts, Makes, Posts, ScanFails, Scans, Waits};
use crate::tests::steps::Wanted::Shows;
use crate::tests::steps::{Says, Wanted};
use ioc_engine::{IocError, Scan, Tally};

const PLAIN: Wanted = Wanted::Says(Says::Plain);

const PROCESSED: Wanted = Wanted::Says(Says::Processed);

/// Sessions in which a thread serves requests. None is dropped or handed back.
pub static WORKED: [Session; 4] = [
    // A record that is active when a value is put is reprocessed once its device has answered, and
    // awaits its device again.
    Session {
        name: "a record that a worker reprocesses",
        text: b"record(longin,\"r\"){field(INP,\"@d\")}\n",
        later: &[b"d"],
        places: None,
        steps: &[
            Makes(Process(b"r"), PROCESSED),
            Makes(Put(b"r.VAL", b"7"), Wanted::Says(Says::Reprocess)),
            Makes(Get(b"r.RPRO"), Shows(b"1")),
            Makes(Complete(b"r", 1, 5), PLAIN),
            Makes(Get(b"r.VAL"), Shows(b"5")),
            Makes(Get(b"r.RPRO"), Shows(b"0")),
            Waits(b"r.PACT", b"1"),
        ],
        end: &[
            AtEnd::Active(1),
            AtEnd::Counted(Tally {
                begun: 3,
                processed: 2,
                disabled: 0,
                active: 0,
                reprocess: 1,
                started: 2,
                completed: 1,
            }),
            AtEnd::Dropped(0, 0),
            AtEnd::Queued(1, 0, 1, 2, 0),
        ],
    },
    // An event record posts its event, and then a call does. The put clears UDF, so that the second
    // request shows in STAT.
    Session {
        name: "events for a worker",
        text: b"record(event,\"e\"){field(VAL,\"go\")}
record(longin,\"w\"){field(SCAN,Event) field(EVNT,\" go \") field(PRIO,HIGH)}
",
        later: &[],
        places: None,
        steps: &[
            Makes(Process(b"e"), PROCESSED),
            Waits(b"w.TIME", b"4"),
            Makes(Get(b"w.STAT"), Shows(b"UDF")),
            Makes(Put(b"w.VAL", b"1"), PLAIN),
            Posts(b"go", 1),
            Posts(b"0", 0),
            Waits(b"w.STAT", b"NO_ALARM"),
        ],
        end: &[
            AtEnd::Counts(3, 0, 0),
            AtEnd::Dropped(0, 0),
            AtEnd::Queued(0, 2, 2, 3, 0),
        ],
    },
    // Scans put no request on a queue, so the worker sleeps until the engine is closed.
    Session {
        name: "scans beside a worker",
        text: b"record(longin,\"a\"){field(SCAN,\"1 second\") field(PHAS,2) field(INP,\"b\")}
record(longin,\"b\"){field(SCAN,\"1 second\") field(PHAS,1) field(INP,\"@seven\")}
",
        later: &[b"seven"],
        places: None,
        steps: &[
            Scans(Scan::OneSecond, 2),
            Makes(Get(b"a.VAL"), Shows(b"7")),
            Makes(Put(b"b.PHAS", b"3"), PLAIN),
            Scans(Scan::OneSecond, 2),
            Makes(Get(b"a.VAL"), Shows(b"7")),
            ScanFails(Scan::Passive, IocError::BadValue),
        ],
        end: &[
            AtEnd::Counts(4, 0, 0),
            AtEnd::Dropped(0, 0),
            AtEnd::Queued(0, 0, 0, 4, 0),
        ],
    },
    Session {
        name: "an interrupt for a worker",
        text: b"record(longin,\"p\"){field(INP,\"@d\") field(PINI,YES)}
record(longin,\"i\"){field(SCAN,\"I/O Intr\") field(INP,\"@card 3\")}
",
        later: &[b"d", b"card 3"],
        places: None,
        steps: &[
            Makes(Get(b"p.PACT"), Shows(b"1")),
            Makes(Complete(b"p", 1, 5), PLAIN),
            Makes(Get(b"p.VAL"), Shows(b"5")),
            Interrupts(b"card", 1),
            Waits(b"i.PACT", b"1"),
        ],
        end: &[
            AtEnd::Active(1),
            AtEnd::Counts(2, 2, 1),
            AtEnd::Dropped(0, 0),
            AtEnd::Queued(0, 1, 1, 2, 0),
        ],
    },
];
