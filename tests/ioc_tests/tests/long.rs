//! Long databases and scripts with the expected output: chains of 100,000 records, which need no
//! deeper stack, and exceeded limits.
use crate::tests::parts::Piece::{Here, Next, Words};
use crate::tests::parts::{Part, text};
use crate::tests::programs::prints;
use std::alloc::{AllocError, Global};
use std::test::Fail;

/// A database and a script, and the expected output.
struct Long {
    name: &'static str,
    db: &'static [Part],
    script: &'static [Part],
    wanted: &'static [Part],
}

// A record that awaits its device.
const AWAITING: Part = (0, 1, &[Words("record(longin,\"p\"){field(INP,\"@d\")}")]);

// The replies to 256 puts with notification.
const STARTED: Part = (1, 257, &[Words("ok notify "), Here, Words("\n")]);

// Records with a forward link to the next.
const CHAIN: Part = (
    0,
    99_999,
    &[
        Words("record(longin,r"),
        Here,
        Words("){field(FLNK,\"r"),
        Next,
        Words("\")}\n"),
    ],
);

// A database with one record and no link.
const SINGLE: &[Part] = &[(0, 1, &[Words("record(longin,\"a\"){field(VAL,\"3\")}")])];

static LONG: [Long; 11] = [
    Long {
        name: "a chain of forward links",
        db: &[
            CHAIN,
            (0, 1, &[Words("record(longin,r99999){field(FLNK,\"\")}\n")]),
        ],
        script: &[(
            0,
            1,
            &[Words("process r0\nget r99999.LCNT\nget r99999.STAT\n")],
        )],
        wanted: &[(0, 1, &[Words("ok processed\n= 0\n= UDF\n")])],
    },
    Long {
        name: "a ring of forward links",
        db: &[
            CHAIN,
            (
                0,
                1,
                &[Words("record(longin,r99999){field(FLNK,\"r0\")}\n")],
            ),
        ],
        script: &[(0, 1, &[Words("process r0\nget r0.LCNT\n")])],
        wanted: &[(0, 1, &[Words("ok processed\n= 1\n")])],
    },
    Long {
        name: "a chain of input links",
        db: &[
            (
                0,
                99_999,
                &[
                    Words("record(longin,r"),
                    Here,
                    Words("){field(INP,\"r"),
                    Next,
                    Words(" PP\")}\n"),
                ],
            ),
            (0, 1, &[Words("record(longin,r99999){field(INP,\"5\")}\n")]),
        ],
        script: &[(0, 1, &[Words("process r0\nget r0.VAL\n")])],
        wanted: &[(0, 1, &[Words("ok processed\n= 5\n")])],
    },
    // A chain of 257 records, each with a device of its own with one queued answer, 1: an event
    // calls 256 devices, and every further call is a fault.
    Long {
        name: "devices past 256",
        db: &[(
            0,
            257,
            &[
                Words("record(longin,r"),
                Here,
                Words("){field(INP,\"@d"),
                Here,
                Words("\") field(FLNK,r"),
                Next,
                Words(")}"),
            ],
        )],
        script: &[
            (0, 257, &[Words("next r"), Here, Words(" done 1\n")]),
            (0, 1, &[Words("process r0\nget r255.VAL\nget r256.STAT\n")]),
        ],
        wanted: &[
            (0, 257, &[Words("ok\n")]),
            (0, 1, &[Words("ok processed\n= 1\n= READ\n")]),
        ],
    },
    // A chain of 2,000 records, each with a link to the one before it, and 2,000 more without
    // links.
    Long {
        name: "sets of many records",
        db: &[
            (0, 1, &[Words("record(longin,r0){}")]),
            (
                0,
                1999,
                &[
                    Words("record(longin,r"),
                    Next,
                    Words("){field(INP,r"),
                    Here,
                    Words(")}"),
                ],
            ),
            (0, 2000, &[Words("record(longin,s"), Here, Words("){}")]),
        ],
        script: &[(0, 1, &[Words("sets\n")])],
        wanted: &[
            (0, 1, &[Words("sets {r0")]),
            (0, 1999, &[Words(" r"), Next]),
            (0, 1, &[Words("}")]),
            (0, 2000, &[Words(" {s"), Here, Words("}")]),
            (0, 1, &[Words("\n")]),
        ],
    },
    // Of 257 puts with notification on a record that awaits its device, 256 are live. One more may
    // begin after a cancel.
    Long {
        name: "notifications past 256",
        db: &[AWAITING],
        script: &[
            (1, 258, &[Words("notify p.VAL 1\n")]),
            (0, 1, &[Words("cancel 256\nnotify p.VAL 1\n")]),
        ],
        wanted: &[
            STARTED,
            (0, 1, &[Words("E9 QueueFull\nok\nok notify 257\n")]),
        ],
    },
    // 255 wait behind one, and all end in the event that lets them start: each stores a value and
    // processes nothing.
    Long {
        name: "256 notifications that end together",
        db: &[AWAITING],
        script: &[
            (0, 1, &[Words("notify p.VAL 1\n")]),
            (2, 257, &[Words("notify p.DISV 1\n")]),
            (0, 1, &[Words("notify p.VAL 1\ndone p 1 5\n")]),
        ],
        wanted: &[
            STARTED,
            (0, 1, &[Words("E9 QueueFull\nok\n")]),
            (1, 257, &[Words("ended "), Here, Words("\n")]),
        ],
    },
    // One event for 2,001 records: a queue holds 2,000 requests, and 1,000 are served after a line.
    Long {
        name: "callbacks past 2000",
        db: &[(
            0,
            2001,
            &[
                Words("record(longin,r"),
                Here,
                Words("){field(SCAN,Event) field(EVNT,go)}"),
            ],
        )],
        script: &[(0, 1, &[Words("event go\ntally\ntally\n")])],
        wanted: &[(
            0,
            1,
            &[Words(
                "ok 2000\ntally begun=1000 processed=1000 disabled=0 active=0 reprocess=0 started=0 completed=0 dropped=1\ntally begun=2000 processed=2000 disabled=0 active=0 reprocess=0 started=0 completed=0 dropped=1\n",
            )],
        )],
    },
    // A chain of 257 event records: an event sends 256 items, and every further one is dropped.
    Long {
        name: "posts past 256",
        db: &[
            (
                0,
                257,
                &[
                    Words("record(event,e"),
                    Here,
                    Words("){field(VAL,go) field(FLNK,e"),
                    Next,
                    Words(")}"),
                ],
            ),
            (
                0,
                1,
                &[Words("record(longin,w){field(SCAN,Event) field(EVNT,go)}")],
            ),
        ],
        script: &[(0, 1, &[Words("process e0\ntally\n")])],
        wanted: &[(
            0,
            1,
            &[Words(
                "ok processed\ntally begun=513 processed=513 disabled=0 active=0 reprocess=0 started=0 completed=0 dropped=1\n",
            )],
        )],
    },
    Long {
        name: "the longest line, a comment",
        db: SINGLE,
        script: &[(0, 1024, &[Words("#")]), (0, 1, &[Words("\n")])],
        wanted: &[],
    },
    Long {
        name: "a line that is too long",
        db: SINGLE,
        script: &[(0, 1025, &[Words("#")]), (0, 1, &[Words("\n")])],
        wanted: &[(0, 1, &[Words("bad\n")])],
    },
];

// Returns whether a run has the expected output.
fn comes_to(alloc: Global, long: &Long) -> Result<bool, AllocError> {
    let db = text(alloc, long.db)?;
    let script = text(alloc, long.script)?;
    let wanted = text(alloc, long.wanted)?;
    Ok(prints(alloc, db.as_bytes(), script.as_bytes(), wanted.as_bytes()))
}

#[test]
fn long_runs(rt: HostRuntime) -> Result<(), Fail> {
    for long in &LONG {
        assert!(rt; comes_to(rt.alloc(), long)?, "{}", long.name);
    }
    Ok(())
}
