//! Calls beside a call that waits for its device, and behind calls that wait for its lock set.
use crate::tests::calling::Call;
use crate::tests::sensor::seen;
use crate::tests::steps::Step::{self, Makes};
use crate::tests::steps::{Says, Wanted, follow};
use ioc_engine::{Clock, Device, Engine, EngineName, Scan};
use std::sync::Wait;
use std::sync::atomic::{AtomicU64, Ordering};
use std::thread;
use std::thread::Threads;

// The number of times that a thread lets others run, so that their calls have begun.
const PAUSE: u64 = 10_000;

/// The calls of three threads. The others begin once the flag `asked` is raised, and the device of
/// the first answers once `answered` is raised, which is done when `others` are answered.
#[derive(Clone, Copy)]
pub struct Held<'a> {
    /// The calls of which one waits for its device.
    pub first: &'a [Step],
    /// The calls of which one waits for the lock set of this one.
    pub waiting: &'a [Step],
    /// The calls that wait for neither.
    pub others: &'a [Step],
    pub asked: &'a AtomicU64,
    pub answered: &'a AtomicU64,
}

// Makes calls that may wait for the first. Returns the number with the expected result.
fn wait_behind<B: EngineName<D>, D: Device, C: Clock + Drop, R: Wait>(
    rt: &R,
    engine: &Engine<B, D, C>,
    held: &Held<'_>,
) -> usize {
    if seen(held.asked) {
        follow(rt, engine, held.waiting)
    } else {
        0
    }
}

// Makes the other calls, then raises the flag. Returns the number with the expected result.
fn go_on<B: EngineName<D>, D: Device, C: Clock + Drop, R: Wait>(
    rt: &R,
    engine: &Engine<B, D, C>,
    held: &Held<'_>,
) -> usize {
    let began = seen(held.asked);
    for _ in 0..PAUSE {
        thread::yield_now();
    }
    let done = follow(rt, engine, held.others);
    held.answered.store(1, Ordering::SeqCst);
    if began { done } else { 0 }
}

/// Makes the calls of the three threads. Returns the number with the expected result.
pub fn make_beside<
    B: EngineName<D> + Send + Sync,
    D: Device + Send + Sync,
    C: Clock + Drop + Send + Sync,
    R: Threads + Wait + Sync,
>(rt: &R, engine: &Engine<B, D, C>, held: &Held<'_>) -> usize {
    let beside = || {
        thread::join(
            rt,
            || wait_behind(rt, engine, held),
            || go_on(rt, engine, held),
        )
    };
    let (first, (waiting, others)) = thread::join(rt, || follow(rt, engine, held.first), beside);
    first.saturating_add(waiting).saturating_add(others)
}

/// The records of the tests. The device of `d` waits, and the answers of `e` and `f` are
/// asynchronous.
pub const RECORDS: &[u8] = b"record(longin,\"a\"){}
record(longin,\"b\"){}
record(longin,\"d\"){field(INP,\"@d\")}
record(longin,\"c\"){}
record(longin,\"e\"){field(INP,\"@e\")}
record(longin,\"f\"){field(INP,\"@f\")}
record(longin,\"s\"){field(SCAN,\"1 second\")}
record(longin,\"w\"){field(SCAN,Event) field(EVNT,go)}
";

/// Calls beside a waiting device, by name: the calls of the three threads, and the number of lock
/// sets at the end.
#[derive(Clone, Copy)]
pub struct Case {
    pub name: &'static str,
    pub first: &'static [Step],
    pub waiting: &'static [Step],
    pub others: &'static [Step],
    pub sets: usize,
}

static HOLDS: [Step; 2] = [
    Makes(Call::Process(b"d"), Wanted::Says(Says::Processed)),
    Makes(Call::Get(b"d.VAL"), Wanted::Says(Says::Shown(b"7"))),
];

// Each kind of call, on other sets than that of `d`. The puts with notification have the numbers 1
// and 2.
static OTHERS: [Step; 14] = [
    Makes(Call::Get(b"a.VAL"), Wanted::Says(Says::Shown(b"0"))),
    Makes(Call::Put(b"a.VAL", b"3"), Wanted::Says(Says::Processed)),
    Makes(Call::Process(b"b"), Wanted::Says(Says::Processed)),
    Makes(
        Call::PutNotify(b"f.VAL", b"3"),
        Wanted::Says(Says::Notify(1)),
    ),
    Makes(Call::Live(1), Wanted::Says(Says::Live(true))),
    Step::Ends(Call::Complete(b"f", 1, 5), Wanted::Says(Says::Plain), &[1]),
    Makes(
        Call::PutNotify(b"f.VAL", b"4"),
        Wanted::Says(Says::Notify(2)),
    ),
    Makes(Call::Cancel(2), Wanted::Says(Says::Plain)),
    Makes(Call::SetLink(b"c.FLNK", b"b"), Wanted::Says(Says::Plain)),
    Makes(Call::SetLink(b"c.FLNK", b""), Wanted::Says(Says::Plain)),
    Step::Scans(Scan::OneSecond, 1),
    Step::Posts(b"go", 1),
    Step::Serves(1),
    Makes(Call::Get(b"a.VAL"), Wanted::Says(Says::Shown(b"3"))),
];

static CHECKPOINT: [Step; 1] = [Step::Checkpoint];

static PARTS: [Step; 1] = [Step::ShowsParts];

static LINK_TO_HELD: [Step; 1] = [Makes(Call::SetLink(b"a.FLNK", b"d"), Wanted::Says(Says::Plain))];

static LINK_OF_HELD: [Step; 1] = [Makes(Call::SetLink(b"d.FLNK", b"a"), Wanted::Says(Says::Plain))];

static CALLS_OF_HELD: [Step; 2] = [
    Makes(Call::Get(b"d.VAL"), Wanted::Says(Says::Shown(b"7"))),
    Makes(Call::Put(b"d.DESC", b"x"), Wanted::Says(Says::Plain)),
];

// A put with notification is live on the set of `d`.
static HOLDS_A_PUT: [Step; 4] = [
    Makes(Call::SetLink(b"e.FLNK", b"d"), Wanted::Says(Says::Plain)),
    Makes(
        Call::PutNotify(b"e.VAL", b"3"),
        Wanted::Says(Says::Notify(1)),
    ),
    Makes(Call::Process(b"d"), Wanted::Says(Says::Processed)),
    Makes(Call::Get(b"d.VAL"), Wanted::Says(Says::Shown(b"7"))),
];

static CANCEL_ON_HELD: [Step; 2] = [
    Makes(Call::Cancel(1), Wanted::Says(Says::Plain)),
    Makes(Call::Live(1), Wanted::Says(Says::Live(false))),
];

// Another put with notification is begun and cancelled.
static OTHER_PUTS: [Step; 5] = [
    Makes(Call::Live(1), Wanted::Says(Says::Live(true))),
    Makes(
        Call::PutNotify(b"f.VAL", b"3"),
        Wanted::Says(Says::Notify(2)),
    ),
    Makes(Call::Cancel(2), Wanted::Says(Says::Plain)),
    Makes(Call::SetLink(b"c.FLNK", b"b"), Wanted::Says(Says::Plain)),
    Makes(Call::Put(b"a.VAL", b"3"), Wanted::Says(Says::Processed)),
];

/// Each kind of call beside a request that waits for its device, alone and behind a call that
/// waits for the same lock set.
pub fn cases() -> [Case; 7] {
    [
        Case {
            name: "beside a request",
            first: &HOLDS,
            waiting: &[],
            others: &OTHERS,
            sets: 8,
        },
        Case {
            name: "behind calls on its records",
            first: &HOLDS,
            waiting: &CALLS_OF_HELD,
            others: &OTHERS,
            sets: 8,
        },
        Case {
            name: "behind a checkpoint",
            first: &HOLDS,
            waiting: &CHECKPOINT,
            others: &OTHERS,
            sets: 8,
        },
        Case {
            name: "behind a look at the lock sets",
            first: &HOLDS,
            waiting: &PARTS,
            others: &OTHERS,
            sets: 8,
        },
        Case {
            name: "behind a link to its record",
            first: &HOLDS,
            waiting: &LINK_TO_HELD,
            others: &OTHERS,
            sets: 7,
        },
        Case {
            name: "behind a link of its record",
            first: &HOLDS,
            waiting: &LINK_OF_HELD,
            others: &OTHERS,
            sets: 7,
        },
        Case {
            name: "behind a cancel on its set",
            first: &HOLDS_A_PUT,
            waiting: &CANCEL_ON_HELD,
            others: &OTHER_PUTS,
            sets: 6,
        },
    ]
}
