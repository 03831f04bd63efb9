//! Engines from a database text to their end.
use crate::tests::calling::Call;
use crate::tests::eight::{CALLS, RECORDS, THREADS, text};
use crate::tests::running::{Ended, Work, run_text};
use crate::tests::sensor::Sensor;
use crate::tests::sessions::AtEnd::{self, Counts, Devices, Records, Sets};
use crate::tests::sessions::{Session, sessions};
use crate::tests::steps::Step::{self, Makes};
use crate::tests::steps::{Says, Wanted};
use crate::tests::worked::WORKED;
use crate::tests::workers::{EACH, POSTS};
use crate::tests::{beside, overtaken, scanned};
use ioc_engine::{DeviceName, FieldText, IocError, Limits, Tally, TicketTally};
use std::alloc::{AllocError, Global};
use std::fmt::Write;
use std::sync::atomic::AtomicU64;
use std::sync::{Arc, Wait};
use std::test::Fail;
use std::thread::Threads;

// Returns devices with these names. The one named `seven` answers at once, and the answers of all
// others are asynchronous.
fn later(alloc: Global, names: &[&[u8]]) -> Result<Vec<(DeviceName, Sensor)>, AllocError> {
    let mut devices = Vec::new(alloc);
    for name in names {
        let sensor = if *name == b"seven".as_slice() {
            Sensor::Odd(7)
        } else {
            Sensor::Later
        };
        devices.push((DeviceName::cut(name), sensor))?;
    }
    Ok(devices)
}

// Returns the counts where all requests were processed.
fn tally_of(processed: u64, started: u64, completed: u64) -> Tally {
    Tally {
        begun: processed,
        processed,
        disabled: 0,
        active: 0,
        reprocess: 0,
        started,
        completed,
    }
}

// Returns the numbers of tickets where none is out.
fn tickets_of(sent: u64, called: u64, served: u64, spent: u64, handed_back: u64) -> TicketTally {
    TicketTally {
        begun: spent.saturating_add(handed_back),
        sent,
        called,
        served,
        spent,
        handed_back,
        out: 0,
    }
}

// Returns whether this is found at the end.
fn is_found(ended: &Ended, wanted: AtEnd) -> bool {
    match wanted {
        Sets(count) => ended.sets == count,
        Records(count) => ended.records == count,
        Devices(count) => ended.devices == count,
        AtEnd::Active(count) => ended.active == count,
        AtEnd::FirstPlace(place) => ended.first_place == place,
        AtEnd::Base(text, waiting) => ended.base == Some((FieldText::cut(text), waiting)),
        AtEnd::Dropped(dropped, once) => ended.dropped == dropped && ended.requests_dropped == once,
        AtEnd::Tickets(sent, spent, handed_back) => {
            ended.tickets == tickets_of(sent, 0, 0, spent, handed_back)
        }
        AtEnd::Queued(sent, called, served, spent, handed_back) => {
            ended.tickets == tickets_of(sent, called, served, spent, handed_back)
        }
        Counts(processed, started, completed) => {
            ended.tally == tally_of(processed, started, completed)
        }
        AtEnd::Counted(tally) => ended.tally == tally,
    }
}

// Returns the number of steps with the expected result, and whether the end is as expected too.
fn result(ended: Option<Ended>, wanted: &[AtEnd]) -> (usize, bool) {
    let Some(ended) = ended else {
        return (0, false);
    };
    for found in wanted {
        if !is_found(&ended, *found) {
            return (ended.held, false);
        }
    }
    (ended.held, true)
}

// Returns the limits of a journal with this many places, whose checkpoints are made by steps.
fn limited(journal: u64) -> Limits {
    Limits {
        journal,
        checkpoint_at: 0,
        history: 1,
    }
}

// Runs the calls of a session by this work.
fn run_session<R: Threads + Wait + Sync>(
    rt: &R,
    alloc: Global,
    session: &Session,
    work: Work<'_>,
) -> Result<(usize, bool), IocError> {
    let limits = match session.places {
        Some(journal) => limited(journal),
        None => Limits::default(),
    };
    let devices = later(alloc, session.later)?;
    let ended = run_text(rt, alloc, session.text, devices, limits, work);
    Ok(result(ended, session.end))
}

// Returns the name of the first of these sessions with another result, if there is one.
fn failing<R: Threads + Wait + Sync>(
    rt: &R,
    alloc: Global,
    sessions: &[Session],
) -> Result<Option<&'static str>, IocError> {
    for session in sessions {
        let work = Work::Steps(session.steps);
        if run_session(rt, alloc, session, work)? != (session.steps.len(), true) {
            return Ok(Some(session.name));
        }
    }
    Ok(None)
}

#[test]
fn calls_of_a_desk(rt: HostRuntime) -> Result<(), Fail> {
    for sessions in &sessions() {
        assert_eq!(rt; failing(&rt, rt.alloc(), sessions)?, None);
    }
    Ok(())
}

// Returns the name of the first of the sessions with a worker that has another result, if there is
// one.
fn failing_worked<R: Threads + Wait + Sync>(
    rt: &R,
    alloc: Global,
) -> Result<Option<&'static str>, IocError> {
    let raised = AtomicU64::new(1);
    for session in &WORKED {
        let work = Work::Served {
            first: session.steps,
            others: &[],
            asked: &raised,
        };
        if run_session(rt, alloc, session, work)? != (session.steps.len(), true) {
            return Ok(Some(session.name));
        }
    }
    Ok(None)
}

#[test]
fn requests_for_one_worker(rt: HostRuntime) -> Result<(), Fail> {
    assert_eq!(rt; failing_worked(&rt, rt.alloc())?, None);
    Ok(())
}

// A record with a device, and one that waits for an event and reads it.
const COMPLETED: &[u8] = b"record(longin,\"d\"){field(INP,\"@d\")}
record(longin,\"w\"){field(SCAN,Event) field(EVNT,done) field(INP,\"d\")}
";

static STARTS: [Step; 2] = [
    Makes(Call::Process(b"d"), Wanted::Says(Says::Processed)),
    Step::Waits(b"w.VAL", b"5"),
];

static COMPLETES: [Step; 2] = [
    Makes(Call::Complete(b"d", 1, 5), Wanted::Says(Says::Plain)),
    Step::Posts(b"done", 1),
];

// Returns whether a thread of its own completes a record once its device was called, and then
// posts an event whose request a worker serves.
fn is_completed_beside<R: Threads + Wait + Sync>(rt: &R, alloc: Global) -> Result<bool, IocError> {
    let asked = flag(alloc)?;
    let mut devices = Vec::new(alloc);
    let starting = Sensor::Starting(Arc::try_clone(&asked)?);
    devices.push((DeviceName::cut(b"d"), starting))?;
    let work = Work::Served {
        first: &STARTS,
        others: &COMPLETES,
        asked: &asked,
    };
    let ended = run_text(rt, alloc, COMPLETED, devices, Limits::default(), work);
    let wanted = [
        Counts(2, 1, 1),
        AtEnd::Dropped(0, 0),
        AtEnd::Queued(0, 1, 1, 2, 0),
    ];
    Ok(result(ended, &wanted) == (4, true))
}

#[test]
fn completed_by_another_thread(rt: HostRuntime) -> Result<(), Fail> {
    assert!(rt; is_completed_beside(&rt, rt.alloc())?);
    Ok(())
}

// Two records with devices, and three others. The answers of the second device are asynchronous.
const HELD: &[u8] = b"record(longin,\"d\"){field(INP,\"@d\")}
record(longin,\"e\"){field(INP,\"@e\")}
record(longin,\"a\"){}
record(longin,\"b\"){}
record(longin,\"c\"){}
";

// The record with the device is processed, and shows the value from it.
static HOLDS: [Step; 2] = [
    Makes(Call::Process(b"d"), Wanted::Answered),
    Makes(Call::Get(b"d.VAL"), Wanted::Says(Says::Shown(b"7"))),
];

static REQUEST: [Step; 1] = [Makes(Call::Process(b"a"), Wanted::Says(Says::Processed))];

static LINK_CHANGE: [Step; 1] = [Makes(Call::SetLink(b"b.FLNK", b"c"), Wanted::Says(Says::Plain))];

static CANCEL: [Step; 3] = [
    Makes(
        Call::PutNotify(b"e.VAL", b"3"),
        Wanted::Says(Says::Notify(1)),
    ),
    Makes(Call::Cancel(1), Wanted::Says(Says::Plain)),
    Makes(Call::Live(1), Wanted::Says(Says::Live(false))),
];

// The same with a put with notification, which ends with its answer.
static HOLDS_PUT: [Step; 2] = [
    Step::Ends(
        Call::PutNotify(b"d.VAL", b"3"),
        Wanted::Says(Says::Notify(1)),
        &[1],
    ),
    Makes(Call::Get(b"d.VAL"), Wanted::Says(Says::Shown(b"7"))),
];

static OTHER_PUT: [Step; 5] = [
    Makes(
        Call::PutNotify(b"e.VAL", b"3"),
        Wanted::Says(Says::Notify(2)),
    ),
    Makes(Call::Live(1), Wanted::Says(Says::Live(false))),
    Makes(Call::Live(2), Wanted::Says(Says::Live(true))),
    Makes(Call::Cancel(2), Wanted::Says(Says::Plain)),
    Makes(Call::Live(2), Wanted::Says(Says::Live(false))),
];

fn flag(alloc: Global) -> Result<Arc<AtomicU64, Global>, AllocError> {
    Ok(Arc::new(alloc, AtomicU64::new(0))?)
}

// Makes calls of a record whose device answers once calls on other sets are answered. Returns
// whether it did, was called before those calls, and all had the expected replies.
fn are_both_answered<R: Threads + Wait + Sync>(
    rt: &R,
    alloc: Global,
    first: &[Step],
    others: &[Step],
    sets: usize,
) -> Result<bool, IocError> {
    let asked = flag(alloc)?;
    let answered = flag(alloc)?;
    let device = Sensor::Holding(Arc::try_clone(&asked)?, Arc::try_clone(&answered)?);
    let mut devices = Vec::new(alloc);
    devices.push((DeviceName::cut(b"d"), device))?;
    devices.push((DeviceName::cut(b"e"), Sensor::Later))?;
    let work = Work::Beside {
        first,
        others,
        asked: &asked,
        answered: &answered,
    };
    let ended = run_text(rt, alloc, HELD, devices, Limits::default(), work);
    let steps = others.len().saturating_add(first.len());
    Ok(result(ended, &[Sets(sets), Records(5), Devices(2)]) == (steps, true))
}

// Returns what the first of these calls on two sets was that waited for the other, if one did. The
// number of lock sets at the end is expected too.
fn waiting<R: Threads + Wait + Sync>(
    rt: &R,
    alloc: Global,
) -> Result<Option<&'static str>, IocError> {
    let calls: [(&'static str, &[Step], &[Step], usize); 4] = [
        ("a request", &HOLDS, &REQUEST, 5),
        ("a link change", &HOLDS, &LINK_CHANGE, 4),
        ("a cancel", &HOLDS, &CANCEL, 5),
        ("a put beside a put", &HOLDS_PUT, &OTHER_PUT, 5),
    ];
    for (name, first, others, sets) in &calls {
        if !are_both_answered(rt, alloc, first, others, *sets)? {
            return Ok(Some(*name));
        }
    }
    Ok(None)
}

#[test]
fn two_sets_at_once(rt: HostRuntime) -> Result<(), Fail> {
    assert_eq!(rt; waiting(&rt, rt.alloc())?, None);
    Ok(())
}

// Returns whether the calls of a case have the expected results.
fn is_answered_beside<R: Threads + Wait + Sync>(
    rt: &R,
    alloc: Global,
    case: &beside::Case,
) -> Result<bool, IocError> {
    let asked = flag(alloc)?;
    let answered = flag(alloc)?;
    let device = Sensor::Holding(Arc::try_clone(&asked)?, Arc::try_clone(&answered)?);
    let mut devices = Vec::new(alloc);
    devices.push((DeviceName::cut(b"d"), device))?;
    devices.push((DeviceName::cut(b"e"), Sensor::Later))?;
    devices.push((DeviceName::cut(b"f"), Sensor::Later))?;
    let held = beside::Held {
        first: case.first,
        waiting: case.waiting,
        others: case.others,
        asked: &asked,
        answered: &answered,
    };
    let work = Work::Behind(&held);
    let ended = run_text(rt, alloc, beside::RECORDS, devices, Limits::default(), work);
    let steps = case
        .first
        .len()
        .saturating_add(case.waiting.len())
        .saturating_add(case.others.len());
    Ok(result(ended, &[Sets(case.sets), Records(8), Devices(3)]) == (steps, true))
}

// Returns the first case in which a call waits for the device of another set, if there is one.
fn waiting_behind<R: Threads + Wait + Sync>(
    rt: &R,
    alloc: Global,
) -> Result<Option<&'static str>, IocError> {
    for case in &beside::cases() {
        if !is_answered_beside(rt, alloc, case)? {
            return Ok(Some(case.name));
        }
    }
    Ok(None)
}

#[test]
fn no_call_waits_for_another_sets_device(rt: HostRuntime) -> Result<(), Fail> {
    assert_eq!(rt; waiting_behind(&rt, rt.alloc())?, None);
    Ok(())
}

// The devices of the eight threads.
static EIGHT: [&[u8]; THREADS] = [b"d0", b"d1", b"d2", b"d3", b"d4", b"d5", b"d6", b"d7"];

// Returns whether all calls of eight threads are answered as on one map, and all records are there
// at the end.
fn are_all_answered<R: Threads + Wait + Sync>(rt: &R, alloc: Global) -> Result<bool, IocError> {
    let text = text(alloc)?;
    let bytes = text.as_bytes();
    let devices = later(alloc, &EIGHT)?;
    let Some(end) = run_text(rt, alloc, bytes, devices, Limits::default(), Work::Eight) else {
        return Ok(false);
    };
    Ok(end.held == THREADS * CALLS && end.records == RECORDS && end.devices == THREADS)
}

#[test]
fn eight_threads(rt: HostRuntime) -> Result<(), Fail> {
    assert!(rt; are_all_answered(&rt, rt.alloc())?);
    Ok(())
}

// Returns whether this work with one record has what is looked for.
fn is_there<R: Threads + Wait + Sync>(
    rt: &R,
    alloc: Global,
    work: Work<'_>,
) -> Result<bool, IocError> {
    let text = b"record(longin,\"a\"){}\n";
    let none = Vec::new(alloc);
    let Some(end) = run_text(rt, alloc, text, none, Limits::default(), work) else {
        return Ok(false);
    };
    Ok(end.held == 1)
}

// A desk that learns of a call makes its next call after it, and the journal has both calls.
#[test]
fn learnt_and_entered(rt: HostRuntime) -> Result<(), Fail> {
    assert!(rt; is_there(&rt, rt.alloc(), Work::Learns)?);
    Ok(())
}

#[test]
fn entries_after_a_checkpoint(rt: HostRuntime) -> Result<(), Fail> {
    assert!(rt; is_there(&rt, rt.alloc(), Work::Drops)?);
    Ok(())
}

// The clock is read while the lock of the record's set is held.
#[test]
fn times_never_fall(rt: HostRuntime) -> Result<(), Fail> {
    assert!(rt; is_there(&rt, rt.alloc(), Work::Moments)?);
    Ok(())
}

// The journal's calls on one map give the records that four threads leave that scan, beside two
// that put records on other lists and change links.
#[test]
fn scans_beside_changes(rt: HostRuntime) -> Result<(), Fail> {
    let text = scanned::text(rt.alloc())?;
    let none = Vec::new(rt.alloc());
    let work = Work::Scanned;
    let limits = Limits::default();
    let ended = run_text(&rt, rt.alloc(), text.as_bytes(), none, limits, work);
    assert_eq!(rt; result(ended, &[]), (1, true));
    Ok(())
}

// A change of a scan list that comes after a later one of its record is ignored, by whichever threads
// they come.
#[test]
fn late_changes_of_scan_lists(rt: HostRuntime) -> Result<(), Fail> {
    let text = overtaken::text(rt.alloc())?;
    let none = Vec::new(rt.alloc());
    let limits = Limits::default();
    let ended = run_text(
        &rt,
        rt.alloc(),
        text.as_bytes(),
        none,
        limits,
        Work::Overtaken,
    );
    assert_eq!(rt; result(ended, &[]), (1, true));
    Ok(())
}

// The number of puts with notification that can be live.
const LIVE: u64 = 256;

// Returns steps by which as many puts with notification are live as can be. The next one is
// refused, and the one after a cancel isn't.
fn steps_to_limit(alloc: Global) -> Result<Vec<Step>, AllocError> {
    let put = Call::PutNotify(b"p.VAL", b"3");
    let mut steps = Vec::new(alloc);
    for number in 1..=LIVE {
        steps.push(Makes(put, Wanted::Says(Says::Notify(number))))?;
    }
    steps.push(Makes(put, Wanted::Fails(IocError::QueueFull)))?;
    steps.push(Makes(Call::Cancel(LIVE), Wanted::Says(Says::Plain)))?;
    steps.push(Makes(put, Wanted::Says(Says::Notify(LIVE + 1))))?;
    Ok(steps)
}

// Returns steps by which more puts with notification are refused than can be live, since the
// journal has one place.
fn steps_in_full_journal(alloc: Global) -> Result<Vec<Step>, AllocError> {
    let put = Call::PutNotify(b"p.VAL", b"3");
    let mut steps = Vec::new(alloc);
    steps.push(Makes(Call::Process(b"p"), Wanted::Answered))?;
    for _ in 0..=LIVE {
        steps.push(Makes(put, Wanted::Fails(IocError::JournalFull)))?;
    }
    Ok(steps)
}

// Returns whether these steps on a record with an asynchronous device have the expected results.
fn are_limited<R: Threads + Wait + Sync>(
    rt: &R,
    alloc: Global,
    limits: Limits,
    steps: &[Step],
) -> Result<bool, IocError> {
    let text = b"record(longin,\"p\"){field(INP,\"@d\")}\n";
    let devices = later(alloc, &[b"d"])?;
    let ended = run_text(rt, alloc, text, devices, limits, Work::Steps(steps));
    let wanted = [Sets(1), Records(1), Devices(1), AtEnd::Active(1)];
    Ok(result(ended, &wanted) == (steps.len(), true))
}

#[test]
fn limit_of_live_puts(rt: HostRuntime) -> Result<(), Fail> {
    let steps = steps_to_limit(rt.alloc())?;
    assert!(rt; are_limited(&rt, rt.alloc(), Limits::default(), steps.as_slice())?);
    Ok(())
}

#[test]
fn refused_puts_keep_no_places(rt: HostRuntime) -> Result<(), Fail> {
    let steps = steps_in_full_journal(rt.alloc())?;
    let limits = limited(1);
    assert!(rt; are_limited(&rt, rt.alloc(), limits, steps.as_slice())?);
    Ok(())
}

// The number of records of the chain.
const CHAIN: usize = 100_000;

// A request of the first record of the chain processes them all.
static CHAINED: [Step; 3] = [
    Makes(Call::Get(b"c99999.STAT"), Wanted::Says(Says::Shown(b"UDF"))),
    Makes(Call::Process(b"c0"), Wanted::Says(Says::Processed)),
    Makes(
        Call::Get(b"c99999.STAT"),
        Wanted::Says(Says::Shown(b"NO_ALARM")),
    ),
];

// Returns a database text with a chain of forward links, whose last record has a value.
fn chain_text(alloc: Global) -> Result<String, AllocError> {
    let mut text = String::new(alloc);
    for number in 0..CHAIN {
        let next = number.saturating_add(1);
        let Ok(()) = writeln!(
            text,
            "record(longin,\"c{number}\"){{field(FLNK,\"c{next}\")}}"
        ) else {
            return Err(AllocError);
        };
    }
    text.push_str("record(longin,\"c99999\"){field(VAL,1)}\n")?;
    Ok(text)
}

// Returns whether all records of the chain are processed.
fn is_all_processed<R: Threads + Wait + Sync>(rt: &R, alloc: Global) -> Result<bool, IocError> {
    let text = chain_text(alloc)?;
    let work = Work::Steps(&CHAINED);
    let none = Vec::new(alloc);
    let ended = run_text(rt, alloc, text.as_bytes(), none, Limits::default(), work);
    let all = CHAIN as u64;
    Ok(result(ended, &[Sets(1), Records(CHAIN), Counts(all, 0, 0)]) == (3, true))
}

#[test]
fn long_chain(rt: HostRuntime) -> Result<(), Fail> {
    assert!(rt; is_all_processed(&rt, rt.alloc())?);
    Ok(())
}

// The number of puts of an engine that makes its checkpoints itself.
const PUTS_WITHOUT_END: usize = 1000;

// Returns whether all these puts are answered by an engine with ten places in its journal.
fn is_without_end<R: Threads + Wait + Sync>(rt: &R, alloc: Global) -> Result<bool, IocError> {
    let text = b"record(longin,\"a\"){}\n";
    let put = Makes(Call::Put(b"a.VAL", b"1"), Wanted::Says(Says::Processed));
    let steps = vec![in alloc; put; PUTS_WITHOUT_END]?;
    let limits = Limits {
        journal: 10,
        checkpoint_at: 1,
        history: 64,
    };
    let none = Vec::new(alloc);
    let ended = run_text(rt, alloc, text, none, limits, Work::Steps(&steps));
    let wanted = [Counts(1000, 0, 0), AtEnd::FirstPlace(990)];
    Ok(result(ended, &wanted) == (PUTS_WITHOUT_END, true))
}

#[test]
fn checkpoints_of_its_own(rt: HostRuntime) -> Result<(), Fail> {
    assert!(rt; is_without_end(&rt, rt.alloc())?);
    Ok(())
}

// Two records that wait for one event, whose devices have these names.
const TWO_CALLED: &[u8] = b"record(longin,\"a\"){field(SCAN,Event) field(EVNT,go) field(INP,\"@d\")}
record(longin,\"b\"){field(SCAN,Event) field(EVNT,go) field(INP,\"@e\")}
";

// Returns whether two threads serve two requests at once: the device of the first one answers once
// the second one's was called.
fn work_at_once<R: Threads + Wait + Sync>(rt: &R, alloc: Global) -> Result<bool, IocError> {
    let asked = flag(alloc)?;
    let answered = flag(alloc)?;
    let mut devices = Vec::new(alloc);
    let holding = Sensor::Holding(Arc::try_clone(&asked)?, Arc::try_clone(&answered)?);
    devices.push((DeviceName::cut(b"d"), holding))?;
    devices.push((
        DeviceName::cut(b"e"),
        Sensor::Raising(Arc::try_clone(&answered)?),
    ))?;
    let work = Work::Workers {
        asked: &asked,
        answered: &answered,
    };
    let ended = run_text(rt, alloc, TWO_CALLED, devices, Limits::default(), work);
    let wanted = [Counts(2, 0, 0), AtEnd::Queued(0, 2, 2, 2, 0)];
    Ok(result(ended, &wanted) == (1, true))
}

#[test]
fn two_workers_at_once(rt: HostRuntime) -> Result<(), Fail> {
    assert!(rt; work_at_once(&rt, rt.alloc())?);
    Ok(())
}

// Returns a database text with a record for each event of the threads that post.
fn called_text(alloc: Global) -> Result<String, AllocError> {
    let mut text = String::new(alloc);
    for number in 0..EACH {
        writeln!(
            text,
            "record(longin,\"r{number}\"){{field(SCAN,Event) field(EVNT,go{number})}}"
        )?;
    }
    Ok(text)
}

// Returns whether the tickets of all requests that were posted are spent or handed back, and none
// was dropped.
fn tickets_add_up(ended: &Ended) -> bool {
    let tickets = ended.tickets;
    ended.held == EACH + EACH
        && tickets.called == (EACH * POSTS) as u64
        && tickets.begun == tickets.called
        && tickets.served == tickets.spent
        && tickets.spent.saturating_add(tickets.handed_back) == tickets.begun
        && tickets.out == 0
        && ended.dropped == 0
        && ended.requests_dropped == 0
        && ended.tally.begun == tickets.spent
}

// Returns whether the tickets add up where threads post events and as many serve their requests. The
// journal has few places, so each thread waits for checkpoints, and no event is refused.
fn do_tickets_add_up<R: Threads + Wait + Sync>(rt: &R, alloc: Global) -> Result<bool, IocError> {
    let text = called_text(alloc)?;
    let none = Vec::new(alloc);
    let limits = Limits {
        journal: 16,
        checkpoint_at: 8,
        history: 2,
    };
    let Some(end) = run_text(rt, alloc, text.as_bytes(), none, limits, Work::Pushers) else {
        return Ok(false);
    };
    Ok(tickets_add_up(&end))
}

#[test]
fn four_pushers_and_four_workers(rt: HostRuntime) -> Result<(), Fail> {
    assert!(rt; do_tickets_add_up(&rt, rt.alloc())?);
    Ok(())
}

// The number of records that wait for one event, one more than a callback queue holds.
const CALLED: usize = 2001;

// Returns a database text with that many records.
fn crowded_text(alloc: Global) -> Result<String, AllocError> {
    let mut text = String::new(alloc);
    for number in 0..CALLED {
        writeln!(
            text,
            "record(longin,\"r{number}\"){{field(SCAN,Event) field(EVNT,go)}}"
        )?;
    }
    Ok(text)
}

static CROWD: [Step; 2] = [Step::Posts(b"go", 2001), Step::Serves(2000)];

// Returns whether one of the requests of an event finds its queue full, and all others are served.
fn is_one_dropped<R: Threads + Wait + Sync>(rt: &R, alloc: Global) -> Result<bool, IocError> {
    let text = crowded_text(alloc)?;
    let none = Vec::new(alloc);
    let work = Work::Steps(&CROWD);
    let ended = run_text(rt, alloc, text.as_bytes(), none, Limits::default(), work);
    let wanted = [
        Counts(2000, 0, 0),
        AtEnd::Dropped(0, 1),
        AtEnd::Queued(0, 2001, 2000, 2000, 1),
    ];
    Ok(result(ended, &wanted) == (2, true))
}

#[test]
fn one_request_too_many(rt: HostRuntime) -> Result<(), Fail> {
    assert!(rt; is_one_dropped(&rt, rt.alloc())?);
    Ok(())
}

// Returns whether all threads that sleep while no request waits end once the engine is closed.
fn do_sleepers_end<R: Threads + Wait + Sync>(rt: &R, alloc: Global) -> Result<bool, IocError> {
    let text = b"record(longin,\"a\"){}\n";
    let none = Vec::new(alloc);
    let ended = run_text(rt, alloc, text, none, Limits::default(), Work::Sleepers);
    let wanted = [AtEnd::Dropped(0, 0), AtEnd::Queued(0, 0, 0, 0, 0)];
    Ok(result(ended, &wanted) == (EACH + 1, true))
}

#[test]
fn close_while_workers_sleep(rt: HostRuntime) -> Result<(), Fail> {
    assert!(rt; do_sleepers_end(&rt, rt.alloc())?);
    Ok(())
}
