//! Runs an engine from a database text to its end. All tests share one function, because a
//! function that starts an engine is costly to prove.
ghost use Rattle.ioc_engine.specs.Named.{IsNamedBy};

use crate::tests::beside::{Held, make_beside};
use crate::tests::eight::eight;
use crate::tests::moments::moments_rise;
use crate::tests::overtaken::stays_where_put;
use crate::tests::scanned::is_scanned_alike;
use crate::tests::sensor::{Sensor, seen};
use crate::tests::steps::{Step, follow};
use crate::tests::timer::Timer;
use crate::tests::workers::{one_worker, pushers_and_workers, sleepers, two_workers};
use ioc_engine::{
    Call, Clock, CountingClock, Device, DeviceName, Engine, EngineName, Event, FieldText, Input,
    IocError, JournalEntry, Limits, LoadError, Macros, Numbered, Outcome, Receipt, Reply, Report,
    Seed, Started, StoppedRecord, Tally, TicketTally, load, with_numbers,
};
use ioc_fields::{FieldNo, OwnField};
use ioc_record::text_of;
use std::alloc::Global;
use std::marker::Brand;
use std::sync::Wait;
use std::sync::atomic::{AtomicU64, Ordering};
use std::thread;
use std::thread::Threads;

const VALUE: FieldNo = FieldNo::Own(OwnField::Val);

/// What is done with an engine.
#[derive(Clone, Copy)]
pub enum Work<'a> {
    /// The calls of one desk.
    Steps(&'a [Step]),
    /// The first calls begin, and the others follow once the first flag is raised. The second flag
    /// is raised once these are answered.
    Beside {
        first: &'a [Step],
        others: &'a [Step],
        asked: &'a AtomicU64,
        answered: &'a AtomicU64,
    },
    /// The calls of three threads, of which the first waits for its device.
    Behind(&'a Held<'a>),
    /// The calls of eight threads, and the same calls on one map.
    Eight,
    /// Two desks, of which the second learns of the call of the first, and their entries.
    Learns,
    /// A call before a checkpoint and one after it, and their entries.
    Drops,
    /// Two threads serve two requests, of which the first waits in its device until the second is
    /// done.
    Workers {
        asked: &'a AtomicU64,
        answered: &'a AtomicU64,
    },
    /// The first calls, while a thread serves the requests that wait. The others follow in a thread
    /// of their own once the flag is raised. The clock always shows 4.
    Served {
        first: &'a [Step],
        others: &'a [Step],
        asked: &'a AtomicU64,
    },
    /// Threads that post events, and threads that serve the requests.
    Pushers,
    /// Threads that sleep because no request waits, until the engine is closed.
    Sleepers,
    /// Requests of one record by eight threads, and their time stamps.
    Moments,
    /// Scans beside puts and link changes, and the same calls on one map.
    Scanned,
    /// Changes of a record's scan list, of which the later one arrives first.
    Overtaken,
}

/// What is found at the end of an engine.
#[derive(Clone, Copy)]
pub struct Ended {
    /// The number of steps with the expected result.
    pub held: usize,
    /// The number of lock sets, or 0 if the engine was closed.
    pub sets: usize,
    pub records: usize,
    /// The number of records that await their devices.
    pub active: usize,
    /// The number of records that are given back with a device.
    pub devices: usize,
    pub tally: Tally,
    pub tickets: TicketTally,
    /// The number of items that events dropped.
    pub dropped: u64,
    /// The number of once requests that were dropped.
    pub requests_dropped: u64,
    /// The place of the first entry that the journal has.
    pub first_place: u64,
    /// The field VAL of the first record at the last checkpoint, and the number of puts with
    /// notification that waited then.
    pub base: Option<(FieldText, usize)>,
}

// Makes calls once the first flag is raised, then raises the second. Returns the number of calls
// with the expected reply.
fn follow_then<B: EngineName<D>, D: Device, C: Clock + Drop, R: Wait>(
    rt: &R,
    engine: &Engine<B, D, C>,
    others: &[Step],
    asked: &AtomicU64,
    answered: &AtomicU64,
) -> usize {
    let began = seen(asked);
    let held = follow(rt, engine, others);
    answered.store(1, Ordering::SeqCst);
    if began { held } else { 0 }
}

// Returns the number of calls with the expected reply.
fn done<
    B: EngineName<D> + Send + Sync,
    D: Device + Send + Sync,
    C: Clock + Drop + Send + Sync,
    R: Threads + Wait + Sync,
>(rt: &R, alloc: Global, engine: &Engine<B, D, C>, work: Work<'_>) -> usize {
    match work {
        Work::Steps(steps) => follow(rt, engine, steps),
        Work::Beside {
            first,
            others,
            asked,
            answered,
        } => {
            let (one, other) = thread::join(
                rt,
                || follow(rt, engine, first),
                || follow_then(rt, engine, others, asked, answered),
            );
            one.saturating_add(other)
        }
        Work::Behind(held) => make_beside(rt, engine, held),
        Work::Eight => eight(rt, alloc, engine).unwrap_or(0),
        Work::Workers { asked, answered } => two_workers(rt, engine, asked, answered),
        Work::Served {
            first,
            others,
            asked,
        } => one_worker(rt, engine, first, others, asked),
        Work::Pushers => pushers_and_workers(rt, alloc, engine).unwrap_or(0),
        Work::Sleepers => sleepers(rt, alloc, engine).unwrap_or(0),
        Work::Learns | Work::Drops | Work::Moments | Work::Scanned | Work::Overtaken => 0,
    }
}

// Returns the number of records that await their devices.
fn awaiting<D>(records: &[StoppedRecord<D>]) -> usize {
    let mut active = 0usize;
    for stopped in records {
        if stopped.fields.common.active {
            active = active.saturating_add(1);
        }
    }
    active
}

// Returns the number of records with a device.
fn with_device<D>(records: &[StoppedRecord<D>]) -> usize {
    let mut devices = 0usize;
    for stopped in records {
        if stopped.device.is_some() {
            devices = devices.saturating_add(1);
        }
    }
    devices
}

// Returns the field VAL of the first record at the last checkpoint, and the number of puts with
// notification that waited then.
fn base_of<B: EngineName<D>, D: Device>(report: &Report<B, D>) -> Option<(FieldText, usize)> {
    let base = report.base()?;
    match base.records.first() {
        Some(Some(record)) => Some((text_of(record, VALUE), base.waiting.len())),
        _ => None,
    }
}

// Ends an engine in which this many steps had the expected result.
fn end<B: EngineName<D>, D: Device, C: Clock + Drop, R: Wait>(
    rt: &R,
    alloc: Global,
    engine: Engine<B, D, C>,
    held: usize,
) -> Option<Ended> {
    let sets = match engine.desk(rt) {
        Ok(mut desk) => match engine.parts(rt, &mut desk) {
            Ok(parts) => parts.len(),
            Err(_closed) => 0,
        },
        Err(_closed) => 0,
    };
    let report = engine.stop(rt);
    let tally = report.tally();
    let tickets = report.tickets();
    let dropped = report.dropped();
    let requests_dropped = report.requests_dropped();
    let first_place = report.first_place();
    let base = base_of(&report);
    let Ok(records) = report.into_records(alloc) else {
        return None;
    };
    Some(Ended {
        held,
        sets,
        records: records.len(),
        active: awaiting(records.as_slice()),
        devices: with_device(records.as_slice()),
        tally,
        tickets,
        dropped,
        requests_dropped,
        first_place,
        base,
    })
}

// Puts a value by one desk, and gets it by a second one, which learns of the put before.
fn put_and_learn<B: EngineName<D>, D: Device, C: Clock + Drop, R: Wait>(
    rt: &R,
    engine: &Engine<B, D, C>,
) -> Result<(Receipt<B>, Receipt<B>), IocError> {
    let mut first = engine.desk(rt)?;
    let mut second = engine.desk(rt)?;
    let channel = engine.channel(b"a")?;
    let (_, mut receipt) = engine.put(rt, &mut first, channel, Input::from_text(b"5"))?;
    engine.learn(rt, &mut second, &mut receipt);
    let (_, shown) = engine.get(rt, &mut second, channel)?;
    Ok((receipt, shown))
}

// Returns whether a journal entry is the first call of the first desk, a put whose record was
// processed.
fn is_first_put(kept: &JournalEntry) -> bool {
    kept.desk == 0
        && kept.call == 0
        && matches!(
            kept.entry.call,
            Call::Event(Event::Put { .. }, Reply::Outcome(Outcome::Processed))
        )
}

// Returns whether a journal entry is this call of this desk, a get that showed a 5.
fn is_get_of_five(kept: &JournalEntry, desk: u64, call: u64) -> bool {
    let Call::Get(_, _, Ok(text)) = kept.entry.call else {
        return false;
    };
    kept.desk == desk && kept.call == call && text == FieldText::cut(b"5")
}

// Returns whether the journal has the put with this receipt.
fn has_put<B: EngineName<D>, D: Device, R: Wait>(
    rt: &R,
    report: &mut Report<B, D>,
    receipt: &mut Receipt<B>,
) -> bool {
    match report.entry(rt, receipt) {
        Some(kept) => is_first_put(kept),
        None => false,
    }
}

// Returns whether the journal has the get with this receipt, as this call of this desk.
fn has_get<B: EngineName<D>, D: Device, R: Wait>(
    rt: &R,
    report: &mut Report<B, D>,
    receipt: &mut Receipt<B>,
    desk: u64,
    call: u64,
) -> bool {
    match report.entry(rt, receipt) {
        Some(kept) => is_get_of_five(kept, desk, call),
        None => false,
    }
}

// Returns whether the second desk's call came after the first one's, and both are in the journal.
fn has_learnt<B: EngineName<D>, D: Device, C: Clock + Drop, R: Wait>(
    rt: &R,
    engine: Engine<B, D, C>,
) -> bool {
    let Ok((mut put, mut shown)) = put_and_learn(rt, &engine) else {
        return false;
    };
    let is_later = put.place() < shown.place();
    let mut report = engine.stop(rt);
    let is_put = has_put(rt, &mut report, &mut put);
    let is_shown = has_get(rt, &mut report, &mut shown, 1, 0);
    is_later && is_put && is_shown
}

// Puts a value before a checkpoint, and gets it after it.
fn put_and_drop<B: EngineName<D>, D: Device, C: Clock + Drop, R: Wait>(
    rt: &R,
    engine: &Engine<B, D, C>,
) -> Result<(Receipt<B>, Receipt<B>), IocError> {
    let mut desk = engine.desk(rt)?;
    let channel = engine.channel(b"a")?;
    let (_, put) = engine.put(rt, &mut desk, channel, Input::from_text(b"5"))?;
    engine.checkpoint(rt)?;
    let (_, shown) = engine.get(rt, &mut desk, channel)?;
    Ok((put, shown))
}

// Returns whether the journal has the call after a checkpoint and not the one before it.
fn has_dropped<B: EngineName<D>, D: Device, C: Clock + Drop, R: Wait>(
    rt: &R,
    engine: Engine<B, D, C>,
) -> bool {
    let Ok((mut put, mut shown)) = put_and_drop(rt, &engine) else {
        return false;
    };
    let mut report = engine.stop(rt);
    let is_gone = report.entry(rt, &mut put).is_none();
    let is_there = has_get(rt, &mut report, &mut shown, 0, 1);
    is_gone && is_there && shown.place() == 1 && report.first_place() == 1
}

// Returns whether something was found, as one step or none.
fn told(is_found: bool) -> Ended {
    Ended {
        held: usize::from(is_found),
        sets: 0,
        records: 0,
        active: 0,
        devices: 0,
        tally: Tally::default(),
        tickets: TicketTally::default(),
        dropped: 0,
        requests_dropped: 0,
        first_place: 0,
        base: None,
    }
}

// Returns the clock of an engine with which this is done.
fn clock_of(work: Work<'_>) -> Timer {
    match work {
        Work::Served { .. } => Timer::Fixed(4),
        _ => Timer::Counting(CountingClock::new()),
    }
}

// Runs an engine of any name, and returns the result, or `None` if it can't be started.
fn run<B: EngineName<D> + Send + Sync, D: Device + Send + Sync, R: Threads + Wait + Sync>(
    rt: &R,
    alloc: Global,
    seed: Seed<D>,
    limits: Limits,
    work: Work<'_>,
) -> Option<Ended>
    requires named { IsNamedBy B.table B.base B.devices B.places B.tickets B.counts seed }
{
    let clock = clock_of(work);
    let Ok(Started { engine, .. }) = Engine::<B, D, Timer>::start(rt, alloc, seed, clock, limits)
    else {
        return None;
    };
    match work {
        Work::Learns => return Some(told(has_learnt(rt, engine))),
        Work::Drops => return Some(told(has_dropped(rt, engine))),
        Work::Moments => return Some(told(moments_rise(rt, alloc, engine).unwrap_or(false))),
        Work::Scanned => return Some(told(is_scanned_alike(rt, alloc, engine).unwrap_or(false))),
        Work::Overtaken => return Some(told(stays_where_put(rt, &engine).unwrap_or(false))),
        _ => (),
    }
    let held = done(rt, alloc, &engine, work);
    end(rt, alloc, engine, held)
}

// Returns the seed of a text, with these devices.
fn seed_of(
    alloc: Global,
    text: &[u8],
    devices: Vec<(DeviceName, Sensor)>,
) -> Result<Seed<Numbered<Sensor>>, LoadError> {
    let database = load(alloc, text, &Macros::new(alloc))?;
    Ok(Seed::new(alloc, database, with_numbers(alloc, devices)?)?)
}

/// Runs an engine with the records of a text and these devices. Returns `None` if the text can't be
/// loaded, or the engine can't be started.
pub fn run_text<R: Threads + Wait + Sync>(
    rt: &R,
    alloc: Global,
    text: &[u8],
    devices: Vec<(DeviceName, Sensor)>,
    limits: Limits,
    work: Work<'_>,
) -> Option<Ended> {
    let seed = seed_of(alloc, text, devices).ok()?;
    run::<Brand, Numbered<Sensor>, R>(rt, alloc, seed, limits, work)
}
