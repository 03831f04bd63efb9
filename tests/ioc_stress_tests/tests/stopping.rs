//! Engines that are stopped while something is under way: what they leave, and an audit of it.
use crate::tests::every::{adds_up, again, are_alike, devices_in, serve};
use crate::tests::kept::Lines;
use crate::tests::meter::seen;
use ioc_engine::{
    Clock, Desk, Device, Engine, EngineName, Finished, Input, IocError, StoppedRecord, Tally,
    TicketTally, Value,
};
use std::alloc::Global;
use std::sync::Wait;
use std::sync::atomic::{AtomicU64, Ordering};
use std::thread;
use std::thread::Threads;

/// The records. The first two await their devices, the device of the third one waits for a flag, and
/// the last has none.
pub const RECORDS: &[u8] = b"record(longin,\"p\"){field(INP,\"@d0\")}
record(longin,\"q\"){field(INP,\"@d1\")}
record(longin,\"h\"){field(INP,\"@holding\") field(SCAN,Event) field(EVNT,go)}
record(longin,\"v\"){field(SCAN,Event) field(EVNT,to)}
";

// The number of records, and that of devices.
const COUNT: usize = 4;

const DEVICES: usize = 3;

// The number of threads.
const THREADS: usize = 3;

// The number of times that a thread lets others run, so that their calls have begun.
const PAUSE: u64 = 1_000;

/// What is under way when an engine is closed and stopped.
#[derive(Clone, Copy)]
pub enum Middle {
    /// Two records await their devices. A put with notification is live, and another one waits
    /// for its record.
    Completions,
    /// Two requests wait on a callback queue, and nobody serves them.
    Queues,
    /// A worker is inside a device, and another one sleeps.
    Workers,
    /// A checkpoint of another thread waits for a lock set whose device is asked.
    Checkpoint,
}

/// What an engine leaves.
#[derive(Clone, Copy, PartialEq, Eq, Debug)]
pub struct Left {
    /// The requests, all of which were processed.
    pub begun: u64,
    pub processed: u64,
    /// The answers of devices that were to come later, and those that came.
    pub started: u64,
    pub completed: u64,
    /// The requests that were put on callback queues, those that came from there, and the tickets
    /// that were handed back.
    pub called: u64,
    pub served: u64,
    pub handed_back: u64,
    /// For each record the number of the completion that it awaits, or 0.
    pub pending: [u64; COUNT],
    /// For each record the number of the put with notification that it is part of, or 0.
    pub notification: [u64; COUNT],
}

/// What is under way, and what is left.
#[derive(Clone, Copy)]
pub struct Case {
    pub name: &'static str,
    pub middle: Middle,
    pub left: Left,
}

// One request, which was processed and came from a callback queue.
const SERVED: Left = Left {
    begun: 1,
    processed: 1,
    started: 0,
    completed: 0,
    called: 1,
    served: 1,
    handed_back: 0,
    pending: [0; COUNT],
    notification: [0; COUNT],
};

/// All cases.
pub static CASES: [Case; 4] = [
    Case {
        name: "completions",
        middle: Middle::Completions,
        left: Left {
            begun: 3,
            processed: 3,
            started: 3,
            completed: 1,
            called: 0,
            served: 0,
            pending: [2, 1, 0, 0],
            notification: [0, 1, 0, 0],
            ..SERVED
        },
    },
    Case {
        name: "queues",
        middle: Middle::Queues,
        left: Left {
            called: 3,
            handed_back: 2,
            ..SERVED
        },
    },
    Case {
        name: "workers",
        middle: Middle::Workers,
        left: SERVED,
    },
    Case {
        name: "a checkpoint",
        middle: Middle::Checkpoint,
        left: Left {
            called: 0,
            served: 0,
            ..SERVED
        },
    },
];

/// The flags of the device that waits: it raises the first one when it is asked, and answers when
/// the second one is raised.
#[derive(Clone, Copy)]
pub struct Flags<'a> {
    pub asked: &'a AtomicU64,
    pub answered: &'a AtomicU64,
}

// Has a record await its second completion, and another one its first, for a put with notification
// for which a second one waits.
fn await_devices<B: EngineName<D>, D: Device, C: Clock + Drop, R: Wait>(
    rt: &R,
    engine: &Engine<B, D, C>,
    desk: &mut Desk<B, D>,
) -> Result<(), IocError> {
    let first = engine.record(b"p")?;
    let second = engine.channel(b"q")?;
    engine.process(rt, desk, first)?;
    engine.complete(rt, desk, first, 1, Finished::Done(Value::Long(5)))?;
    engine.process(rt, desk, first)?;
    engine.put_notify(rt, desk, second, Input::from_text(b"3"))?;
    engine.put_notify(rt, desk, second, Input::from_text(b"7"))?;
    Ok(())
}

// Posts an event three times, and serves one of its requests.
fn post_and_serve<B: EngineName<D>, D: Device, C: Clock + Drop, R: Wait>(
    rt: &R,
    engine: &Engine<B, D, C>,
    desk: &mut Desk<B, D>,
) -> Result<(), IocError> {
    for _ in 0..3 {
        engine.post_event(rt, desk, b"to")?;
    }
    engine.serve_one(rt, desk);
    Ok(())
}

// Waits until the device is asked, and lets others run then.
fn pause(flags: Flags<'_>) {
    if seen(flags.asked) {
        for _ in 0..PAUSE {
            thread::yield_now();
        }
    }
}

// Brings an engine into the middle, closes it, and has the device answer then.
fn lead_and_close<B: EngineName<D>, D: Device, C: Clock + Drop, R: Wait>(
    rt: &R,
    engine: &Engine<B, D, C>,
    middle: Middle,
    flags: Flags<'_>,
) -> Result<(), IocError> {
    let mut desk = engine.desk(rt)?;
    let led = match middle {
        Middle::Completions => await_devices(rt, engine, &mut desk),
        Middle::Queues => post_and_serve(rt, engine, &mut desk),
        Middle::Workers => match engine.post_event(rt, &mut desk, b"go") {
            Ok(_) => Ok(pause(flags)),
            Err(error) => Err(error),
        },
        Middle::Checkpoint => Ok(pause(flags)),
    };
    engine.close(rt);
    flags.answered.store(1, Ordering::SeqCst);
    led
}

// Requests the record whose device waits.
fn hold<B: EngineName<D>, D: Device, C: Clock + Drop, R: Wait>(
    rt: &R,
    alloc: Global,
    engine: &Engine<B, D, C>,
) -> Result<Lines, IocError> {
    let mut desk = engine.desk(rt)?;
    engine.process(rt, &mut desk, engine.record(b"h")?)?;
    Ok(Lines::new(alloc))
}

// Makes a checkpoint once the device is asked, and keeps the entries that leave memory. There is
// none if the engine is closed before.
fn checkpoint<B: EngineName<D>, D: Device, C: Clock + Drop, R: Wait>(
    rt: &R,
    alloc: Global,
    engine: &Engine<B, D, C>,
    flags: Flags<'_>,
) -> Result<Lines, IocError> {
    let mut lines = Lines::new(alloc);
    if !seen(flags.asked) {
        return Ok(lines);
    }
    let kept = match engine.desk(rt) {
        Ok(mut desk) => lines.keep(rt, engine, &mut desk),
        Err(error) => Err(error),
    };
    match kept {
        Ok(()) | Err(IocError::Stopped) => Ok(lines),
        Err(error) => Err(error),
    }
}

// Does what a thread has to do in this case. Returns the entries that left memory.
fn take_part<B: EngineName<D>, D: Device, C: Clock + Drop, R: Wait>(
    rt: &R,
    alloc: Global,
    engine: &Engine<B, D, C>,
    middle: Middle,
    flags: Flags<'_>,
    thread: usize,
) -> Result<Lines, IocError> {
    match (thread, middle) {
        (0, _) => {
            lead_and_close(rt, engine, middle, flags)?;
            Ok(Lines::new(alloc))
        }
        (_, Middle::Workers) => serve(rt, alloc, engine),
        (1, Middle::Checkpoint) => hold(rt, alloc, engine),
        (_, Middle::Checkpoint) => checkpoint(rt, alloc, engine, flags),
        _ => Ok(Lines::new(alloc)),
    }
}

// Brings an engine into the middle by all threads. Returns the entries that left memory.
fn lead<
    B: EngineName<D> + Send + Sync,
    D: Device + Send + Sync,
    C: Clock + Drop + Send + Sync,
    R: Threads + Wait + Sync,
>(
    rt: &R,
    alloc: Global,
    engine: &Engine<B, D, C>,
    middle: Middle,
    flags: Flags<'_>,
) -> Result<Lines, IocError> {
    let each = |thread: usize| take_part(rt, alloc, engine, middle, flags, thread);
    let mut kept = Lines::new(alloc);
    for taken in thread::map_indices(rt, alloc, THREADS, &each)? {
        let lines = taken?;
        if lines.next > kept.next {
            kept = lines;
        }
    }
    Ok(kept)
}

// Returns what an engine has left.
fn left_by<D>(tally: Tally, tickets: TicketTally, records: &[StoppedRecord<D>]) -> Left {
    let mut left = Left {
        begun: tally.begun,
        processed: tally.processed,
        started: tally.started,
        completed: tally.completed,
        called: tickets.called,
        served: tickets.served,
        handed_back: tickets.handed_back,
        ..SERVED
    };
    for stopped in records {
        let (number, common) = (stopped.number.index(), &stopped.fields.common);
        if let Some(pending) = left.pending.get_mut(number) {
            *pending = common.pending.unwrap_or(0);
        }
        if let (Some(live), Some(id)) = (left.notification.get_mut(number), common.notification) {
            *live = id.number();
        }
    }
    left
}

/// Brings an engine into the middle of something and stops it. Returns whether it leaves what it
/// should, with all devices, and its journal leads to the same records on one map.
pub fn is_left<
    B: EngineName<D> + Send + Sync,
    D: Device + Send + Sync,
    C: Clock + Drop + Send + Sync,
    R: Threads + Wait + Sync,
>(
    rt: &R,
    alloc: Global,
    engine: Engine<B, D, C>,
    case: Case,
    flags: Flags<'_>,
) -> Result<bool, IocError> {
    let mut lines = lead(rt, alloc, &engine, case.middle, flags)?;
    let report = engine.stop(rt);
    lines.keep_rest(&report)?;
    let (tally, tickets, adds_up) = (report.tally(), report.tickets(), adds_up(&report));
    let records = report.into_records(alloc)?;
    let is_right = adds_up
        && left_by(tally, tickets, records.as_slice()) == case.left
        && devices_in(records.as_slice()) == DEVICES;
    match again(alloc, RECORDS, &lines)? {
        Some(auditor) => Ok(is_right && are_alike(records.as_slice(), auditor.map().records())),
        None => Ok(false),
    }
}
