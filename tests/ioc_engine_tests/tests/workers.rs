//! Threads that serve the requests that wait.
use crate::tests::sensor::seen;
use crate::tests::steps::{Step, follow};
use ioc_engine::{Clock, Desk, Device, Engine, EngineName, IocError};
use std::alloc::Global;
use std::fmt::Write;
use std::sync::Wait;
use std::sync::atomic::{AtomicU64, Ordering};
use std::thread;
use std::thread::Threads;

/// The number of threads that post events, and of those that serve requests.
pub const EACH: usize = 4;

/// The number of events that each thread posts.
pub const POSTS: usize = 50;

// Serves requests until the engine is closed, which it may be before. Returns whether it could.
fn works<B: EngineName<D>, D: Device, C: Clock + Drop, R: Wait>(
    rt: &R,
    engine: &Engine<B, D, C>,
) -> bool {
    match engine.desk(rt) {
        Ok(desk) => engine.work(rt, desk).is_ok(),
        Err(error) => matches!(error, IocError::Stopped),
    }
}

/// Has a thread serve the requests that wait, while a second one makes the first calls, and a third
/// one the others once the flag is raised. The engine is closed after the first calls. Returns the
/// number of calls with the expected result, or 0 if the requests couldn't be served.
pub fn one_worker<
    B: EngineName<D> + Send + Sync,
    D: Device + Send + Sync,
    C: Clock + Drop + Send + Sync,
    R: Threads + Wait + Sync,
>(rt: &R, engine: &Engine<B, D, C>, first: &[Step], others: &[Step], asked: &AtomicU64) -> usize {
    let Ok(desk) = engine.desk(rt) else {
        return 0;
    };
    let work = || engine.work(rt, desk).is_ok();
    let follow_others = || {
        let began = seen(asked);
        let held = follow(rt, engine, others);
        if began { held } else { 0 }
    };
    let follow_first = || {
        let held = follow(rt, engine, first);
        engine.close(rt);
        held
    };
    let both = || thread::join(rt, work, follow_others);
    let ((worked, other), held) = thread::join(rt, both, follow_first);
    if worked {
        held.saturating_add(other)
    } else {
        0
    }
}

// The number of times that a thread lets others run before it closes an engine.
const YIELDS: usize = 10_000;

/// Has threads serve requests where none waits, so that they sleep, and closes the engine. Returns
/// the number of threads that ended.
pub fn sleepers<
    B: EngineName<D> + Send + Sync,
    D: Device + Send + Sync,
    C: Clock + Drop + Send + Sync,
    R: Threads + Wait + Sync,
>(rt: &R, alloc: Global, engine: &Engine<B, D, C>) -> Result<usize, IocError> {
    let each = |number: usize| {
        if number < EACH {
            return works(rt, engine);
        }
        for _ in 0..YIELDS {
            thread::yield_now();
        }
        engine.close(rt);
        true
    };
    let mut held = 0usize;
    for could in thread::map_indices(rt, alloc, EACH + 1, &each)? {
        held = held.saturating_add(usize::from(could));
    }
    Ok(held)
}

// Posts an event on which two records wait, and closes the engine once the device of one of them
// was called and that of the other has answered. Returns the number of requests.
fn post_two<B: EngineName<D>, D: Device, C: Clock + Drop, R: Wait>(
    rt: &R,
    engine: &Engine<B, D, C>,
    asked: &AtomicU64,
    answered: &AtomicU64,
) -> Result<u64, IocError> {
    let mut desk = engine.desk(rt)?;
    let (count, _receipt) = engine.post_event(rt, &mut desk, b"go")?;
    let both = seen(asked) && seen(answered);
    Ok(if both { count } else { 0 })
}

/// Has two threads serve the two requests of one event. Returns the number of steps that held: both
/// threads worked, and both records were requested.
pub fn two_workers<
    B: EngineName<D> + Send + Sync,
    D: Device + Send + Sync,
    C: Clock + Drop + Send + Sync,
    R: Threads + Wait + Sync,
>(rt: &R, engine: &Engine<B, D, C>, asked: &AtomicU64, answered: &AtomicU64) -> usize {
    let both = || thread::join(rt, || works(rt, engine), || works(rt, engine));
    let post = || {
        let count = post_two(rt, engine, asked, answered);
        engine.close(rt);
        count
    };
    let ((one, other), count) = thread::join(rt, both, post);
    usize::from(one && other && count == Ok(2))
}

// Posts events of which each has a record of its own.
fn post_all<B: EngineName<D>, D: Device, C: Clock + Drop, R: Wait>(
    rt: &R,
    alloc: Global,
    engine: &Engine<B, D, C>,
    desk: &mut Desk<B, D>,
    thread: usize,
) -> Result<(), IocError> {
    let name = format!(in alloc; "go{thread}")?;
    for _ in 0..POSTS {
        engine.post_event(rt, desk, name.as_bytes())?;
    }
    Ok(())
}

// Posts events, and closes the engine if all other threads have posted theirs. The last one serves
// what waits before.
fn posts<B: EngineName<D>, D: Device, C: Clock + Drop, R: Wait>(
    rt: &R,
    alloc: Global,
    engine: &Engine<B, D, C>,
    thread: usize,
    done: &AtomicU64,
) -> bool {
    let Ok(mut desk) = engine.desk(rt) else {
        return false;
    };
    let posted = post_all(rt, alloc, engine, &mut desk, thread).is_ok();
    if done.fetch_add(1, Ordering::SeqCst) == EACH as u64 - 1 {
        for _ in 0..EACH * POSTS {
            if !engine.serve_one(rt, &mut desk) {
                break;
            }
        }
        engine.close(rt);
    }
    posted
}

/// Has some threads post events and as many serve their requests. Returns how many could.
pub fn pushers_and_workers<
    B: EngineName<D> + Send + Sync,
    D: Device + Send + Sync,
    C: Clock + Drop + Send + Sync,
    R: Threads + Wait + Sync,
>(rt: &R, alloc: Global, engine: &Engine<B, D, C>) -> Result<usize, IocError> {
    let done = AtomicU64::new(0);
    let each = |number: usize| {
        if number < EACH {
            posts(rt, alloc, engine, number, &done)
        } else {
            works(rt, engine)
        }
    };
    let mut held = 0usize;
    for could in thread::map_indices(rt, alloc, EACH + EACH, &each)? {
        held = held.saturating_add(usize::from(could));
    }
    Ok(held)
}
