//! Threads that serve the requests of one event.
use crate::later::Sensor;
use crate::work::Job;
use ioc_engine::{Engine, EngineName, FixedClock, IocError};
use std::alloc::Global;
use std::sync::Wait;
use std::sync::atomic::{AtomicU64, Ordering};
use std::thread;
use std::thread::Threads;

// The number of events whose requests may wait at once.
const AHEAD: u64 = 4;

// Serves requests until the engine is closed, which it may be before.
fn serve<B: EngineName<Sensor>, R: Wait>(
    rt: &R,
    engine: &Engine<B, Sensor, FixedClock>,
) -> Result<(), IocError> {
    let desk = match engine.desk(rt) {
        Ok(desk) => desk,
        Err(IocError::Stopped) => return Ok(()),
        Err(error) => return Err(error),
    };
    engine.work(rt, desk)?;
    Ok(())
}

// Waits until all events but this many were served.
fn wait<R: Wait>(rt: &R, marks: &AtomicU64, posted: u64, ahead: u64) {
    for _ in rt.forever() {
        if marks.load(Ordering::SeqCst).saturating_add(ahead) >= posted {
            return;
        }
        thread::yield_now();
    }
}

// Posts the event this many times, and returns the number of requests.
fn post<B: EngineName<Sensor>, R: Wait>(
    rt: &R,
    engine: &Engine<B, Sensor, FixedClock>,
    events: u64,
    marks: &AtomicU64,
) -> Result<u64, IocError> {
    let mut desk = engine.desk(rt)?;
    let mut requests = 0u64;
    for event in 0..events {
        wait(rt, marks, event, AHEAD - 1);
        let (count, _receipt) = engine.post_event(rt, &mut desk, b"all")?;
        requests = requests.saturating_add(count);
    }
    wait(rt, marks, events, 0);
    Ok(requests)
}

/// Carries out the rounds of all threads that serve, and returns the number of requests of the
/// events that one thread posts. `marks` counts the events whose requests were taken.
///
/// # Errors
///
/// The first refusal of a call. [`IocError::NoMemory`] if allocation fails.
pub fn served<B: EngineName<Sensor> + Send + Sync, R: Threads + Wait + Sync>(
    rt: &R,
    alloc: Global,
    engine: &Engine<B, Sensor, FixedClock>,
    job: &Job,
    marks: &AtomicU64,
) -> Result<u64, IocError> {
    let events = job.rounds.saturating_mul(job.threads as u64) / (job.crowd() as u64).max(1);
    let each = |thread: usize| {
        if thread < job.threads {
            serve(rt, engine)?;
            return Ok(0);
        }
        let posted = post(rt, engine, events, marks);
        engine.close(rt);
        posted
    };
    let mut held = 0u64;
    for of_thread in thread::map_indices(rt, alloc, job.threads.saturating_add(1), &each)? {
        held = held.saturating_add(of_thread?);
    }
    Ok(held)
}
