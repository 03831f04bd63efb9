//! The runs of the tests.
ghost use Rattle.ioc_engine.specs.Named.{IsNamedBy};

use crate::tests::every::is_audited;
use crate::tests::meter::{Meter, devices, held_devices};
use crate::tests::stopping::{CASES, Case, Flags, RECORDS, is_left};
use crate::tests::text::text;
use ioc_engine::{
    CountingClock, Device, DeviceName, Engine, EngineName, IocError, Limits, LoadError, Macros,
    Numbered, Seed, Started, load, with_numbers,
};
use std::alloc::Global;
use std::marker::Brand;
use std::sync::atomic::AtomicU64;
use std::sync::{Arc, Wait};
use std::test::Fail;
use std::thread::Threads;

// The limits of the engine, which makes no checkpoint itself. Its sets keep few events.
const LIMITS: Limits = Limits {
    journal: 4_194_304,
    checkpoint_at: 0,
    history: 3,
};

// What an engine is started for.
#[derive(Clone, Copy)]
enum Work<'a> {
    /// Calls that are drawn from this number on.
    Drawn(u64),
    /// A stop in the middle of something.
    Stopped(Case, Flags<'a>),
}

// Runs an engine of any name.
fn run<B: EngineName<D> + Send + Sync, D: Device + Send + Sync, R: Threads + Wait + Sync>(
    rt: &R,
    alloc: Global,
    seed: Seed<D>,
    work: Work<'_>,
) -> Result<bool, IocError>
    requires named { IsNamedBy B.table B.base B.devices B.places B.tickets B.counts seed }
{
    let Started { engine, .. } = Engine::<B, D, CountingClock>::start(
        rt,
        alloc,
        seed,
        CountingClock::new(),
        LIMITS,
    )?;
    match work {
        Work::Drawn(first) => is_audited(rt, alloc, engine, first),
        Work::Stopped(case, flags) => is_left(rt, alloc, engine, case, flags),
    }
}

// Returns the seed of a text with these devices.
fn seed_of(
    alloc: Global,
    text: &[u8],
    devices: Vec<(DeviceName, Meter)>,
) -> Result<Seed<Numbered<Meter>>, LoadError> {
    let database = load(alloc, text, &Macros::new(alloc))?;
    Ok(Seed::new(alloc, database, with_numbers(alloc, devices)?)?)
}

// Runs an engine with the records of a text and these devices.
fn run_text<R: Threads + Wait + Sync>(
    rt: &R,
    alloc: Global,
    text: &[u8],
    devices: Vec<(DeviceName, Meter)>,
    work: Work<'_>,
) -> Result<bool, IocError> {
    let Ok(seed) = seed_of(alloc, text, devices) else {
        return Err(IocError::NoMemory);
    };
    run::<Brand, Numbered<Meter>, R>(rt, alloc, seed, work)
}

// Runs an engine whose calls are drawn from this number on.
fn run_drawn<R: Threads + Wait + Sync>(
    rt: &R,
    alloc: Global,
    first: u64,
) -> Result<bool, IocError> {
    let text = text(alloc)?;
    run_text(
        rt,
        alloc,
        text.as_bytes(),
        devices(alloc)?,
        Work::Drawn(first),
    )
}

// Runs an engine that is stopped in the middle.
fn run_stopped<R: Threads + Wait + Sync>(
    rt: &R,
    alloc: Global,
    case: Case,
) -> Result<bool, IocError> {
    let asked = Arc::new(alloc, AtomicU64::new(0))?;
    let answered = Arc::new(alloc, AtomicU64::new(0))?;
    let devices = held_devices(alloc, &asked, &answered)?;
    let flags = Flags {
        asked: &asked,
        answered: &answered,
    };
    run_text(rt, alloc, RECORDS, devices, Work::Stopped(case, flags))
}

#[test]
fn every_kind_of_call_by_eight_threads(rt: HostRuntime) -> Result<(), Fail> {
    assert!(rt; run_drawn(&rt, rt.alloc(), 0)?);
    Ok(())
}

#[test]
fn stopped_in_the_middle(rt: HostRuntime) -> Result<(), Fail> {
    for case in &CASES {
        let held = run_stopped(&rt, rt.alloc(), *case)?;
        assert_eq!(rt; (case.name, held), (case.name, true));
    }
    Ok(())
}
