//! `engine-bench CALLS THREADS RECORDS WORK..`: starts an engine for each work, and carries it out in
//! as many threads, each with a desk of its own and as many rounds of calls. The works are those of
//! [`Work`]; RECORDS is the length of a chain, or the number of records beside those that are called.
//! It prints the number of rounds with the expected replies, and to standard error the rounds in a
//! millisecond, the start of the engine not counted.
#![tactic(auto)]

ghost use Rattle.ioc_engine.specs.Named.{IsNamedBy};

mod command;
mod database;
mod later;
mod rounds;
mod serving;
mod work;

use crate::command::{PROGRAM, jobs};
use crate::database::text;
use crate::later::{Sensor, devices};
use crate::rounds::in_threads;
use crate::serving::served;
use crate::work::{Job, Work};
use ioc_command_line::{Ending, Reason, Stop, given, show};
use ioc_engine::{
    Engine, EngineName, FixedClock, IocError, LoadError, Macros, Seed, Started, load,
};
use std::alloc::Global;
use std::env::{self, Args};
use std::io::{self, Eprint, Print};
use std::marker::Brand;
use std::process::ExitCode;
use std::sync::atomic::AtomicU64;
use std::sync::{Arc, Wait};
use std::thread::Threads;
use std::time::{Clock, Instant};

// What was measured.
#[derive(Clone, Copy)]
struct Measured {
    rounds: u64,
    micros: u64,
}

// Returns the seed of the records that a job calls.
fn seed_of(
    alloc: Global,
    job: &Job,
    marks: &Arc<AtomicU64, Global>,
) -> Result<Seed<Sensor>, LoadError> {
    let text = text(alloc, job.records())?;
    let database = load(alloc, text.as_bytes(), &Macros::new(alloc))?;
    Ok(Seed::new(alloc, database, devices(alloc, job.threads, marks)?)?)
}

// Waits until standard input ends, and returns the number of rounds, which is 1.
fn hold<R: Input>(rt: &R, alloc: Global) -> u64 {
    let mut line = String::new(alloc);
    u64::from(rt.read_line(&mut line).is_ok())
}

// Carries out a job with an engine.
fn carry_out<B: EngineName<Sensor> + Send + Sync, R: Clock + Input + Threads + Wait + Sync>(
    rt: &R,
    alloc: Global,
    seed: Seed<Sensor>,
    job: &Job,
    marks: &AtomicU64,
) -> Result<Measured, IocError>
    requires named { IsNamedBy B.table B.base B.devices B.places B.tickets B.counts seed }
{
    let Started { engine, .. } = Engine::<B, _, _>::start(
        rt,
        alloc,
        seed,
        FixedClock(1),
        job.limits(),
    )?;
    let begun = Instant::now(rt);
    let rounds = match job.work {
        Work::Hold => hold(rt, alloc),
        Work::Serve => served(rt, alloc, &engine, job, marks)?,
        _ => in_threads(rt, alloc, &engine, job)?,
    };
    Ok(Measured {
        rounds,
        micros: micros_since(rt, begun),
    })
}

// Returns the microseconds since an instant, or 0 if the clock can't be read.
fn micros_since<R: Clock>(rt: &R, begun: io::Result<Instant>) -> u64 {
    let Ok(begun) = begun else {
        return 0;
    };
    match begun.elapsed(rt) {
        Ok(took) => u64::try_from(took.as_micros()).unwrap_or(0),
        Err(_) => 0,
    }
}

// Runs a job. Its text is valid, so only a failed allocation keeps it from being loaded.
fn run<R: Clock + Input + Threads + Wait + Sync>(
    rt: &R,
    alloc: Global,
    job: &Job,
) -> Result<Measured, IocError> {
    let marks = Arc::new(alloc, AtomicU64::new(0))?;
    match seed_of(alloc, job, &marks) {
        Ok(seed) => carry_out::<Brand, _>(rt, alloc, seed, job, &marks),
        Err(_) => Err(IocError::NoMemory),
    }
}

// Prints what was measured.
fn print<R: Print + Eprint>(rt: &R, job: &Job, measured: &Measured) -> io::Result<()> {
    let Measured { rounds, micros } = *measured;
    let name = job.work.name();
    println!(rt; "{name}: {rounds}")?;
    let rate = rounds.saturating_mul(1000) / micros.max(1);
    eprintln!(rt; "{name}: {rate} rounds a millisecond")
}

// Carries out a job, and prints what was measured, or why the job can't be carried out.
fn measure<R: Clock + Input + Print + Eprint + Threads + Wait + Sync>(
    rt: &R,
    alloc: Global,
    job: &Job,
) -> io::Result<()> {
    match run(rt, alloc, job) {
        Ok(measured) => print(rt, job, &measured),
        Err(error) => eprintln!(rt; "{}: {error}", job.work.name()),
    }
}

// Carries out the jobs that the words of the command line ask for.
fn measure_all<R: Clock + Input + Print + Eprint + Threads + Wait + Sync>(
    rt: &R,
    alloc: Global,
    words: io::Result<Args>,
) -> Result<(), Stop> {
    let words = given(alloc, words)?;
    for job in jobs(alloc, words.as_slice())? {
        if let Err(error) = measure(rt, alloc, &job) {
            return Err(Stop::Write(Reason::of(&error)));
        }
    }
    Ok(())
}

fn main(rt: HostRuntime) -> ExitCode {
    let ended = measure_all(&rt, rt.alloc(), env::args(&rt));
    show(&rt, &Ending::of(PROGRAM.name, ended))
}
