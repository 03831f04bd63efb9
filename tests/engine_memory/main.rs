//! Puts on an engine with a small journal, whose calls make checkpoints, and how they are answered. Where
//! memory is refused, so is a put, with that error. A record whose put of SCAN is answered is on the list
//! that it names as soon as there is memory again, which is once the first line was written.
#![tactic(auto)]

ghost use Rattle.ioc_engine.specs.Named.{IsNamedBy};

use ioc_engine::{
    Answer, CountingClock, Desk, Device, Engine, EngineName, Input, IocError, Limits, LoadError,
    Macros, Scan, Seed, Started, Value, load,
};
use std::alloc::Global;
use std::io::{self, Print};
use std::marker::Brand;
use std::sync::Wait;

const TEXT: &[u8] = b"record(longin,\"a\"){} record(longin,\"b\"){} record(longin,\"c\"){} \
    record(longin,\"d\"){} record(longin,\"e\"){} record(longin,\"f\"){} record(longin,\"g\"){} \
    record(longin,\"h\"){} record(longin,\"i\"){} record(longin,\"j\"){} record(longin,\"k\"){} \
    record(longin,\"l\"){} record(longin,\"m\"){} record(longin,\"n\"){}";

// The fields SCAN that are put, which are more than the first growth of the scan lists has room for.
const SCANNED: [&[u8]; 14] = [
    b"a.SCAN", b"b.SCAN", b"c.SCAN", b"d.SCAN", b"e.SCAN", b"f.SCAN", b"g.SCAN", b"h.SCAN",
    b"i.SCAN", b"j.SCAN", b"k.SCAN", b"l.SCAN", b"m.SCAN", b"n.SCAN",
];

// The number of puts. The journal has room for ten from one checkpoint to the next.
const PUTS: u64 = 40;

const LIMITS: Limits = Limits {
    journal: 10,
    checkpoint_at: 1,
    history: 4,
};

/// A device that no record has.
#[derive(Drop)]
struct Silent;

impl Device for Silent {
    ghost gives = { λ _ _ _ _ _. Unit {0} };

    fn read(&mut self, _moment: u64) -> Answer {
        Answer::Fault
    }

    fn write(&mut self, _value: Value, _moment: u64) -> Answer {
        Answer::Fault
    }
}

/// How the puts were answered.
#[derive(Clone, Copy)]
struct Answers {
    done: u64,
    without_memory: u64,
    without_place: u64,
}

// Puts into the record, and counts the answers.
fn put_all<B: EngineName<Silent>, R: Wait>(
    rt: &R,
    engine: &Engine<B, Silent, CountingClock>,
    desk: &mut Desk<B, Silent>,
) -> Result<Answers, IocError> {
    let channel = engine.channel(b"a")?;
    let mut answers = Answers {
        done: 0,
        without_memory: 0,
        without_place: 0,
    };
    for _ in 0..PUTS {
        match engine.put(rt, desk, channel, Input::from_text(b"1")) {
            Ok(_) => answers.done = answers.done.saturating_add(1),
            Err(IocError::NoMemory) => {
                answers.without_memory = answers.without_memory.saturating_add(1)
            }
            Err(IocError::JournalFull) => {
                answers.without_place = answers.without_place.saturating_add(1)
            }
            Err(error) => return Err(error),
        }
    }
    Ok(answers)
}

// Puts a choice of SCAN into each of the fields, and returns which of the puts were answered.
fn put_scans<B: EngineName<Silent>, R: Wait>(
    rt: &R,
    engine: &Engine<B, Silent, CountingClock>,
    desk: &mut Desk<B, Silent>,
    choice: &[u8],
) -> Result<[bool; 14], IocError> {
    let mut done = [false; 14];
    for (place, field) in SCANNED.iter().enumerate() {
        let told = engine.put(rt, desk, engine.channel(field)?, Input::from_text(choice));
        match told {
            Ok(_) => done[place] = true,
            Err(IocError::NoMemory) => (),
            Err(error) => return Err(error),
        }
    }
    Ok(done)
}

// Returns whether the list has the records whose put of it was answered, in this order.
fn is_listed<B: EngineName<Silent>, R: Wait>(
    rt: &R,
    engine: &Engine<B, Silent, CountingClock>,
    choice: Scan,
    done: [bool; 14],
) -> Result<bool, IocError> {
    let listed = engine.scan_list(rt, choice)?;
    let mut next = 0;
    for (place, is_done) in done.iter().enumerate() {
        if *is_done {
            let is_there = next < listed.len() && listed[next].index() == place;
            if !is_there {
                return Ok(false);
            }
            next += 1;
        }
    }
    Ok(next == listed.len())
}

fn run<B: EngineName<Silent>, R: Print + Wait>(
    rt: &R,
    alloc: Global,
    seed: Seed<Silent>,
) -> Result<(), IocError>
    requires named { IsNamedBy B.table B.base B.devices B.places B.tickets B.counts seed }
{
    let Started { engine, .. } = Engine::<B, Silent, CountingClock>::start(
        rt,
        alloc,
        seed,
        CountingClock::new(),
        LIMITS,
    )?;
    let mut desk = engine.desk(rt)?;
    let answers = put_all(rt, &engine, &mut desk)?;
    let _passive = put_scans(rt, &engine, &mut desk, b"Passive")?;
    let done = put_scans(rt, &engine, &mut desk, b"1 second")?;
    let _told = println!(rt;
        "{} done, {} without memory, {} without a place",
        answers.done, answers.without_memory, answers.without_place
    );
    let is_well = is_listed(rt, &engine, Scan::OneSecond, done)?;
    let first = done.iter().filter(|is_done| **is_done).count();
    let _told = println!(rt; "{first} on the list of 1 second: {is_well}");
    Ok(())
}

fn run_named<R: Print + Wait>(rt: &R, alloc: Global, seed: Seed<Silent>) -> Result<(), IocError> {
    run::<Brand, R>(rt, alloc, seed)
}

fn loaded(alloc: Global) -> Result<Seed<Silent>, LoadError> {
    let database = load(alloc, TEXT, &Macros::new(alloc))?;
    Ok(Seed::new(alloc, database, Vec::new(alloc))?)
}

fn main(rt: HostRuntime) -> io::Result<()> {
    let seed = match loaded(rt.alloc()) {
        Ok(seed) => seed,
        Err(_) => return println!(rt; "not loaded"),
    };
    match run_named(&rt, rt.alloc(), seed) {
        Ok(()) => Ok(()),
        Err(error) => println!(rt; "not started: {error}"),
    }
}
