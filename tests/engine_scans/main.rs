//! The example of an engine that scans: two periods, an event and an interrupt, served by two
//! threads, and a driver that answers late from a thread of its own.
#![tactic(auto)]

ghost use Rattle.ioc_engine.specs.Named.{IsNamedBy};

use ioc_engine::{
    Answer, CountingClock, Desk, Device, DeviceName, Engine, EngineName, FieldText, Finished,
    IocError, Limits, LoadError, Macros, Scan, Seed, Started, Value, load,
};
use std::alloc::Global;
use std::marker::Brand;
use std::sync::atomic::{AtomicU64, Ordering};
use std::sync::{Arc, Wait};
use std::thread::Threads;
use std::{io, thread};

const TEXT: &[u8] = b"record(longin,\"fast\"){field(SCAN,\".1 second\") field(INP,\"@gauge 1\")}
record(longin,\"slow\"){field(SCAN,\"1 second\") field(INP,\"@gauge 2\")}
record(longin,\"door\"){field(SCAN,Event) field(EVNT,open) field(PRIO,HIGH) field(INP,\"@gauge 3\")}
record(longin,\"pulse\"){field(SCAN,\"I/O Intr\") field(INP,\"@card 4\")}
record(longin,\"motor\"){field(SCAN,\"1 second\") field(INP,\"@motor 5\")}";

/// The devices: gauges, which answer at once, and a motor, which answers later.
#[derive(Drop)]
enum Station {
    /// It counts its readings.
    Gauge(i32),
    /// It counts how often it was asked, and its driver answers each time.
    Motor(Arc<AtomicU64, Global>),
}

// Answers with the next number.
fn count(last: &mut i32) -> Answer {
    *last = last.wrapping_add(1);
    Answer::Done(Value::Long(*last))
}

// Tells the driver that the motor was asked.
fn ask(asked: &AtomicU64) -> Answer {
    asked.fetch_add(1, Ordering::SeqCst);
    Answer::Later
}

impl Device for Station {
    ghost gives = { λ _ _ _ _ _. Unit {0} };

    fn read(&mut self, _moment: u64) -> Answer {
        match self {
            Station::Gauge(last) => count(last),
            Station::Motor(asked) => ask(asked),
        }
    }

    fn write(&mut self, _value: Value, _moment: u64) -> Answer {
        Answer::Fault
    }
}

type Clocked<B> = Engine<B, Station, CountingClock>;

// Scans two seconds of both periods, posts the event, and tells of the interrupt.
fn scan<B: EngineName<Station>, R: Wait>(
    rt: &R,
    engine: &Clocked<B>,
    desk: &mut Desk<B, Station>,
) -> Result<(), IocError> {
    for tick in 1..=20u32 {
        engine.scan(rt, desk, Scan::TenthSecond)?;
        if tick % 10 == 0 {
            engine.scan(rt, desk, Scan::OneSecond)?;
        }
    }
    engine.post_event(rt, desk, b"open")?;
    engine.io_interrupt(rt, desk, b"card")?;
    Ok(())
}

// Returns whether a record has been read this often.
fn is_read<B: EngineName<Station>, R: Wait>(
    rt: &R,
    engine: &Clocked<B>,
    desk: &mut Desk<B, Station>,
    name: &[u8],
    times: &[u8],
) -> Result<bool, IocError> {
    let (shown, _receipt) = engine.get(rt, desk, engine.channel(name)?)?;
    Ok(shown == FieldText::cut(times))
}

// Waits until the requests are served and the motor has answered. Returns whether each record was
// read as often as it should.
fn are_read<B: EngineName<Station>, R: Wait>(
    rt: &R,
    engine: &Clocked<B>,
    desk: &mut Desk<B, Station>,
) -> Result<bool, IocError> {
    for _ in rt.forever() {
        if is_read(rt, engine, desk, b"door", b"1")?
            && is_read(rt, engine, desk, b"pulse", b"1")?
            && is_read(rt, engine, desk, b"motor", b"100")?
        {
            break;
        }
        thread::yield_now();
    }
    let fast = is_read(rt, engine, desk, b"fast", b"20")?;
    Ok(fast && is_read(rt, engine, desk, b"slow", b"2")?)
}

// Scans, waits until all is read, and closes the engine.
fn scan_and_close<B: EngineName<Station>, R: Wait>(
    rt: &R,
    engine: &Clocked<B>,
) -> Result<bool, IocError> {
    let mut desk = engine.desk(rt)?;
    scan(rt, engine, &mut desk)?;
    let read = are_read(rt, engine, &mut desk);
    engine.close(rt);
    read
}

// The driver of the motor: it answers each time that the motor was asked, until the engine is
// closed. A record counts its waits from 1, so the n-th answer is that of the wait n.
fn drive<B: EngineName<Station>, R: Wait>(
    rt: &R,
    engine: &Clocked<B>,
    desk: Desk<B, Station>,
    asked: &AtomicU64,
) -> Result<(), IocError> {
    let mut desk = desk;
    let motor = engine.record(b"motor")?;
    let mut answered = 0u64;
    for _ in rt.forever() {
        if engine.is_closed() {
            break;
        }
        if answered < asked.load(Ordering::SeqCst) {
            answered = answered.saturating_add(1);
            let position = Finished::Done(Value::Long(100));
            match engine.complete(rt, &mut desk, motor, answered, position) {
                Ok(_) => (),
                Err(IocError::Stopped) => break,
                Err(error) => return Err(error),
            }
        }
        thread::yield_now();
    }
    Ok(())
}

// Serves the requests that wait, until the engine is closed.
fn serve<B: EngineName<Station>, R: Wait>(
    rt: &R,
    engine: &Clocked<B>,
    desk: Desk<B, Station>,
) -> Result<(), IocError> {
    engine.work(rt, desk)?;
    Ok(())
}

fn work<B: EngineName<Station> + Send + Sync, R: Threads + Wait + Sync>(
    rt: &R,
    alloc: Global,
    seed: Seed<Station>,
    asked: &AtomicU64,
) -> Result<bool, IocError>
    requires named { IsNamedBy B.table B.base B.devices B.places B.tickets B.counts seed }
{
    let clock = CountingClock::new();
    let Started { engine, .. } = Clocked::<B>::start(rt, alloc, seed, clock, Limits::default())?;
    let (first, second) = (engine.desk(rt)?, engine.desk(rt)?);
    let third = engine.desk(rt)?;
    let workers = || thread::join(
        rt,
        || serve(rt, &engine, first),
        || serve(rt, &engine, second),
    );
    let program = || thread::join(
        rt,
        || drive(rt, &engine, third, asked),
        || scan_and_close(rt, &engine),
    );
    let ((one, other), (driven, scanned)) = thread::join(rt, workers, program);
    one?;
    other?;
    driven?;
    scanned
}

// The database with its devices, and the count of the motor's readings.
#[derive(Drop)]
struct Plant {
    seed: Seed<Station>,
    asked: Arc<AtomicU64, Global>,
}

fn loaded(alloc: Global) -> Result<Plant, LoadError> {
    let asked = Arc::new(alloc, AtomicU64::new(0))?;
    let mut devices = Vec::new(alloc);
    for name in [b"gauge 1".as_slice(), b"gauge 2", b"gauge 3", b"card 4"] {
        devices.push((DeviceName::cut(name), Station::Gauge(0)))?;
    }
    let motor = Station::Motor(Arc::try_clone(&asked)?);
    devices.push((DeviceName::cut(b"motor 5"), motor))?;
    let database = load(alloc, TEXT, &Macros::new(alloc))?;
    let seed = Seed::new(alloc, database, devices)?;
    Ok(Plant { seed, asked })
}

fn run<R: Threads + Wait + Sync>(
    rt: &R,
    alloc: Global,
    seed: Seed<Station>,
    asked: &AtomicU64,
) -> Result<bool, IocError> {
    work::<Brand, _>(rt, alloc, seed, asked)
}

fn main(rt: HostRuntime) -> io::Result<()> {
    let Plant { seed, asked } = match loaded(rt.alloc()) {
        Ok(plant) => plant,
        Err(error) => return println!(rt; "{error}"),
    };
    match run(&rt, rt.alloc(), seed, &asked) {
        Ok(true) => println!(rt; "all records were read"),
        Ok(false) => println!(rt; "a reading is missing"),
        Err(error) => println!(rt; "{error}"),
    }
}
