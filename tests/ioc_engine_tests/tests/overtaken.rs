//! A change of a scan list that arrives after a later one of the same record.
use ioc_engine::{Channel, Clock, Device, Engine, EngineName, Input, IocError, RecordNo, Scan};
use std::alloc::{AllocError, Global};
use std::fmt::Write;
use std::sync::Wait;
use std::thread;
use std::thread::Threads;

// The number of puts that are overtaken, and that of records which wait for the event.
const ROUNDS: usize = 40;

const WAITING: usize = 1500;

/// Returns a database text in which a put into `e` posts an event, for which many records wait, and
/// then puts `r` on the list of 1 second.
///
/// # Errors
///
/// [`AllocError`] if allocation fails.
pub fn text(alloc: Global) -> Result<String, AllocError> {
    let mut text = String::new(alloc);
    text.push_str("record(longin,\"r\"){}\n")?;
    text.push_str("record(event,\"e\"){field(VAL,\"many\") field(FLNK,\"o\")}\n")?;
    text.push_str("record(stringout,\"o\"){field(VAL,\"1 second\") field(OUT,\"r.SCAN\")}\n")?;
    for number in 0..WAITING {
        writeln!(
            text,
            "record(longin,\"w{number}\"){{field(SCAN,Event) field(EVNT,many)}}"
        )?;
    }
    Ok(text)
}

// Posts the event and puts the record on the list of 1 second, which follows it.
fn begin<B: EngineName<D>, D: Device, C: Clock + Drop, R: Wait>(
    rt: &R,
    engine: &Engine<B, D, C>,
) -> Result<(), IocError> {
    let mut desk = engine.desk(rt)?;
    engine.put(
        rt,
        &mut desk,
        engine.channel(b"e")?,
        Input::from_text(b"many"),
    )?;
    Ok(())
}

// Waits until the record has the choice of the other thread, and puts another one.
fn overtake<B: EngineName<D>, D: Device, C: Clock + Drop, R: Wait>(
    rt: &R,
    engine: &Engine<B, D, C>,
    scan: Channel,
) -> Result<(), IocError> {
    let mut desk = engine.desk(rt)?;
    for _ in 0..u32::MAX {
        let (shown, _receipt) = engine.get(rt, &mut desk, scan)?;
        if shown.as_slice() == b"1 second".as_slice() {
            break;
        }
    }
    engine.put(rt, &mut desk, scan, Input::from_text(b".5 second"))?;
    Ok(())
}

// Returns whether the record is on the list of .5 second alone.
fn is_well<B: EngineName<D>, D: Device, C: Clock + Drop, R: Wait>(
    rt: &R,
    engine: &Engine<B, D, C>,
    number: RecordNo,
) -> Result<bool, IocError> {
    let first = engine.scan_list(rt, Scan::OneSecond)?;
    let half = engine.scan_list(rt, Scan::HalfSecond)?;
    Ok(!first.contains(&number) && half.contains(&number))
}

/// Has a thread put the record on a list behind a posted event, and another one put it on the next
/// list meanwhile, again and again. Returns whether it is on the list of the later put each time.
///
/// # Errors
///
/// The first refusal of a call.
pub fn stays_where_put<
    B: EngineName<D> + Send + Sync,
    D: Device + Send + Sync,
    C: Clock + Drop + Send + Sync,
    R: Threads + Wait + Sync,
>(rt: &R, engine: &Engine<B, D, C>) -> Result<bool, IocError> {
    let (record, scan) = (engine.record(b"r")?, engine.channel(b"r.SCAN")?);
    for _ in 0..ROUNDS {
        let (begun, put) = thread::join(rt, || begin(rt, engine), || overtake(rt, engine, scan));
        begun?;
        put?;
        if !is_well(rt, engine, record)? {
            return Ok(false);
        }
    }
    Ok(true)
}
