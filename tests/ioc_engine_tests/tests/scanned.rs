//! Threads that scan, beside threads that put records on other scan lists and change links.
use crate::tests::calling::{Addressed, Told, make};
use crate::tests::replayed::{OneThread, loaded};
use ioc_engine::{
    Channel, Clock, Device, Engine, EngineName, IocError, Report, Scan, StoppedRecord,
};
use ioc_fields::{CommonField, FieldNo, OwnField};
use ioc_record::text_of;
use std::alloc::{AllocError, Global};
use std::fmt::Write;
use std::sync::Wait;
use std::thread;
use std::thread::Threads;

// The number of records.
const RECORDS: usize = 32;

// The periods that records have at the load or are put into SCAN, with their texts. Each has a
// thread that scans it.
static PERIODS: [(Scan, &str); SCANNING] = [
    (Scan::OneSecond, "1 second"),
    (Scan::HalfSecond, ".5 second"),
    (Scan::FifthSecond, ".2 second"),
    (Scan::TenthSecond, ".1 second"),
];

// The number of threads that scan, and that of all threads.
const SCANNING: usize = 4;

const THREADS: usize = 6;

// The number of scans of each thread that scans, and of calls of each other thread.
const SCANS: usize = 100;

const CALLS: usize = 500;

// Returns the next of a sequence of pseudorandom numbers.
fn next_of(seed: u64) -> u64 {
    seed.wrapping_mul(6364136223846793005)
        .wrapping_add(1442695040888963407)
}

// Returns a number less than this one, from the upper bits.
fn drawn(seed: u64, below: usize) -> usize {
    (seed >> 33) as usize % below.max(1)
}

// Returns what is put into SCAN.
fn choice(seed: u64) -> &'static [u8] {
    match drawn(seed, 6) {
        0 => b"1 second",
        1 => b".5 second",
        2 => b".2 second",
        3 => b".1 second",
        4 => b"Passive",
        _ => b"Event",
    }
}

// Returns what is put into VAL.
fn value(seed: u64) -> &'static [u8] {
    match drawn(seed, 3) {
        0 => b"3",
        1 => b"4",
        _ => b"5",
    }
}

// The fields of a record that are called, and its name.
#[derive(Drop)]
struct Target {
    value: Channel,
    scan: Channel,
    input: Channel,
    forward: Channel,
    name: String,
}

// Finds all records.
fn targets<B: EngineName<D>, D: Device, C: Clock + Drop>(
    alloc: Global,
    engine: &Engine<B, D, C>,
) -> Result<Vec<Target>, IocError> {
    let mut all = Vec::with_capacity(alloc, RECORDS)?;
    for number in 0..RECORDS {
        let scan = format!(in alloc; "r{number}.SCAN")?;
        let input = format!(in alloc; "r{number}.INP")?;
        let forward = format!(in alloc; "r{number}.FLNK")?;
        let name = format!(in alloc; "r{number}")?;
        all.push(Target {
            value: engine.channel(name.as_bytes())?,
            scan: engine.channel(scan.as_bytes())?,
            input: engine.channel(input.as_bytes())?,
            forward: engine.channel(forward.as_bytes())?,
            name,
        })?;
    }
    Ok(all)
}

// Returns the call of a thread that changes records, on a drawn record.
fn change<'a>(targets: &'a [Target], seed: u64) -> Option<Addressed<'a>> {
    let next = next_of(seed);
    let target = targets.get(drawn(seed, targets.len()))?;
    let other = targets.get(drawn(next, targets.len()))?;
    let kind = seed >> 61;
    if kind <= 2 {
        return Some(Addressed::Put(target.scan, choice(next)));
    }
    if kind == 3 {
        return Some(Addressed::Put(target.value, value(next)));
    }
    if kind <= 5 {
        return Some(Addressed::SetLink(target.input, other.name.as_bytes()));
    }
    if kind == 6 {
        return Some(Addressed::SetLink(target.forward, other.name.as_bytes()));
    }
    Some(Addressed::SetLink(target.forward, b""))
}

// Makes the calls of a thread that changes records, and returns how many these are.
fn changes<B: EngineName<D>, D: Device, C: Clock + Drop, R: Wait>(
    rt: &R,
    alloc: Global,
    engine: &Engine<B, D, C>,
    thread: usize,
) -> Result<usize, IocError> {
    let mut desk = engine.desk(rt)?;
    let targets = targets(alloc, engine)?;
    let mut seed = thread as u64;
    for _ in 0..CALLS {
        seed = next_of(seed);
        let Some(call) = change(targets.as_slice(), seed) else {
            return Err(IocError::NoRecord);
        };
        make(rt, engine, &mut desk, call)?;
    }
    Ok(CALLS)
}

// Scans a period again and again, and returns the number of requests.
fn scans<B: EngineName<D>, D: Device, C: Clock + Drop, R: Wait>(
    rt: &R,
    engine: &Engine<B, D, C>,
    choice: Scan,
) -> Result<usize, IocError> {
    let mut desk = engine.desk(rt)?;
    let mut requested = 0usize;
    for _ in 0..SCANS {
        requested = requested.saturating_add(engine.scan(rt, &mut desk, choice)?);
    }
    Ok(requested)
}

// Has all threads make their calls, and returns how many were made.
fn calls<
    B: EngineName<D> + Send + Sync,
    D: Device + Send + Sync,
    C: Clock + Drop + Send + Sync,
    R: Threads + Wait + Sync,
>(rt: &R, alloc: Global, engine: &Engine<B, D, C>) -> Result<usize, IocError> {
    let each = |thread: usize| {
        match PERIODS.get(thread) {
            Some((choice, _)) => scans(rt, engine, *choice),
            None => changes(rt, alloc, engine, thread),
        }
    };
    let mut made = 0usize;
    for of_thread in thread::map_indices(rt, alloc, THREADS, &each)? {
        made = made.saturating_add(of_thread?);
    }
    Ok(made)
}

// Returns the numbers of the records on the scan lists, each beside the text of its period.
fn listed<B: EngineName<D>, D: Device, C: Clock + Drop, R: Wait>(
    rt: &R,
    alloc: Global,
    engine: &Engine<B, D, C>,
) -> Result<Vec<(usize, &'static str)>, IocError> {
    let mut all = Vec::new(alloc);
    for (choice, name) in &PERIODS {
        for number in engine.scan_list(rt, *choice)? {
            all.push((number.index(), *name))?;
        }
    }
    Ok(all)
}

// Returns whether each record with one of the periods as SCAN is on the list of this period, and
// no other record is on a list.
fn are_listed(one: &OneThread, listed: &[(usize, &'static str)]) -> bool {
    let mut scanned = 0usize;
    for number in 0..RECORDS {
        let scan = one.shown(number, FieldNo::Common(CommonField::Scan));
        for (_, name) in &PERIODS {
            if scan.is_text(name) {
                scanned = scanned.saturating_add(1);
                if !listed.contains(&(number, *name)) {
                    return false;
                }
            }
        }
    }
    scanned == listed.len()
}

// The fields that are compared.
static FIELDS: [FieldNo; 9] = [
    FieldNo::Own(OwnField::Val),
    FieldNo::Own(OwnField::Inp),
    FieldNo::Common(CommonField::Scan),
    FieldNo::Common(CommonField::Stat),
    FieldNo::Common(CommonField::Sevr),
    FieldNo::Common(CommonField::Udf),
    FieldNo::Common(CommonField::Lcnt),
    FieldNo::Common(CommonField::Time),
    FieldNo::Common(CommonField::Flnk),
];

// Returns whether these records have the same fields on one map.
fn are_alike<D>(one: &OneThread, records: &[StoppedRecord<D>]) -> bool {
    for stopped in records {
        for field in &FIELDS {
            let shown = Told::Text(text_of(&stopped.fields, *field));
            if one.shown(stopped.number.index(), *field) != shown {
                return false;
            }
        }
    }
    records.len() == RECORDS
}

// Makes the calls of a journal on one map. Returns the records, or `None` if there are others than
// this many calls, or a reply differs.
fn again<B: EngineName<D>, D: Device>(
    alloc: Global,
    report: &Report<B, D>,
    made: usize,
) -> Result<Option<OneThread>, IocError> {
    let Some(mut one) = loaded(alloc, text(alloc)?.as_bytes(), 0)? else {
        return Ok(None);
    };
    for place in 0..made as u64 {
        let Some(kept) = report.entry_at(place) else {
            return Ok(None);
        };
        if !one.replies_as(kept)? {
            return Ok(None);
        }
    }
    Ok(report.entry_at(made as u64).is_none().then_some(one))
}

/// Has four threads scan a period each, while two others put records on other scan lists and change
/// links. Returns whether one thread that makes the calls of the journal on one map has the same
/// replies and the same records at the end, and the scan lists are those of the records.
///
/// # Errors
///
/// The first refusal of a call. [`IocError::NoMemory`] if allocation fails.
pub fn is_scanned_alike<
    B: EngineName<D> + Send + Sync,
    D: Device + Send + Sync,
    C: Clock + Drop + Send + Sync,
    R: Threads + Wait + Sync,
>(rt: &R, alloc: Global, engine: Engine<B, D, C>) -> Result<bool, IocError> {
    let made = calls(rt, alloc, &engine)?;
    let listed = listed(rt, alloc, &engine)?;
    let report = engine.stop(rt);
    let Some(one) = again(alloc, &report, made)? else {
        return Ok(false);
    };
    let records = report.into_records(alloc)?;
    Ok(are_listed(&one, listed.as_slice()) && are_alike(&one, records.as_slice()))
}

/// Returns a database text with this many records, of which as many are scanned with each period.
///
/// # Errors
///
/// [`AllocError`] if allocation fails.
pub fn text(alloc: Global) -> Result<String, AllocError> {
    let mut text = String::new(alloc);
    for number in 0..RECORDS {
        let period = match PERIODS.get(number % SCANNING) {
            Some((_, name)) => *name,
            None => "Passive",
        };
        writeln!(
            text,
            "record(longin,\"r{number}\"){{field(SCAN,\"{period}\")}}"
        )?;
    }
    Ok(text)
}
