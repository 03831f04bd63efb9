//! All kinds of calls by eight threads beside two workers, with checkpoints. The journal is audited.
use crate::tests::calling::{Kind, draw, make, next_of, targets};
use crate::tests::kept::Lines;
use crate::tests::text::{COUNTED, LATER, RECORDS, text};
use ioc_engine::{
    Clock, Database, Device, Engine, EngineName, IocError, Macros, Record, Reply, Report,
    StoppedRecord, load,
};
use ioc_fields::{CommonField, FieldNo, OwnField};
use ioc_journal_audit::{Audited, Auditor, LastLine, audit};
use ioc_record::text_of;
use std::alloc::Global;
use std::sync::Wait;
use std::sync::atomic::{AtomicU64, Ordering};
use std::thread;
use std::thread::Threads;

// The number of threads that call.
const CALLERS: usize = 8;

// The number of threads that serve requests.
const WORKERS: usize = 2;

// The number of calls of each thread that calls.
const CALLS: usize = 1000;

// The number of calls of the first thread between two checkpoints.
const BETWEEN: usize = 100;

// The journal has at least this many entries: each call has one, but for questions of the parts and
// puts with notification that are refused.
const ENTRIES: u64 = 6_000;

// Makes the calls of one thread. The first one also makes checkpoints, and keeps the entries.
fn calls<B: EngineName<D>, D: Device, C: Clock + Drop, R: Wait>(
    rt: &R,
    alloc: Global,
    engine: &Engine<B, D, C>,
    thread: usize,
    seed: u64,
) -> Result<Lines, IocError> {
    let mut desk = engine.desk(rt)?;
    let targets = targets(alloc, engine)?;
    let mut lines = Lines::new(alloc);
    let mut seed = seed.wrapping_add(thread as u64);
    let mut wait = 1u64;
    for made in 0..CALLS {
        if thread == 0 && made % BETWEEN == 0 {
            lines.keep(rt, engine, &mut desk)?;
        }
        seed = next_of(seed);
        let call = draw(seed, thread, wait);
        let reply = make(rt, engine, &mut desk, targets.as_slice(), call)?;
        if call.kind == Kind::Complete && reply == Reply::Plain {
            wait = wait.saturating_add(1);
        }
    }
    Ok(lines)
}

// Makes the calls of one thread. The last thread to end closes the engine.
fn calls_then_close<B: EngineName<D>, D: Device, C: Clock + Drop, R: Wait>(
    rt: &R,
    alloc: Global,
    engine: &Engine<B, D, C>,
    thread: usize,
    seed: u64,
    ended: &AtomicU64,
) -> Result<Lines, IocError> {
    let made = calls(rt, alloc, engine, thread, seed);
    if ended.fetch_add(1, Ordering::SeqCst) == CALLERS as u64 - 1 {
        engine.close(rt);
    }
    made
}

/// Serves the requests that wait until the engine is closed. No entry leaves memory meanwhile.
pub fn serve<B: EngineName<D>, D: Device, C: Clock + Drop, R: Wait>(
    rt: &R,
    alloc: Global,
    engine: &Engine<B, D, C>,
) -> Result<Lines, IocError> {
    match engine.desk(rt) {
        Ok(desk) => {
            let _desk = engine.work(rt, desk)?;
            Ok(Lines::new(alloc))
        }
        Err(_closed) => Ok(Lines::new(alloc)),
    }
}

// Has all threads make their calls. Returns the entries that left memory.
fn run<
    B: EngineName<D> + Send + Sync,
    D: Device + Send + Sync,
    C: Clock + Drop + Send + Sync,
    R: Threads + Wait + Sync,
>(rt: &R, alloc: Global, engine: &Engine<B, D, C>, seed: u64) -> Result<Lines, IocError> {
    let ended = AtomicU64::new(0);
    let each = |thread: usize| {
        if thread < CALLERS {
            calls_then_close(rt, alloc, engine, thread, seed, &ended)
        } else {
            serve(rt, alloc, engine)
        }
    };
    let mut kept = Lines::new(alloc);
    for made in thread::map_indices(rt, alloc, CALLERS + WORKERS, &each)? {
        let lines = made?;
        if lines.next > kept.next {
            kept = lines;
        }
    }
    Ok(kept)
}

// The fields that are compared.
static FIELDS: [FieldNo; 15] = [
    FieldNo::Own(OwnField::Val),
    FieldNo::Common(CommonField::Scan),
    FieldNo::Common(CommonField::Stat),
    FieldNo::Common(CommonField::Sevr),
    FieldNo::Common(CommonField::Nsta),
    FieldNo::Common(CommonField::Nsev),
    FieldNo::Common(CommonField::Udf),
    FieldNo::Common(CommonField::Lcnt),
    FieldNo::Common(CommonField::Disa),
    FieldNo::Common(CommonField::Pact),
    FieldNo::Common(CommonField::Putf),
    FieldNo::Common(CommonField::Rpro),
    FieldNo::Common(CommonField::Time),
    FieldNo::Common(CommonField::Flnk),
    FieldNo::Common(CommonField::Sdis),
];

// Returns whether a record has the same fields as one of a map.
fn is_alike(fields: &Record, other: &Record) -> bool {
    for field in &FIELDS {
        if text_of(fields, *field) != text_of(other, *field) {
            return false;
        }
    }
    true
}

/// Returns whether all records have the same fields as those of a map.
pub fn are_alike<D>(records: &[StoppedRecord<D>], map: &[Record]) -> bool {
    for stopped in records {
        match map.get(stopped.number.index()) {
            Some(other) if is_alike(&stopped.fields, other) => (),
            _ => return false,
        }
    }
    records.len() == map.len()
}

// Returns the number of records that await their devices.
fn awaiting<D>(records: &[StoppedRecord<D>]) -> u64 {
    let mut active = 0u64;
    for stopped in records {
        active = active.saturating_add(u64::from(stopped.fields.common.active));
    }
    active
}

/// Returns how many records have a device.
pub fn devices_in<D>(records: &[StoppedRecord<D>]) -> usize {
    let mut devices = 0usize;
    for stopped in records {
        devices = devices.saturating_add(usize::from(stopped.device.is_some()));
    }
    devices
}

/// Returns whether requests and tickets add up.
pub fn adds_up<B: EngineName<D>, D: Device>(report: &Report<B, D>) -> bool {
    let tally = report.tally();
    let tickets = report.tickets();
    let told = tally
        .processed
        .saturating_add(tally.disabled)
        .saturating_add(tally.active)
        .saturating_add(tally.reprocess);
    told == tally.begun
        && tickets.out == 0
        && tickets.spent.saturating_add(tickets.handed_back) == tickets.begun
}

/// Makes the calls of a journal again on one map of the records of a text. Returns the auditor if
/// all of them agree.
pub fn again(alloc: Global, text: &[u8], lines: &Lines) -> Result<Option<Auditor>, IocError> {
    let Ok(database) = load(alloc, text, &Macros::new(alloc)) else {
        return Ok(None);
    };
    let Database { records, .. } = database;
    let mut auditor = Auditor::new(alloc, records)?;
    let mut journal = lines.text.as_slice();
    let mut out = Vec::new(alloc);
    match audit(
        alloc,
        &mut auditor,
        &mut journal,
        &mut LastLine::new(alloc),
        u64::MAX,
        &mut None,
        &mut out,
    ) {
        Ok(Audited::Agree(count)) if count == lines.next => Ok(Some(auditor)),
        _ => Ok(None),
    }
}

/// Makes all calls, and returns whether the journal gives the same replies and the same records on
/// one map, and requests, completions and tickets add up.
pub fn is_audited<
    B: EngineName<D> + Send + Sync,
    D: Device + Send + Sync,
    C: Clock + Drop + Send + Sync,
    R: Threads + Wait + Sync,
>(rt: &R, alloc: Global, engine: Engine<B, D, C>, seed: u64) -> Result<bool, IocError> {
    let mut lines = run(rt, alloc, &engine, seed)?;
    let report = engine.stop(rt);
    lines.keep_rest(&report)?;
    let tally = report.tally();
    let adds_up = adds_up(&report);
    let records = report.into_records(alloc)?;
    let is_complete = tally.started == tally.completed.saturating_add(awaiting(records.as_slice()))
        && devices_in(records.as_slice()) == LATER.len().saturating_add(COUNTED.len())
        && records.len() == RECORDS
        && lines.next >= ENTRIES;
    match again(alloc, text(alloc)?.as_bytes(), &lines)? {
        Some(auditor) => {
            Ok(adds_up && is_complete && are_alike(records.as_slice(), auditor.map().records()))
        }
        None => Ok(false),
    }
}
