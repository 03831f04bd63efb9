//! Eight threads on one engine, each with a desk of its own.
use crate::tests::calling::{self, Addressed, Answered, Told};
use crate::tests::replayed::{Call, Kept, OneThread, replayed};
use crate::tests::walk::{are_walked, least_joined};
use ioc_engine::{Channel, Clock, Desk, Device, Engine, EngineName, IocError, Reply};
use ioc_fields::{CommonField, FieldNo, OwnField};
use std::alloc::{AllocError, Global};
use std::fmt::Write;
use std::sync::Wait;
use std::thread;
use std::thread::Threads;

/// The number of records.
pub const RECORDS: usize = 64;

/// The number of threads, and of records with a device: record 0 has the device `d0`, and so on.
pub const THREADS: usize = 8;

/// The number of calls of each thread.
pub const CALLS: usize = 1000;

// The number of calls of the first thread between two checkpoints.
const BETWEEN: usize = 100;

// Returns the next of a sequence of pseudorandom numbers.
fn next_of(seed: u64) -> u64 {
    seed.wrapping_mul(6364136223846793005)
        .wrapping_add(1442695040888963407)
}

// Returns the number of a record from the upper bits.
fn record_of(seed: u64) -> usize {
    (seed >> 33) as usize % RECORDS
}

// The channels of a record's VAL and FLNK, and the text of a link to it.
#[derive(Drop)]
struct Target {
    value: Channel,
    forward: Channel,
    name: String,
}

// Finds all records.
fn targets<B: EngineName<D>, D: Device, C: Clock + Drop>(
    alloc: Global,
    engine: &Engine<B, D, C>,
) -> Result<Vec<Target>, IocError> {
    let mut all = Vec::with_capacity(alloc, RECORDS)?;
    for number in 0..RECORDS {
        let name = format!(in alloc; "r{number}")?;
        let field = format!(in alloc; "r{number}.FLNK")?;
        all.push(Target {
            value: engine.channel(name.as_bytes())?,
            forward: engine.channel(field.as_bytes())?,
            name,
        })?;
    }
    Ok(all)
}

// Returns a call of the thread that completes record `own` with its completion of this number.
fn drawn(seed: u64, own: usize, wait: u64) -> Call {
    let record = record_of(seed);
    match seed >> 60 {
        0 => Call::Put(record),
        1 | 2 => Call::Process(record),
        3 => Call::Get(record),
        4 => Call::GetLink(record),
        5 | 6 => Call::Cut(record),
        7 | 8 => Call::Lead(record, record_of(next_of(seed))),
        9 | 10 => Call::PutNotify(record),
        11 | 12 => Call::PutNotify(record % THREADS),
        13 => Call::Cancel(seed >> 40 & 511),
        _ => Call::Complete(own, wait),
    }
}

// Makes a call.
fn make<B: EngineName<D>, D: Device, C: Clock + Drop, R: Wait>(
    rt: &R,
    engine: &Engine<B, D, C>,
    desk: &mut Desk<B, D>,
    targets: &[Target],
    call: Call,
) -> Result<Answered, IocError> {
    let number = call.record();
    let (Some(target), Some(other)) = (targets.get(number), targets.get(call.other())) else {
        return Err(IocError::NoRecord);
    };
    let call = match call {
        Call::Put(_) => Addressed::Put(target.value, b"3"),
        Call::Process(_) => Addressed::Process(target.value.record()),
        Call::Get(_) => Addressed::Get(target.value),
        Call::GetLink(_) => Addressed::Get(target.forward),
        Call::Cut(_) => Addressed::SetLink(target.forward, b""),
        Call::Lead(_, _) => Addressed::SetLink(target.forward, other.name.as_bytes()),
        Call::PutNotify(_) => Addressed::PutNotify(target.value, b"4"),
        Call::Cancel(put) => Addressed::Cancel(put),
        Call::Complete(_, wait) => Addressed::Complete(target.value.record(), wait, 5),
    };
    calling::make(rt, engine, desk, call)
}

// Makes a call, or gets the record's value if the call is a put with notification and too many are
// live.
fn make_or_get<B: EngineName<D>, D: Device, C: Clock + Drop, R: Wait>(
    rt: &R,
    engine: &Engine<B, D, C>,
    desk: &mut Desk<B, D>,
    targets: &[Target],
    call: Call,
) -> Result<Kept, IocError> {
    let (call, told) = match make(rt, engine, desk, targets, call) {
        Ok(told) => (call, told),
        Err(IocError::QueueFull) => {
            let instead = Call::Get(call.record());
            (instead, make(rt, engine, desk, targets, instead)?)
        }
        Err(error) => return Err(error),
    };
    Ok(Kept {
        place: told.place,
        call,
        reply: told.reply,
    })
}

// Makes the calls of one thread. The first one also makes checkpoints.
fn calls<B: EngineName<D>, D: Device, C: Clock + Drop, R: Wait>(
    rt: &R,
    alloc: Global,
    engine: &Engine<B, D, C>,
    thread: usize,
) -> Result<Vec<Kept>, IocError> {
    let mut desk = engine.desk(rt)?;
    let targets = targets(alloc, engine)?;
    let mut kept = Vec::with_capacity(alloc, CALLS)?;
    let mut seed = thread as u64;
    let mut wait = 1u64;
    for made in 0..CALLS {
        if thread == 0 && made % BETWEEN == 0 {
            engine.checkpoint(rt)?;
        }
        seed = next_of(seed);
        let call = drawn(seed, thread, wait);
        let answered = make_or_get(rt, engine, &mut desk, targets.as_slice(), call)?;
        if matches!(call, Call::Complete(_, _)) && answered.reply == Told::Reply(Reply::Plain) {
            wait = wait.saturating_add(1);
        }
        kept.push(answered)?;
    }
    Ok(kept)
}

// Fields that tell what was done to a record, with their names.
static FIELDS: [(&str, FieldNo); 8] = [
    ("VAL", FieldNo::Own(OwnField::Val)),
    ("STAT", FieldNo::Common(CommonField::Stat)),
    ("SEVR", FieldNo::Common(CommonField::Sevr)),
    ("PACT", FieldNo::Common(CommonField::Pact)),
    ("LCNT", FieldNo::Common(CommonField::Lcnt)),
    ("PUTF", FieldNo::Common(CommonField::Putf)),
    ("RPRO", FieldNo::Common(CommonField::Rpro)),
    ("FLNK", FieldNo::Common(CommonField::Flnk)),
];

// Returns whether a record has the same fields in an engine and on one map.
fn is_shown_alike<B: EngineName<D>, D: Device, C: Clock + Drop, R: Wait>(
    rt: &R,
    alloc: Global,
    engine: &Engine<B, D, C>,
    desk: &mut Desk<B, D>,
    one: &OneThread,
    record: usize,
) -> Result<bool, IocError> {
    for (name, field) in &FIELDS {
        let name = format!(in alloc; "r{record}.{name}")?;
        let channel = engine.channel(name.as_bytes())?;
        let told = calling::make(rt, engine, desk, Addressed::Get(channel))?;
        if told.reply != one.shown(record, *field) {
            return Ok(false);
        }
    }
    Ok(true)
}

// Returns the record that a link leads to, by the text of the link.
fn leads_to(shown: Told) -> Option<usize> {
    let Told::Text(text) = shown else {
        return None;
    };
    let mut record = None;
    for byte in text.as_slice().iter().skip(1) {
        if !byte.is_ascii_digit() {
            break;
        }
        let digit = usize::from(byte.wrapping_sub(b'0'));
        record = Some(
            record
                .unwrap_or(0usize)
                .wrapping_mul(10)
                .wrapping_add(digit),
        );
    }
    record
}

// Returns whether an engine has the parts that a walk over the links of one map finds.
fn are_parts_alike<B: EngineName<D>, D: Device, C: Clock + Drop, R: Wait>(
    rt: &R,
    alloc: Global,
    engine: &Engine<B, D, C>,
    one: &OneThread,
) -> Result<bool, IocError> {
    let mut links = Vec::with_capacity(alloc, RECORDS)?;
    for record in 0..RECORDS {
        links.push(leads_to(one.shown(record, FieldNo::Common(CommonField::Flnk))))?;
    }
    let least = least_joined(alloc, &links)?;
    let mut desk = engine.desk(rt)?;
    Ok(are_walked(&least, &engine.parts(rt, &mut desk)?))
}

// Returns whether an engine has the records and the parts of one map.
fn is_alike<B: EngineName<D>, D: Device, C: Clock + Drop, R: Wait>(
    rt: &R,
    alloc: Global,
    engine: &Engine<B, D, C>,
    one: &OneThread,
) -> Result<bool, IocError> {
    let mut desk = engine.desk(rt)?;
    for record in 0..RECORDS {
        if !is_shown_alike(rt, alloc, engine, &mut desk, one, record)? {
            return Ok(false);
        }
    }
    are_parts_alike(rt, alloc, engine, one)
}

/// Makes the calls of eight threads, and returns how many were answered, or 0 if one thread would
/// have other replies on one map, or other records or parts at the end.
pub fn eight<
    B: EngineName<D> + Send + Sync,
    D: Device + Send + Sync,
    C: Clock + Drop + Send + Sync,
    R: Threads + Wait + Sync,
>(rt: &R, alloc: Global, engine: &Engine<B, D, C>) -> Result<usize, IocError> {
    let each = |thread: usize| calls(rt, alloc, engine, thread);
    let mut all = Vec::new(alloc);
    for made in thread::map_indices(rt, alloc, THREADS, &each)? {
        all.extend_from_slice(&made?)?;
    }
    match replayed(alloc, text(alloc)?.as_bytes(), &all)? {
        Some(one) if is_alike(rt, alloc, engine, &one)? => Ok(all.len()),
        _ => Ok(0),
    }
}

/// Returns a database text with this many records, of which the first ones have devices.
pub fn text(alloc: Global) -> Result<String, AllocError> {
    let mut text = String::new(alloc);
    for number in 0..RECORDS {
        if number < THREADS {
            writeln!(
                text,
                "record(longin,\"r{number}\"){{field(INP,\"@d{number}\")}}"
            )?;
        } else {
            writeln!(text, "record(longin,\"r{number}\"){{}}")?;
        }
    }
    Ok(text)
}
