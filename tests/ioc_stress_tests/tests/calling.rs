//! The calls of a thread, drawn one after another.
use crate::tests::text::RECORDS;
use ioc_engine::{
    Channel, Clock, Desk, Device, Engine, EngineName, Finished, Input, IocError, NotifyId, Receipt,
    RecordNo, Reply, Scan, Value,
};
use std::alloc::Global;
use std::sync::Wait;

/// The fields of a record that are called, and its name.
#[derive(Drop)]
pub struct Target {
    pub value: Channel,
    pub scan: Channel,
    pub forward: Channel,
    pub disabling: Channel,
    pub name: String,
}

/// Finds all records.
pub fn targets<B: EngineName<D>, D: Device, C: Clock + Drop>(
    alloc: Global,
    engine: &Engine<B, D, C>,
) -> Result<Vec<Target>, IocError> {
    let mut all = Vec::with_capacity(alloc, RECORDS)?;
    for number in 0..RECORDS {
        let scan = format!(in alloc; "r{number}.SCAN")?;
        let forward = format!(in alloc; "r{number}.FLNK")?;
        let disabling = format!(in alloc; "r{number}.SDIS")?;
        let name = format!(in alloc; "r{number}")?;
        all.push(Target {
            value: engine.channel(name.as_bytes())?,
            scan: engine.channel(scan.as_bytes())?,
            forward: engine.channel(forward.as_bytes())?,
            disabling: engine.channel(disabling.as_bytes())?,
            name,
        })?;
    }
    Ok(all)
}

/// A call, on drawn records.
#[derive(Clone, Copy, PartialEq, Eq)]
pub enum Kind {
    Put,
    PutScan,
    Process,
    Get,
    Cut,
    Lead,
    LeadDisabling,
    PutNotify,
    Cancel,
    Live,
    Complete,
    Post,
    Interrupt,
    Scan,
    Parts,
}

/// A call that was drawn: the records that it names, and a number.
#[derive(Clone, Copy)]
pub struct Drawn {
    pub kind: Kind,
    pub record: usize,
    pub other: usize,
    pub number: u64,
}

/// Returns the next of a sequence of pseudorandom numbers.
pub fn next_of(seed: u64) -> u64 {
    seed.wrapping_mul(6364136223846793005)
        .wrapping_add(1442695040888963407)
}

// Returns a record from the upper bits.
fn record_of(seed: u64) -> usize {
    (seed >> 33) as usize % RECORDS
}

// Returns a kind of call, each about as often as it stands here.
fn kind_of(seed: u64) -> Kind {
    match seed >> 59 {
        0..=3 => Kind::Put,
        4 => Kind::PutScan,
        5..=8 => Kind::Process,
        9 | 10 => Kind::Get,
        11..=13 => Kind::Cut,
        14 | 15 => Kind::Lead,
        16 => Kind::LeadDisabling,
        17..=20 => Kind::PutNotify,
        21 | 22 => Kind::Cancel,
        23 => Kind::Live,
        24..=27 => Kind::Complete,
        28 => Kind::Post,
        29 => Kind::Interrupt,
        30 => Kind::Scan,
        _ => Kind::Parts,
    }
}

/// Returns a call of the thread that completes record `own` with its completion of this number.
pub fn draw(seed: u64, own: usize, wait: u64) -> Drawn {
    let kind = kind_of(seed);
    let (record, number) = match kind {
        Kind::Complete => (own, wait),
        _ => (record_of(seed), seed >> 40 & 511),
    };
    Drawn {
        kind,
        record,
        other: record_of(next_of(seed)),
        number,
    }
}

// Returns what is put into SCAN.
fn choice(number: u64) -> &'static [u8] {
    match number % 4 {
        0 => b"1 second",
        1 => b".1 second",
        2 => b"Passive",
        _ => b"Event",
    }
}

// Returns the reply of an event.
fn event<B: EngineName<D>, D: Device>(
    told: Result<(Reply, Receipt<B>), IocError>,
) -> Result<Reply, IocError> {
    let (reply, _receipt) = told?;
    Ok(reply)
}

// Returns the reply of a call that has another answer.
fn told<T: Drop>(answer: Result<T, IocError>) -> Result<Reply, IocError> {
    let _answer = answer?;
    Ok(Reply::Plain)
}

// Makes a call by which events are done.
fn make_event<B: EngineName<D>, D: Device, C: Clock + Drop, R: Wait>(
    rt: &R,
    engine: &Engine<B, D, C>,
    desk: &mut Desk<B, D>,
    target: &Target,
    call: Drawn,
) -> Result<Reply, IocError> {
    let number: RecordNo = target.value.record();
    match call.kind {
        Kind::Put => { event::<B, D>(engine.put(rt, desk, target.value, Input::from_text(b"1"))) }
        Kind::PutScan => {
            let given = Input::from_text(choice(call.number));
            event::<B, D>(engine.put(rt, desk, target.scan, given))
        }
        Kind::PutNotify => {
            event::<B, D>(engine.put_notify(rt, desk, target.value, Input::from_text(b"0")))
        }
        Kind::Cancel => event::<B, D>(engine.cancel(rt, desk, NotifyId::new(call.number))),
        Kind::Complete => {
            let given = Finished::Done(Value::Long(5));
            event::<B, D>(engine.complete(rt, desk, number, call.number, given))
        }
        _ => event::<B, D>(engine.process(rt, desk, number)),
    }
}

// Makes a call that isn't an event.
fn make_other<B: EngineName<D>, D: Device, C: Clock + Drop, R: Wait>(
    rt: &R,
    engine: &Engine<B, D, C>,
    desk: &mut Desk<B, D>,
    target: &Target,
    other: &Target,
    call: Drawn,
) -> Result<Reply, IocError> {
    match call.kind {
        Kind::Cut => told(engine.set_link(rt, desk, target.forward, b"")),
        Kind::Lead => told(engine.set_link(rt, desk, target.forward, other.name.as_bytes())),
        Kind::LeadDisabling => {
            told(engine.set_link(rt, desk, target.disabling, other.name.as_bytes()))
        }
        Kind::Live => told(engine.live(rt, desk, NotifyId::new(call.number))),
        Kind::Post => told(engine.post_event(rt, desk, b"go")),
        Kind::Interrupt => told(engine.io_interrupt(rt, desk, b"c9")),
        Kind::Scan => told(engine.scan(rt, desk, Scan::TenthSecond)),
        Kind::Parts => told(engine.parts(rt, desk)),
        _ => told(engine.get(rt, desk, target.value)),
    }
}

// Returns whether a call is an event.
fn is_event(kind: Kind) -> bool {
    matches!(
        kind,
        Kind::Put | Kind::PutScan | Kind::PutNotify | Kind::Cancel | Kind::Complete | Kind::Process
    )
}

/// Makes a call. A put with notification that is refused because too many are live is left out.
pub fn make<B: EngineName<D>, D: Device, C: Clock + Drop, R: Wait>(
    rt: &R,
    engine: &Engine<B, D, C>,
    desk: &mut Desk<B, D>,
    targets: &[Target],
    call: Drawn,
) -> Result<Reply, IocError> {
    let (Some(target), Some(other)) = (targets.get(call.record), targets.get(call.other)) else {
        return Err(IocError::NoRecord);
    };
    let made = if is_event(call.kind) {
        make_event(rt, engine, desk, target, call)
    } else {
        make_other(rt, engine, desk, target, other, call)
    };
    match made {
        Err(IocError::QueueFull) => Ok(Reply::Refused(IocError::QueueFull)),
        reply => reply,
    }
}
