//! The calls of one desk as lists of steps, each with its expected result.
use crate::tests::calling::{Answered, Call, Told, looked_up, make};
use ioc_engine::{
    Clock, Desk, Device, Engine, EngineName, FieldText, IocError, NotifyId, Outcome, Receipt,
    RecordNo, Reply, Scan,
};
use ioc_fields::FieldNo;
use std::sync::Wait;
use std::thread;

// The number of times that a field is looked at before a test stops waiting.
const LOOKS: u64 = 1_000_000;

/// A reply.
#[derive(Clone, Copy)]
pub enum Says {
    Plain,
    Processed,
    Reprocess,
    Shown(&'static [u8]),
    Notify(u64),
    Live(bool),
    Refused(IocError),
}

/// The expected result of a call.
#[derive(Clone, Copy)]
pub enum Wanted {
    /// Any reply.
    Answered,
    Says(Says),
    /// A reply with this text of a field.
    Shows(&'static [u8]),
    /// This reply, with this place in the journal.
    At(u64, Says),
    /// A plain reply, with this many records moved.
    Moves(usize),
    /// The call fails, and has no place in the journal.
    Fails(IocError),
}

/// A step of a test.
#[derive(Clone, Copy)]
pub enum Step {
    /// The call has this result, and ends no put with notification.
    Makes(Call, Wanted),
    /// The call has this result, and ends the puts with notification with these numbers, in order.
    Ends(Call, Wanted, &'static [u64]),
    /// The lock sets have the records with these names.
    Parts(&'static [&'static [&'static [u8]]]),
    /// The engine shows its lock sets, whatever they are.
    ShowsParts,
    /// A checkpoint of the journal is made.
    Checkpoint,
    /// A scan with this choice requests this many records.
    Scans(Scan, usize),
    /// A scan with this choice fails.
    ScanFails(Scan, IocError),
    /// The list of this choice has the records with these names, in this order.
    Lists(Scan, &'static [&'static [u8]]),
    /// A posted event asks for this many requests.
    Posts(&'static [u8], u64),
    /// An interrupt asks for this many requests.
    Interrupts(&'static [u8], u64),
    /// This many requests wait, and are served.
    Serves(usize),
    /// A field gets this text, because other threads make calls. The step waits for it.
    Waits(&'static [u8], &'static [u8]),
    /// The record with this name is watched.
    Watches(&'static [u8]),
    /// The record with this name is watched no more.
    Unwatches(&'static [u8]),
    /// The records with these names were marked since the last such step, and no others.
    Marked(&'static [&'static [u8]]),
    /// A look at this field of a record shows this text.
    Looks(&'static [u8], FieldNo, &'static [u8]),
    /// The engine is closed, which it wasn't before. It shows no sets, opens no desk and makes no
    /// checkpoint any more.
    Closes,
}

fn reply(says: Says) -> Told {
    Told::Reply(match says {
        Says::Plain => Reply::Plain,
        Says::Processed => Reply::Outcome(Outcome::Processed),
        Says::Reprocess => Reply::Outcome(Outcome::Reprocess),
        Says::Shown(text) => return Told::Text(FieldText::cut(text)),
        Says::Notify(number) => Reply::Notify(NotifyId::new(number)),
        Says::Live(live) => return Told::Live(live),
        Says::Refused(error) => Reply::Refused(error),
    })
}

// Returns whether the reply is the expected one.
fn is_as_wanted(told: &Answered, wanted: Wanted) -> bool {
    match wanted {
        Wanted::Answered => true,
        Wanted::Says(says) => told.reply == reply(says),
        Wanted::Shows(text) => told.reply == reply(Says::Shown(text)),
        Wanted::At(place, says) => told.place == place && told.reply == reply(says),
        Wanted::Moves(moved) => told.moved == moved && told.reply == reply(Says::Plain),
        Wanted::Fails(_) => false,
    }
}

// Returns whether these puts with notification have these numbers.
fn are_numbered(ended: &[NotifyId], numbers: &[u64]) -> bool {
    for (id, number) in ended.iter().zip(numbers) {
        if *id != NotifyId::new(*number) {
            return false;
        }
    }
    ended.len() == numbers.len()
}

// Makes a call, and returns whether it has the expected result and ends these puts with
// notification.
fn answers<B: EngineName<D>, D: Device, C: Clock + Drop, R: Wait>(
    rt: &R,
    engine: &Engine<B, D, C>,
    desk: &mut Desk<B, D>,
    call: Call,
    wanted: Wanted,
    ended: &[u64],
) -> bool {
    let told = match looked_up(engine, call) {
        Ok(call) => make(rt, engine, desk, call),
        Err(error) => Err(error),
    };
    match (told, wanted) {
        (Ok(told), wanted) => { is_as_wanted(&told, wanted) && are_numbered(desk.ended(), ended) }
        (Err(error), Wanted::Fails(expected)) => error == expected,
        (Err(_), _) => false,
    }
}

// Returns whether a part has exactly the records with these names.
fn is_part<B: EngineName<D>, D: Device, C: Clock + Drop>(
    engine: &Engine<B, D, C>,
    part: &[RecordNo],
    names: &[&[u8]],
) -> bool {
    for name in names {
        let Ok(number) = engine.record(name) else {
            return false;
        };
        if !part.contains(&number) {
            return false;
        }
    }
    part.len() == names.len()
}

// Returns whether one of the parts has exactly the records with these names.
fn is_found<B: EngineName<D>, D: Device, C: Clock + Drop>(
    engine: &Engine<B, D, C>,
    parts: &[Vec<RecordNo>],
    names: &[&[u8]],
) -> bool {
    for part in parts {
        if is_part(engine, part.as_slice(), names) {
            return true;
        }
    }
    false
}

// Returns whether the lock sets have the records with these names.
fn are_parts<B: EngineName<D>, D: Device, C: Clock + Drop, R: Wait>(
    rt: &R,
    engine: &Engine<B, D, C>,
    wanted: &[&[&[u8]]],
) -> bool {
    let Ok(mut desk) = engine.desk(rt) else {
        return false;
    };
    let Ok(parts) = engine.parts(rt, &mut desk) else {
        return false;
    };
    for names in wanted {
        if !is_found(engine, parts.as_slice(), names) {
            return false;
        }
    }
    parts.len() == wanted.len()
}

// Closes an engine that isn't closed, and returns whether it shows no sets, opens no desk and makes
// no checkpoint then.
fn closes<B: EngineName<D>, D: Device, C: Clock + Drop, R: Wait>(
    rt: &R,
    engine: &Engine<B, D, C>,
) -> bool {
    let was_closed = engine.is_closed();
    let Ok(mut desk) = engine.desk(rt) else {
        return false;
    };
    engine.close(rt);
    let is_silent = matches!(engine.parts(rt, &mut desk), Err(IocError::Stopped))
        && matches!(engine.desk(rt), Err(IocError::Stopped))
        && matches!(engine.checkpoint(rt), Err(IocError::Stopped));
    !was_closed && engine.is_closed() && is_silent
}

// Returns whether the list of a choice has the records with these names, in this order.
fn is_list<B: EngineName<D>, D: Device, C: Clock + Drop, R: Wait>(
    rt: &R,
    engine: &Engine<B, D, C>,
    choice: Scan,
    names: &[&[u8]],
) -> bool {
    let Ok(listed) = engine.scan_list(rt, choice) else {
        return false;
    };
    for (number, name) in listed.iter().zip(names) {
        if engine.record(name) != Ok(*number) {
            return false;
        }
    }
    listed.len() == names.len()
}

// Returns whether this posted event or interrupt asks for this many requests.
fn is_count<B: EngineName<D>, D: Device>(
    told: Result<(u64, Receipt<B>), IocError>,
    wanted: u64,
) -> bool {
    match told {
        Ok((count, _receipt)) => count == wanted,
        Err(_) => false,
    }
}

// Serves the requests that wait, and returns how many there were.
fn serve_all<B: EngineName<D>, D: Device, C: Clock + Drop, R: Wait>(
    rt: &R,
    engine: &Engine<B, D, C>,
    desk: &mut Desk<B, D>,
) -> usize {
    let mut served = 0usize;
    for _ in 0..10_000 {
        if !engine.serve_one(rt, desk) {
            return served;
        }
        served = served.saturating_add(1);
    }
    served
}

// Gets a field until it has this text. Returns whether it has it in time.
fn comes<B: EngineName<D>, D: Device, C: Clock + Drop, R: Wait>(
    rt: &R,
    engine: &Engine<B, D, C>,
    desk: &mut Desk<B, D>,
    name: &[u8],
    wanted: &[u8],
) -> bool {
    let Ok(channel) = engine.channel(name) else {
        return false;
    };
    for _ in 0..LOOKS {
        let Ok((shown, _receipt)) = engine.get(rt, desk, channel) else {
            return false;
        };
        if shown == FieldText::cut(wanted) {
            return true;
        }
        thread::yield_now();
    }
    false
}

// Watches a record, and returns whether it is watched.
fn watches<B: EngineName<D>, D: Device, C: Clock + Drop, R: Wait>(
    rt: &R,
    engine: &Engine<B, D, C>,
    name: &[u8],
) -> bool {
    match engine.record(name) {
        Ok(number) => engine.watch(rt, number).is_ok(),
        Err(_) => false,
    }
}

// Watches a record no more, and returns whether there is one.
fn unwatches<B: EngineName<D>, D: Device, C: Clock + Drop, R: Wait>(
    rt: &R,
    engine: &Engine<B, D, C>,
    name: &[u8],
) -> bool {
    match engine.record(name) {
        Ok(number) => engine.unwatch(rt, number).is_ok(),
        Err(_) => false,
    }
}

// Takes the records that were marked, and returns whether they have these names, in any order.
fn are_marked<B: EngineName<D>, D: Device, C: Clock + Drop, R: Wait>(
    rt: &R,
    engine: &Engine<B, D, C>,
    names: &[&[u8]],
) -> bool {
    match engine.take_marked(rt) {
        Ok(marked) => is_part(engine, marked.as_slice(), names),
        Err(_) => false,
    }
}

// Looks at a field, and returns whether it has this text.
fn looks<B: EngineName<D>, D: Device, C: Clock + Drop, R: Wait>(
    rt: &R,
    engine: &Engine<B, D, C>,
    desk: &mut Desk<B, D>,
    name: &[u8],
    field: FieldNo,
    wanted: &[u8],
) -> bool {
    let Ok(number) = engine.record(name) else {
        return false;
    };
    let Ok(shown) = engine.look(rt, desk, number, &[field]) else {
        return false;
    };
    match shown.first() {
        Some(first) => first.text == FieldText::cut(wanted),
        None => false,
    }
}

// Carries out a step, and returns whether it has the expected result.
fn holds<B: EngineName<D>, D: Device, C: Clock + Drop, R: Wait>(
    rt: &R,
    engine: &Engine<B, D, C>,
    desk: &mut Desk<B, D>,
    step: Step,
) -> bool {
    match step {
        Step::Makes(call, wanted) => answers(rt, engine, desk, call, wanted, &[]),
        Step::Ends(call, wanted, ended) => answers(rt, engine, desk, call, wanted, ended),
        Step::Parts(wanted) => are_parts(rt, engine, wanted),
        Step::ShowsParts => engine.parts(rt, desk).is_ok(),
        Step::Checkpoint => engine.checkpoint(rt).is_ok(),
        Step::Scans(choice, wanted) => engine.scan(rt, desk, choice) == Ok(wanted),
        Step::ScanFails(choice, error) => engine.scan(rt, desk, choice) == Err(error),
        Step::Lists(choice, names) => is_list(rt, engine, choice, names),
        Step::Posts(name, wanted) => { is_count::<B, D>(engine.post_event(rt, desk, name), wanted) }
        Step::Interrupts(word, wanted) => {
            is_count::<B, D>(engine.io_interrupt(rt, desk, word), wanted)
        }
        Step::Serves(wanted) => serve_all(rt, engine, desk) == wanted,
        Step::Waits(name, wanted) => comes(rt, engine, desk, name, wanted),
        Step::Watches(name) => watches(rt, engine, name),
        Step::Unwatches(name) => unwatches(rt, engine, name),
        Step::Marked(names) => are_marked(rt, engine, names),
        Step::Looks(name, field, wanted) => looks(rt, engine, desk, name, field, wanted),
        Step::Closes => closes(rt, engine),
    }
}

/// Carries out steps with a desk of their own, up to the first with another result. Returns the
/// number of steps with the expected result.
pub fn follow<B: EngineName<D>, D: Device, C: Clock + Drop, R: Wait>(
    rt: &R,
    engine: &Engine<B, D, C>,
    steps: &[Step],
) -> usize {
    let Ok(mut desk) = engine.desk(rt) else {
        return 0;
    };
    let mut held = 0usize;
    for step in steps {
        if !holds(rt, engine, &mut desk, *step) {
            return held;
        }
        held = held.saturating_add(1);
    }
    held
}
