//! Calls of a desk. The calls of a test are data.
use ioc_engine::{
    Channel, Clock, Desk, Device, Engine, EngineName, FieldText, Finished, Input, IocError,
    NotifyId, Receipt, RecordNo, Reply, Value,
};
use std::sync::Wait;

/// A call, with its record or field by name.
#[derive(Clone, Copy)]
pub enum Call {
    Put(&'static [u8], &'static [u8]),
    Get(&'static [u8]),
    Process(&'static [u8]),
    SetLink(&'static [u8], &'static [u8]),
    PutNotify(&'static [u8], &'static [u8]),
    /// Cancels the put with notification with this number.
    Cancel(u64),
    /// Asks whether the put with notification with this number is live.
    Live(u64),
    /// Completes a record with a number from its device. The second value is the number of the
    /// completion that the record awaits.
    Complete(&'static [u8], u64, i32),
}

/// A call, with its record or field by number.
#[derive(Clone, Copy)]
pub enum Addressed<'a> {
    Put(Channel, &'a [u8]),
    Get(Channel),
    Process(RecordNo),
    SetLink(Channel, &'a [u8]),
    PutNotify(Channel, &'a [u8]),
    Cancel(u64),
    Live(u64),
    Complete(RecordNo, u64, i32),
}

/// The reply to a call.
#[derive(Clone, Copy, PartialEq, Eq)]
pub enum Told {
    /// The reply of an event, or of a link change.
    Reply(Reply),
    /// The text of a field.
    Text(FieldText),
    /// Whether a put with notification is live.
    Live(bool),
}

impl Told {
    /// Returns whether this is the text of a field.
    pub fn is_text(&self, text: &str) -> bool {
        *self == Told::Text(FieldText::cut(text.as_bytes()))
    }
}

/// The reply to a call, its place in the journal, and the number of records that it moved to other
/// sets.
#[derive(Clone, Copy)]
pub struct Answered {
    pub reply: Told,
    pub place: u64,
    pub moved: usize,
}

// Returns the answer to a call that moves no records.
fn without_moves<B: EngineName<D>, D: Device>(reply: Told, receipt: &Receipt<B>) -> Answered {
    Answered {
        reply,
        place: receipt.place(),
        moved: 0,
    }
}

// Returns the answer to a call with an event.
fn event_answered<B: EngineName<D>, D: Device>(
    told: Result<(Reply, Receipt<B>), IocError>,
) -> Result<Answered, IocError> {
    let (reply, receipt) = told?;
    Ok(without_moves::<B, D>(Told::Reply(reply), &receipt))
}

/// Returns the reply of a link change.
pub fn link_reply(told: Result<(), IocError>) -> Told {
    Told::Reply(match told {
        Ok(()) => Reply::Plain,
        Err(refused) => Reply::Refused(refused),
    })
}

// Changes a link.
fn set_link<B: EngineName<D>, D: Device, C: Clock + Drop, R: Wait>(
    rt: &R,
    engine: &Engine<B, D, C>,
    desk: &mut Desk<B, D>,
    channel: Channel,
    text: &[u8],
) -> Result<Answered, IocError> {
    let (told, receipt) = engine.set_link(rt, desk, channel, text)?;
    Ok(Answered {
        moved: desk.moved(),
        ..without_moves::<B, D>(link_reply(told), &receipt)
    })
}

/// Makes a call.
pub fn make<B: EngineName<D>, D: Device, C: Clock + Drop, R: Wait>(
    rt: &R,
    engine: &Engine<B, D, C>,
    desk: &mut Desk<B, D>,
    call: Addressed<'_>,
) -> Result<Answered, IocError> {
    match call {
        Addressed::Put(channel, text) => {
            event_answered::<B, D>(engine.put(rt, desk, channel, Input::from_text(text)))
        }
        Addressed::Get(channel) => {
            let (text, receipt) = engine.get(rt, desk, channel)?;
            Ok(without_moves::<B, D>(Told::Text(text), &receipt))
        }
        Addressed::Process(number) => event_answered::<B, D>(engine.process(rt, desk, number)),
        Addressed::SetLink(channel, text) => set_link(rt, engine, desk, channel, text),
        Addressed::PutNotify(channel, text) => {
            event_answered::<B, D>(engine.put_notify(rt, desk, channel, Input::from_text(text)))
        }
        Addressed::Cancel(put) => {
            event_answered::<B, D>(engine.cancel(rt, desk, NotifyId::new(put)))
        }
        Addressed::Live(put) => {
            let (is_live, receipt) = engine.live(rt, desk, NotifyId::new(put))?;
            Ok(without_moves::<B, D>(Told::Live(is_live), &receipt))
        }
        Addressed::Complete(number, wait, value) => {
            let given = Finished::Done(Value::Long(value));
            event_answered::<B, D>(engine.complete(rt, desk, number, wait, given))
        }
    }
}

/// Looks the record or field of a call up.
pub fn looked_up<B: EngineName<D>, D: Device, C: Clock + Drop>(
    engine: &Engine<B, D, C>,
    call: Call,
) -> Result<Addressed<'static>, IocError> {
    Ok(match call {
        Call::Put(name, text) => Addressed::Put(engine.channel(name)?, text),
        Call::Get(name) => Addressed::Get(engine.channel(name)?),
        Call::Process(name) => Addressed::Process(engine.record(name)?),
        Call::SetLink(name, text) => Addressed::SetLink(engine.channel(name)?, text),
        Call::PutNotify(name, text) => Addressed::PutNotify(engine.channel(name)?, text),
        Call::Cancel(put) => Addressed::Cancel(put),
        Call::Live(put) => Addressed::Live(put),
        Call::Complete(name, wait, value) => Addressed::Complete(engine.record(name)?, wait, value),
    })
}
