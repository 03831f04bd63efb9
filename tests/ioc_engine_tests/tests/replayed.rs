//! The calls of many threads, made again by one thread on one map in the order of the journal.
use crate::tests::calling::{Told, link_reply};
use ioc_engine::{
    Call as JournalCall, Database, Event, Finished, Input, IocError, JournalEntry, Macros,
    NotifyId, RecordNo, Reply, Value, load,
};
use ioc_events::run_get;
use ioc_fields::{CommonField, FieldNo, OwnField};
use ioc_links::{LinkKind, parse};
use ioc_names::Names;
use ioc_sim::Machine;
use std::alloc::{AllocError, Global};

const VALUE: FieldNo = FieldNo::Own(OwnField::Val);

const FORWARD: FieldNo = FieldNo::Common(CommonField::Flnk);

/// A call on the record with this number.
#[derive(Clone, Copy)]
pub enum Call {
    Put(usize),
    Process(usize),
    Get(usize),
    /// Gets the forward link.
    GetLink(usize),
    /// Changes the forward link to none.
    Cut(usize),
    /// Changes the forward link of the first record to the second.
    Lead(usize, usize),
    PutNotify(usize),
    /// Cancels the put with notification with this number.
    Cancel(u64),
    /// Completes a record with its completion of this number.
    Complete(usize, u64),
}

impl Call {
    /// Returns the number of the record, or 0 for a cancel.
    pub fn record(self) -> usize {
        match self {
            Call::Put(number)
            | Call::Process(number)
            | Call::Get(number)
            | Call::GetLink(number)
            | Call::Cut(number)
            | Call::Lead(number, _)
            | Call::PutNotify(number)
            | Call::Complete(number, _) => number,
            Call::Cancel(_) => 0,
        }
    }

    /// Returns the record to which a link is changed, or 0.
    pub fn other(self) -> usize {
        match self {
            Call::Lead(_, other) => other,
            _ => 0,
        }
    }
}

/// A call that was answered, and its place in the journal.
#[derive(Clone, Copy)]
pub struct Kept {
    pub place: u64,
    pub call: Call,
    pub reply: Told,
}

/// Records on one map, with their names.
#[derive(Drop)]
pub struct OneThread {
    machine: Machine,
    names: Names,
    // The numbers that puts with notification have here, by those that they have in the engine.
    numbers: Vec<Option<NotifyId>>,
}

impl OneThread {
    fn process(&mut self, number: RecordNo) -> Result<Reply, AllocError> {
        self.machine.process(number)
    }

    fn put(&mut self, number: RecordNo) -> Result<Reply, AllocError> {
        self.machine.put(number, VALUE, b"3")
    }

    fn put_notify(&mut self, number: RecordNo) -> Result<Reply, AllocError> {
        self.machine.notify(number, VALUE, Input::from_text(b"4"))
    }

    // Cancels the put with notification that has this number in the engine.
    fn cancel(&mut self, put: u64) -> Result<Reply, AllocError> {
        match self.numbers.get(put as usize) {
            Some(Some(number)) => self.machine.cancel(*number),
            _ => Ok(Reply::Refused(IocError::Stale)),
        }
    }

    // Keeps the numbers of a put with notification. Returns whether the engine's is a new one.
    fn keep_number(&mut self, engine: NotifyId, here: NotifyId) -> bool {
        match self.numbers.get_mut(engine.number() as usize) {
            Some(kept) if kept.is_none() => {
                *kept = Some(here);
                true
            }
            _ => false,
        }
    }

    // Makes a call of the engine, and returns whether the reply is the same, but for the number of
    // a put with notification, which has to be a new one.
    fn replies_alike(&mut self, alloc: Global, kept: Kept) -> Result<bool, IocError> {
        let here = self.told(alloc, kept.call)?;
        let plain = Told::Reply(Reply::Plain);
        if here == plain {
            return Ok(kept.reply == plain);
        }
        match (number_in(&here), number_in(&kept.reply)) {
            (Some(own), Some(given)) => Ok(self.keep_number(given, own)),
            _ => Ok(here == kept.reply),
        }
    }

    /// Returns the text of a field of a record.
    pub fn shown(&self, record: usize, field: FieldNo) -> Told {
        match run_get(self.machine.map(), RecordNo::new(record), field) {
            Ok(text) => Told::Text(text),
            Err(refused) => Told::Reply(Reply::Refused(refused)),
        }
    }

    fn complete(&mut self, number: RecordNo, wait: u64) -> Result<Reply, AllocError> {
        self.machine
            .complete(number, wait, Finished::Done(Value::Long(5)))
    }

    fn set_link(&mut self, number: RecordNo, text: &[u8]) -> Result<Reply, IocError> {
        let link = parse(LinkKind::NoDevice, text)?;
        Ok(self.machine.link(&self.names, number, FORWARD, &link)?)
    }

    // Makes a request or a put of a journal, and returns its reply, or `None` if it is another
    // event.
    fn answer_event(&mut self, event: &Event) -> Result<Option<Reply>, AllocError> {
        Ok(match event {
            Event::Process { record } => Some(self.process(*record)?),
            Event::Put {
                record,
                field,
                value: Input::Value(Value::Text(text)),
            } => Some(self.machine.put(*record, *field, text.as_slice())?),
            _ => None,
        })
    }

    /// Makes a request, a put or a link change of a journal at its time, and returns whether the
    /// reply is the same. Returns false for any other call.
    ///
    /// # Errors
    ///
    /// [`AllocError`] if allocation fails.
    pub fn replies_as(&mut self, kept: &JournalEntry) -> Result<bool, AllocError> {
        self.machine.set_moment(kept.entry.moment);
        match &kept.entry.call {
            JournalCall::Event(event, reply) => Ok(self.answer_event(event)? == Some(*reply)),
            JournalCall::Link(record, field, link, told) => {
                let reply = self.machine.link(&self.names, *record, *field, &link.link)?;
                Ok(Told::Reply(reply) == link_reply(*told))
            }
            _ => Ok(false),
        }
    }

    // Makes a call that isn't a get, and returns its reply.
    fn answer(&mut self, alloc: Global, number: RecordNo, call: Call) -> Result<Reply, IocError> {
        match call {
            Call::Put(_) => Ok(self.put(number)?),
            Call::Process(_) => Ok(self.process(number)?),
            Call::Cut(_) => self.set_link(number, b""),
            Call::Lead(_, other) => {
                let name = format!(in alloc; "r{other}")?;
                self.set_link(number, name.as_bytes())
            }
            Call::PutNotify(_) => Ok(self.put_notify(number)?),
            Call::Cancel(put) => Ok(self.cancel(put)?),
            Call::Complete(_, wait) => Ok(self.complete(number, wait)?),
            Call::Get(_) | Call::GetLink(_) => Ok(Reply::Plain),
        }
    }

    // Makes a call, and returns its reply.
    fn told(&mut self, alloc: Global, call: Call) -> Result<Told, IocError> {
        match call {
            Call::Get(record) => Ok(self.shown(record, VALUE)),
            Call::GetLink(record) => Ok(self.shown(record, FORWARD)),
            _ => {
                let number = RecordNo::new(call.record());
                Ok(Told::Reply(self.answer(alloc, number, call)?))
            }
        }
    }
}

// Returns the number of the put with notification that a reply names.
fn number_in(reply: &Told) -> Option<NotifyId> {
    match reply {
        Told::Reply(Reply::Notify(number)) => Some(*number),
        _ => None,
    }
}

// Returns the calls in the order of their places, or `None` if these aren't the first places.
fn in_order(alloc: Global, calls: &[Kept]) -> Result<Option<Vec<Kept>>, AllocError> {
    let mut places = vec![in alloc; None; calls.len()]?;
    for kept in calls {
        match places.get_mut(kept.place as usize) {
            Some(place) if place.is_none() => *place = Some(*kept),
            _ => return Ok(None),
        }
    }
    let mut ordered = Vec::new(alloc);
    for place in places {
        let Some(kept) = place else {
            return Ok(None);
        };
        ordered.push(kept)?;
    }
    Ok(Some(ordered))
}

/// Returns the records of this text on one map, with room for the numbers of this many puts with
/// notification, or `None` if the text can't be loaded.
///
/// # Errors
///
/// [`AllocError`] if allocation fails.
pub fn loaded(alloc: Global, text: &[u8], puts: usize) -> Result<Option<OneThread>, AllocError> {
    let Ok(Database { names, records }) = load(alloc, text, &Macros::new(alloc)) else {
        return Ok(None);
    };
    Ok(Some(OneThread {
        machine: Machine::new(alloc, records, None)?,
        names,
        numbers: vec![in alloc; None; puts.saturating_add(1)]?,
    }))
}

/// Makes these calls on one map of the records of this text, in the order of their places. Returns
/// the records, or `None` if the text can't be loaded, the places aren't the first ones of the
/// journal, or a reply differs.
///
/// # Errors
///
/// [`IocError::NoMemory`] if allocation fails.
pub fn replayed(alloc: Global, text: &[u8], calls: &[Kept]) -> Result<Option<OneThread>, IocError> {
    let Some(ordered) = in_order(alloc, calls)? else {
        return Ok(None);
    };
    let Some(mut one) = loaded(alloc, text, ordered.len())? else {
        return Ok(None);
    };
    for kept in ordered {
        if !one.replies_alike(alloc, kept)? {
            return Ok(None);
        }
    }
    Ok(Some(one))
}
