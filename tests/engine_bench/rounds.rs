//! Rounds of calls by many threads.
use crate::later::Sensor;
use crate::work::{Job, Work};
use ioc_engine::{
    Channel, Desk, Engine, EngineName, Finished, FixedClock, Input as Given, IocError, NotifyId,
    Outcome, RecordNo, Reply, Value,
};
use ioc_fields::{FieldNo, OwnField};
use std::alloc::Global;
use std::sync::Wait;
use std::thread;
use std::thread::Threads;

// The field that is looked at.
const VALUE: FieldNo = FieldNo::Own(OwnField::Val);

type Calls<B> = Engine<B, Sensor, FixedClock>;

type OneDesk<B> = Desk<B, Sensor>;

fn is_processed(reply: &Reply) -> bool {
    matches!(reply, Reply::Outcome(Outcome::Processed))
}

// The records that a thread requests: the first one, and then each time the one that is `step`
// places further, of `count` records in a ring.
#[derive(Clone, Copy)]
struct Ring {
    first: usize,
    step: usize,
    count: usize,
}

impl Ring {
    // Returns the place after this one.
    fn after(&self, place: usize) -> usize {
        let next = place.saturating_add(self.step);
        if next < self.count {
            return next;
        }
        next.saturating_sub(self.count)
    }
}

// Requests a record in each round.
fn requests<B: EngineName<Sensor>, R: Wait>(
    rt: &R,
    engine: &Calls<B>,
    desk: &mut OneDesk<B>,
    ring: Ring,
    rounds: u64,
) -> Result<u64, IocError> {
    let mut held = 0u64;
    let mut place = ring.first;
    for _ in 0..rounds {
        let (reply, _receipt) = engine.process(rt, desk, RecordNo::new(place))?;
        held = held.saturating_add(u64::from(is_processed(&reply)));
        place = ring.after(place);
    }
    Ok(held)
}

// Looks at VAL of each record that is marked.
fn look_at_marked<B: EngineName<Sensor>, R: Wait>(
    rt: &R,
    engine: &Calls<B>,
    desk: &mut OneDesk<B>,
) -> Result<(), IocError> {
    for number in &engine.take_marked(rt)? {
        engine.look(rt, desk, *number, &[VALUE])?;
    }
    Ok(())
}

// Watches the records of a chain, and requests the first of them in each round. If it looks, it looks at
// VAL of each that is marked then.
fn watched_requests<B: EngineName<Sensor>, R: Wait>(
    rt: &R,
    engine: &Calls<B>,
    desk: &mut OneDesk<B>,
    job: &Job,
    channel: Channel,
) -> Result<u64, IocError> {
    let first = channel.record().index();
    for place in first..first.saturating_add(job.size) {
        engine.watch(rt, RecordNo::new(place))?;
    }
    look_at_marked(rt, engine, desk)?;
    let mut held = 0u64;
    for _ in 0..job.rounds {
        let (reply, _receipt) = engine.process(rt, desk, channel.record())?;
        held = held.saturating_add(u64::from(is_processed(&reply)));
        if matches!(job.work, Work::Watched) {
            look_at_marked(rt, engine, desk)?;
        }
    }
    Ok(held)
}

// Puts this value into a field in each round.
fn puts<B: EngineName<Sensor>, R: Wait>(
    rt: &R,
    engine: &Calls<B>,
    desk: &mut OneDesk<B>,
    channel: Channel,
    given: &Given,
    rounds: u64,
) -> Result<u64, IocError> {
    let mut held = 0u64;
    for _ in 0..rounds {
        let (reply, _receipt) = engine.put(rt, desk, channel, *given)?;
        held = held.saturating_add(u64::from(is_processed(&reply)));
    }
    Ok(held)
}

// Changes a link in each round, to a record of another set or to none. Counts the rounds that moved
// records.
fn link_changes<B: EngineName<Sensor>, R: Wait>(
    rt: &R,
    engine: &Calls<B>,
    desk: &mut OneDesk<B>,
    target: &Target,
    rounds: u64,
) -> Result<u64, IocError> {
    let mut held = 0u64;
    for round in 0..rounds {
        let text: &[u8] = if round % 2 == 0 {
            target.other.as_bytes()
        } else {
            b""
        };
        let (_reply, _receipt) = engine.set_link(rt, desk, target.channel, text)?;
        held = held.saturating_add(u64::from(desk.moved() > 0));
    }
    Ok(held)
}

// Puts a value into a field with notification, and returns the number of the put.
fn put_notify<B: EngineName<Sensor>, R: Wait>(
    rt: &R,
    engine: &Calls<B>,
    desk: &mut OneDesk<B>,
    channel: Channel,
) -> Result<NotifyId, IocError> {
    let (reply, _receipt) = engine.put_notify(rt, desk, channel, Given::from_text(b"3"))?;
    match reply {
        Reply::Notify(number) => Ok(number),
        _ => Err(IocError::Stale),
    }
}

// Completes a record, and returns whether it awaited this completion.
fn complete<B: EngineName<Sensor>, R: Wait>(
    rt: &R,
    engine: &Calls<B>,
    desk: &mut OneDesk<B>,
    number: RecordNo,
    wait: u64,
) -> Result<bool, IocError> {
    let answer = Finished::Done(Value::Long(5));
    let (reply, _receipt) = engine.complete(rt, desk, number, wait, answer)?;
    Ok(matches!(reply, Reply::Plain))
}

// Puts with notification in each round, cancels the put in the rounds of such work, and completes
// the record.
fn notifications<B: EngineName<Sensor>, R: Wait>(
    rt: &R,
    engine: &Calls<B>,
    desk: &mut OneDesk<B>,
    channel: Channel,
    cancels: bool,
    rounds: u64,
) -> Result<u64, IocError> {
    let mut held = 0u64;
    for round in 0..rounds {
        let number = put_notify(rt, engine, desk, channel)?;
        if cancels {
            let (_reply, _receipt) = engine.cancel(rt, desk, number)?;
        }
        let is_done = complete(rt, engine, desk, channel.record(), round + 1)?;
        held = held.saturating_add(u64::from(is_done));
    }
    Ok(held)
}

// Posts an event in each round, and serves the request of the record that waits for it.
fn posts<B: EngineName<Sensor>, R: Wait>(
    rt: &R,
    engine: &Calls<B>,
    desk: &mut OneDesk<B>,
    name: &[u8],
    rounds: u64,
) -> Result<u64, IocError> {
    let mut held = 0u64;
    for _ in 0..rounds {
        let (count, _receipt) = engine.post_event(rt, desk, name)?;
        let is_served = engine.serve_one(rt, desk);
        held = held.saturating_add(u64::from(count == 1 && is_served));
    }
    Ok(held)
}

// The field that a thread calls, and the record to which its link leads.
#[derive(Drop)]
struct Target {
    channel: Channel,
    other: String,
}

// Finds the target of a thread. Of a thread that posts events the other name is that of its event.
fn target_of<B: EngineName<Sensor>>(
    alloc: Global,
    engine: &Calls<B>,
    work: Work,
    thread: usize,
) -> Result<Target, IocError> {
    let first = thread.saturating_mul(2);
    let name = match work {
        Work::Lone | Work::Chain | Work::Marked | Work::Watched | Work::Put => format!(in alloc;
            "c{thread}:0"
        )?,
        Work::Notify | Work::Cancel => format!(in alloc; "d{thread}")?,
        Work::Link => format!(in alloc; "c{first}:9.FLNK")?,
        Work::Post => format!(in alloc; "p{thread}")?,
        Work::Serve => format!(in alloc; "mark")?,
        Work::Spread | Work::Narrow | Work::Hold => format!(in alloc; "o0")?,
    };
    let channel = engine.channel(name.as_bytes())?;
    let other = match work {
        Work::Post => format!(in alloc; "e{thread}")?,
        _ => format!(in alloc; "c{}:0", first.saturating_add(1))?,
    };
    Ok(Target { channel, other })
}

// Returns the records that a thread requests, which are all of the job or only the one at `place`.
fn ring_of(job: &Job, place: usize, thread: usize) -> Ring {
    match job.work {
        Work::Spread | Work::Narrow => Ring {
            first: thread.saturating_mul(job.size) / job.threads.max(1),
            step: 1,
            count: job.size,
        },
        _ => Ring {
            first: place,
            step: 0,
            count: usize::MAX,
        },
    }
}

// Carries out the rounds of a thread, and returns the number of those with the expected replies.
fn rounds<B: EngineName<Sensor>, R: Wait>(
    rt: &R,
    alloc: Global,
    engine: &Calls<B>,
    job: &Job,
    thread: usize,
) -> Result<u64, IocError> {
    let mut desk = engine.desk(rt)?;
    let target = target_of(alloc, engine, job.work, thread)?;
    let channel = target.channel;
    match job.work {
        Work::Lone | Work::Chain | Work::Spread | Work::Narrow => {
            let ring = ring_of(job, channel.record().index(), thread);
            requests(rt, engine, &mut desk, ring, job.rounds)
        }
        Work::Marked | Work::Watched => watched_requests(rt, engine, &mut desk, job, channel),
        Work::Put => {
            let given = Given::from_text(b"3");
            puts(rt, engine, &mut desk, channel, &given, job.rounds)
        }
        Work::Notify => notifications(rt, engine, &mut desk, channel, false, job.rounds),
        Work::Link => link_changes(rt, engine, &mut desk, &target, job.rounds),
        Work::Cancel => notifications(rt, engine, &mut desk, channel, true, job.rounds),
        Work::Post => posts(rt, engine, &mut desk, target.other.as_bytes(), job.rounds),
        Work::Serve | Work::Hold => Ok(0),
    }
}

/// Carries out the rounds of all threads, and returns the number of those with the expected
/// replies.
///
/// # Errors
///
/// The first refusal of a call. [`IocError::NoMemory`] if allocation fails.
pub fn in_threads<B: EngineName<Sensor> + Send + Sync, R: Threads + Wait + Sync>(
    rt: &R,
    alloc: Global,
    engine: &Calls<B>,
    job: &Job,
) -> Result<u64, IocError> {
    let each = |thread: usize| rounds(rt, alloc, engine, job, thread);
    let mut held = 0u64;
    for of_thread in thread::map_indices(rt, alloc, job.threads, &each)? {
        held = held.saturating_add(of_thread?);
    }
    Ok(held)
}
