//! The waiting lists of notifications, and the numbers of live ones, by lists of steps.
use ioc_fields::{CommonField, FieldNo};
use ioc_names::RecordNo;
use ioc_notify::{LiveNumbers, NotifyId, WaitingLists};
use ioc_values::Value;
use std::alloc::{AllocError, Global};
use std::test::Fail;

/// A step on waiting lists, with its expected result.
#[derive(Clone, Copy)]
enum Step {
    /// Adds the notification with this number to the waiting list of a record, if there is room.
    Add(u64, usize, bool),
    /// The notification that has waited longest for a record.
    First(usize, Option<u64>),
    Remove(u64, bool),
    Has(u64, bool),
}

// First in, first out for each record, with room for four.
static STEPS: [Step; 13] = [
    Step::Add(1, 7, true),
    Step::Add(3, 5, true),
    Step::Add(4, 7, true),
    Step::Add(6, 5, true),
    Step::Add(8, 5, false),
    Step::First(7, Some(1)),
    Step::First(5, Some(3)),
    Step::First(6, None),
    Step::Remove(1, true),
    Step::Remove(1, false),
    Step::First(7, Some(4)),
    Step::Has(4, true),
    Step::Has(1, false),
];

// Adds a notification if there is room.
fn add(lists: &mut WaitingLists, number: u64, target: usize) -> bool {
    if !lists.has_room() {
        return false;
    }
    lists.add(
        NotifyId::new(number),
        RecordNo::new(target),
        FieldNo::Common(CommonField::Desc),
        Value::Long(1),
    );
    true
}

// Returns whether this notification has waited longest for a record, and has the value that all
// have.
fn is_first(lists: &WaitingLists, target: usize, wanted: Option<u64>) -> bool {
    match lists.first(RecordNo::new(target)) {
        Some(waiting) => {
            wanted == Some(waiting.number.number()) && waiting.value == Value::Long(1)
        }
        None => wanted.is_none(),
    }
}

// Carries out a step, and returns whether it has the expected result.
fn holds(lists: &mut WaitingLists, step: Step) -> bool {
    match step {
        Step::Add(number, target, wanted) => add(lists, number, target) == wanted,
        Step::First(target, wanted) => is_first(lists, target, wanted),
        Step::Remove(number, wanted) => lists.remove(NotifyId::new(number)) == wanted,
        Step::Has(number, wanted) => lists.has(NotifyId::new(number)) == wanted,
    }
}

// Returns whether a copy is unchanged when the original gets more room and one more notification.
fn is_copied(alloc: Global) -> Result<bool, AllocError> {
    let mut lists = WaitingLists::with_room(alloc, 1)?;
    let has_one = add(&mut lists, 1, 7);
    let copy = lists.copy(alloc)?;
    let is_full = !lists.has_room();
    lists.reserve(1)?;
    let has_two = add(&mut lists, 2, 7);
    let are_counted = copy.as_slice().len() == 1 && lists.as_slice().len() == 2;
    Ok(has_one && is_full && has_two && are_counted && is_first(&copy, 7, Some(1)))
}

#[test]
fn first_in_first_out_at_each_record(rt: HostRuntime) -> Result<(), Fail> {
    assert!(rt; is_copied(rt.alloc())?);
    let mut lists = WaitingLists::with_room(rt.alloc(), 4)?;
    for (number, step) in STEPS.iter().enumerate() {
        assert!(rt; holds(&mut lists, *step), "step {number}");
    }
    Ok(())
}

/// A step on the numbers of live notifications, with its expected result.
#[derive(Clone, Copy)]
enum LiveStep {
    /// Forgets all notifications.
    New,
    /// Begins the notification with this number, if fewer than 256 are live.
    Begin(u64, bool),
    /// Begins this many notifications, numbered from 1 on.
    BeginAll(u64),
    Gain(u64),
    /// Removes one record from the notification, and whether the notification isn't live any more
    /// either.
    Lose(u64, bool),
    Forget(u64, bool),
    Live(u64, bool),
    Counts(usize),
}

static LIVE_STEPS: [LiveStep; 19] = [
    // A notification ends with its last record.
    LiveStep::Live(1, false),
    LiveStep::Begin(1, true),
    LiveStep::Begin(2, true),
    LiveStep::Gain(1),
    LiveStep::Live(1, true),
    LiveStep::Lose(1, false),
    LiveStep::Live(1, true),
    LiveStep::Lose(1, true),
    LiveStep::Live(1, false),
    LiveStep::Lose(1, false),
    LiveStep::Forget(2, true),
    LiveStep::Forget(2, false),
    LiveStep::Begin(3, true),
    LiveStep::Counts(1),
    // At most 256 are live.
    LiveStep::New,
    LiveStep::BeginAll(256),
    LiveStep::Begin(257, false),
    LiveStep::Forget(7, true),
    LiveStep::Begin(257, true),
];

// Begins a notification if fewer than 256 are live.
fn begin(live: &mut LiveNumbers, number: u64) -> bool {
    if live.len() >= 256 {
        return false;
    }
    live.begin(NotifyId::new(number));
    true
}

// Begins this many notifications, and returns whether each began.
fn begin_all(live: &mut LiveNumbers, count: u64) -> bool {
    let mut all = true;
    for number in 0..count {
        all = begin(live, number.saturating_add(1)) && all;
    }
    all
}

fn live_holds(live: &mut LiveNumbers, step: LiveStep) -> bool {
    match step {
        LiveStep::New => true,
        LiveStep::Begin(number, wanted) => begin(live, number) == wanted,
        LiveStep::BeginAll(count) => begin_all(live, count),
        LiveStep::Gain(number) => {
            live.add_holder(NotifyId::new(number));
            true
        }
        LiveStep::Lose(number, wanted) => live.remove_holder(NotifyId::new(number)) == wanted,
        LiveStep::Forget(number, wanted) => live.forget(NotifyId::new(number)) == wanted,
        LiveStep::Live(number, wanted) => live.is_live(NotifyId::new(number)) == wanted,
        LiveStep::Counts(wanted) => live.len() == wanted,
    }
}

#[test]
fn notifications_that_are_live(rt: HostRuntime) -> Result<(), Fail> {
    let mut live = LiveNumbers::new(rt.alloc())?;
    for (number, step) in LIVE_STEPS.iter().enumerate() {
        if let LiveStep::New = step {
            live = LiveNumbers::new(rt.alloc())?;
        }
        assert!(rt; live_holds(&mut live, *step), "step {number}");
    }
    Ok(())
}
