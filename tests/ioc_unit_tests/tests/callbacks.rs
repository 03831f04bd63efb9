//! Callback queues and the once queue, by lists of steps.
use ioc_callback::{Queue, Queues};
use ioc_menus::Priority;
use std::test::Fail;

/// A step on the queues, with its expected result. The once queue is the one without a priority.
#[derive(Clone, Copy)]
enum Step {
    Push(Option<Priority>, u32),
    Next(Option<u32>),
    /// Pushes the first number of items one after another, of which the second number find room.
    Fill(Option<Priority>, u32, u32),
    Dropped(u64),
}

static STEPS: [Step; 21] = [
    // HIGH precedes MEDIUM, LOW and once.
    Step::Push(None, 1),
    Step::Push(Some(Priority::Low), 2),
    Step::Push(Some(Priority::Medium), 3),
    Step::Push(Some(Priority::High), 4),
    Step::Push(Some(Priority::Low), 5),
    Step::Next(Some(4)),
    Step::Push(Some(Priority::High), 6),
    Step::Next(Some(6)),
    Step::Next(Some(3)),
    Step::Next(Some(2)),
    Step::Next(Some(5)),
    Step::Next(Some(1)),
    Step::Next(None),
    Step::Dropped(0),
    // Full queues drop items, and count them.
    Step::Fill(Some(Priority::High), 2001, 2000),
    Step::Fill(Some(Priority::Medium), 2001, 2000),
    Step::Fill(Some(Priority::Low), 2002, 2000),
    Step::Fill(None, 1001, 1000),
    Step::Dropped(5),
    Step::Next(Some(0)),
    Step::Next(Some(1)),
];

// Pushes an item, and returns whether there was room.
fn push(queues: &mut Queues<u32>, priority: Option<Priority>, item: u32) -> bool {
    match priority {
        Some(priority) => queues.push(priority, item).is_ok(),
        None => queues.push_once(item).is_ok(),
    }
}

// Pushes this many items one after another, and returns how many found room.
fn taken(queues: &mut Queues<u32>, priority: Option<Priority>, count: u32) -> u32 {
    let mut taken = 0u32;
    for item in 0..count {
        if push(queues, priority, item) {
            taken = taken.saturating_add(1);
        }
    }
    taken
}

// Carries out a step, and returns whether it has the expected result.
fn holds(queues: &mut Queues<u32>, step: Step) -> bool {
    match step {
        Step::Push(priority, item) => push(queues, priority, item),
        Step::Next(wanted) => queues.next() == wanted,
        Step::Fill(priority, count, wanted) => taken(queues, priority, count) == wanted,
        Step::Dropped(wanted) => queues.dropped == wanted,
    }
}

// Returns the place of the first step with another result.
fn first_wrong(queues: &mut Queues<u32>, steps: &[Step]) -> Option<usize> {
    for (place, step) in steps.iter().enumerate() {
        if !holds(queues, *step) {
            return Some(place);
        }
    }
    None
}

#[test]
fn queues_by_priority(rt: HostRuntime) -> Result<(), Fail> {
    let mut queues = Queues::new(rt.alloc())?;
    assert_eq!(rt; first_wrong(&mut queues, &STEPS), None);
    Ok(())
}

/// A step on one queue of two places, with its expected result.
#[derive(Clone, Copy)]
enum QueueStep {
    Empty(bool),
    Full(bool),
    Counts(usize),
    Push(u8, Result<(), u8>),
    Pop(Option<u8>),
}

static QUEUE_STEPS: [QueueStep; 9] = [
    QueueStep::Empty(true),
    QueueStep::Push(1, Ok(())),
    QueueStep::Push(2, Ok(())),
    QueueStep::Full(true),
    QueueStep::Push(3, Err(3)),
    QueueStep::Counts(2),
    QueueStep::Pop(Some(1)),
    QueueStep::Pop(Some(2)),
    QueueStep::Pop(None),
];

fn queue_holds(queue: &mut Queue<u8, 2>, step: QueueStep) -> bool {
    match step {
        QueueStep::Empty(wanted) => queue.is_empty() == wanted,
        QueueStep::Full(wanted) => queue.is_full() == wanted,
        QueueStep::Counts(wanted) => queue.len() == wanted,
        QueueStep::Push(item, wanted) => queue.push(item) == wanted,
        QueueStep::Pop(wanted) => queue.pop() == wanted,
    }
}

#[test]
fn queue_is_first_in_first_out(rt: HostRuntime) -> Result<(), Fail> {
    let mut queue: Queue<u8, 2> = Queue::new(rt.alloc())?;
    for (number, step) in QUEUE_STEPS.iter().enumerate() {
        assert!(rt; queue_holds(&mut queue, *step), "step {number}");
    }
    Ok(())
}
