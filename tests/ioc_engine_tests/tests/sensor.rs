//! The devices of the tests.
use ioc_engine::{Answer, Device, Value};
use std::alloc::Global;
use std::sync::Arc;
use std::sync::atomic::{AtomicU64, Ordering};
use std::thread;

// The number of times that a device looks at a flag before it stops waiting.
const TURNS: u64 = 100_000_000;

/// A device of the tests.
#[derive(Drop)]
pub enum Sensor {
    /// Raises the first flag when it is called, and answers once the second is raised.
    Holding(Arc<AtomicU64, Global>, Arc<AtomicU64, Global>),
    /// All its answers are asynchronous.
    Later,
    /// Answers at once: this number, and two more each time.
    Odd(i32),
    /// Raises the flag when it is called, and answers at once.
    Raising(Arc<AtomicU64, Global>),
    /// Raises the flag when it is called, and answers later.
    Starting(Arc<AtomicU64, Global>),
}

/// Returns whether a flag was raised in time.
pub fn seen(flag: &AtomicU64) -> bool {
    for _ in 0..TURNS {
        if flag.load(Ordering::SeqCst) != 0 {
            return true;
        }
        thread::yield_now();
    }
    false
}

// Reports that the device was called, and waits until another call is answered.
fn hold(asked: &AtomicU64, answered: &AtomicU64) -> Answer {
    asked.store(1, Ordering::SeqCst);
    if seen(answered) {
        Answer::Done(Value::Long(7))
    } else {
        Answer::Fault
    }
}

// Answers with a number, to which 2 is added.
fn count(next: &mut i32) -> Answer {
    let now = *next;
    *next = now.wrapping_add(2);
    Answer::Done(Value::Long(now))
}

// Raises a flag, and returns this answer.
fn raise(flag: &AtomicU64, answer: Answer) -> Answer {
    flag.store(1, Ordering::SeqCst);
    answer
}

impl Device for Sensor {
    ghost gives = { λ _ _ _ _ _. Unit {0} };

    fn read(&mut self, _moment: u64) -> Answer {
        match self {
            Sensor::Holding(asked, answered) => hold(asked, answered),
            Sensor::Later => Answer::Later,
            Sensor::Odd(next) => count(next),
            Sensor::Raising(flag) => raise(flag, Answer::Done(Value::Long(7))),
            Sensor::Starting(flag) => raise(flag, Answer::Later),
        }
    }

    fn write(&mut self, _value: Value, _moment: u64) -> Answer {
        match self {
            Sensor::Later => Answer::Later,
            Sensor::Holding(_, _) | Sensor::Odd(_) | Sensor::Raising(_) | Sensor::Starting(_) =>
                Answer::Fault,
        }
    }
}
