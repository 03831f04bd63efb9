//! The devices of the tests.
use crate::tests::text::{COUNTED, LATER};
use ioc_engine::{Answer, Device, DeviceName, Value};
use std::alloc::{AllocError, Global};
use std::sync::Arc;
use std::sync::atomic::{AtomicU64, Ordering};
use std::thread;

// The number of times that a flag is looked at before a thread stops waiting.
const TURNS: u64 = 100_000_000;

/// A flag that several threads see.
pub type Flag = Arc<AtomicU64, Global>;

/// A device of the tests.
#[derive(Drop)]
pub enum Meter {
    /// All its answers come later.
    Later,
    /// It answers at once, with one number more each time.
    Counting(i32),
    /// Raises the first flag when it is asked, and answers once the second one is raised.
    Holding(Flag, Flag),
}

/// Returns whether a flag was raised in time.
pub fn seen(flag: &AtomicU64) -> bool {
    for _ in 0..TURNS {
        if flag.load(Ordering::SeqCst) != 0 {
            return true;
        }
        thread::yield_now();
    }
    false
}

// Reports that the device was asked, and waits until it may answer.
fn hold(asked: &AtomicU64, answered: &AtomicU64) -> Answer {
    asked.store(1, Ordering::SeqCst);
    if seen(answered) {
        Answer::Done(Value::Long(7))
    } else {
        Answer::Fault
    }
}

// Answers with the next number.
fn count(next: &mut i32) -> Answer {
    let now = *next;
    *next = now.wrapping_add(1);
    Answer::Done(Value::Long(now))
}

impl Device for Meter {
    ghost gives = { λ _ _ _ _ _. Unit {0} };

    fn read(&mut self, _moment: u64) -> Answer {
        match self {
            Meter::Later => Answer::Later,
            Meter::Counting(next) => count(next),
            Meter::Holding(asked, answered) => hold(asked, answered),
        }
    }

    fn write(&mut self, _value: Value, _moment: u64) -> Answer {
        Answer::Later
    }
}

/// Returns the devices of all records that have one, with their names.
pub fn devices(alloc: Global) -> Result<Vec<(DeviceName, Meter)>, AllocError> {
    let mut all = Vec::new(alloc);
    for name in &LATER {
        all.push((DeviceName::cut(name.as_bytes()), Meter::Later))?;
    }
    for name in &COUNTED {
        all.push((DeviceName::cut(name.as_bytes()), Meter::Counting(0)))?;
    }
    Ok(all)
}

/// Returns two devices that answer later, and one that waits for a flag.
pub fn held_devices(
    alloc: Global,
    asked: &Flag,
    answered: &Flag,
) -> Result<Vec<(DeviceName, Meter)>, AllocError> {
    let mut all = Vec::new(alloc);
    for name in LATER.iter().take(2) {
        all.push((DeviceName::cut(name.as_bytes()), Meter::Later))?;
    }
    let holding = Meter::Holding(asked.clone()?, answered.clone()?);
    all.push((DeviceName::cut(b"holding"), holding))?;
    Ok(all)
}
