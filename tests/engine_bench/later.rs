//! The devices of the records that await them.
use ioc_engine::{Answer, Device, DeviceName, Value};
use std::alloc::{AllocError, Global};
use std::sync::Arc;
use std::sync::atomic::{AtomicU64, Ordering};

/// A device of the bench.
#[derive(Drop)]
pub enum Sensor {
    /// All its answers are asynchronous.
    Later,
    /// Answers at once, and counts its answers.
    Counting(Arc<AtomicU64, Global>),
}

impl Device for Sensor {
    ghost gives = { λ _ _ _ _ _. Unit {0} };

    fn read(&mut self, _moment: u64) -> Answer {
        match self {
            Sensor::Later => Answer::Later,
            Sensor::Counting(count) => {
                count.fetch_add(1, Ordering::SeqCst);
                Answer::Done(Value::Long(7))
            }
        }
    }

    fn write(&mut self, _value: Value, _moment: u64) -> Answer {
        Answer::Later
    }
}

/// Returns this many devices, `d0`, `d1` and so on, and the device `mark`, which counts with
/// `marks`.
pub fn devices(
    alloc: Global,
    count: usize,
    marks: &Arc<AtomicU64, Global>,
) -> Result<Vec<(DeviceName, Sensor)>, AllocError> {
    let mut all = Vec::new(alloc);
    for number in 0..count {
        let name = format!(in alloc; "d{number}")?;
        all.push((DeviceName::cut(name.as_bytes()), Sensor::Later))?;
    }
    let mark = Sensor::Counting(Arc::try_clone(marks)?);
    all.push((DeviceName::cut(b"mark"), mark))?;
    Ok(all)
}
