//! The clock of the tests.
use ioc_engine::{Clock, CountingClock};

/// A clock of the tests.
#[derive(Drop)]
pub enum Timer {
    /// It counts its readings.
    Counting(CountingClock),
    /// It always shows this time.
    Fixed(u64),
}

impl Clock for Timer {
    fn now(&self) -> u64 {
        match self {
            Timer::Counting(clock) => clock.now(),
            Timer::Fixed(time) => *time,
        }
    }
}
