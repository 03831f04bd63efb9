//! Sets of records that consist only of their numbers.
ghost use Rattle.std.specs.Prelude.{◌≡◌, [], ℕ};

use ioc_names::RecordNo;
use ioc_topology::Locked;
use std::alloc::{AllocError, Global};

/// The numbers of the records of a set.
#[derive(Drop)]
pub struct Numbers {
    pub list: Vec<usize>,
}

impl Numbers {
    /// Returns the set of these numbers.
    pub fn of(alloc: Global, numbers: &[usize]) -> Result<Numbers, AllocError> {
        let mut list = Vec::new(alloc);
        list.extend_from_slice(numbers)?;
        Ok(Numbers { list })
    }
}

impl Locked for Numbers {
    type Ended = ();

    ghost numbers = { λ s. s.list.items };

    ghost sound = { λ _. Unit {0} };

    fn empty(alloc: Global) -> Numbers {
        Numbers {
            list: Vec::new(alloc),
        }
    }

    fn has(&self, number: RecordNo) -> bool {
        self.list.contains(&number.index())
    }

    fn len(&self) -> usize {
        self.list.len()
    }

    fn number_at(&self, place: usize) -> RecordNo {
        RecordNo::new(self.list[place])
    }

    // A set may be taken if it has several records.
    fn may_be_taken(&self) -> bool {
        self.list.len() > 1
    }

    fn is_sound(&self) {}
}
