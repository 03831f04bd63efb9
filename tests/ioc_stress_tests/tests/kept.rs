//! The journal of an engine as the lines of its entries.
use ioc_engine::{Clock, Desk, Device, Engine, EngineName, IocError, Report};
use ioc_journal_file::{add_entries, add_entry};
use std::alloc::Global;
use std::sync::Wait;

/// The lines of the first entries of a journal.
#[derive(Drop)]
pub struct Lines {
    pub text: Vec<u8>,
    /// The place of the next entry.
    pub next: u64,
}

impl Lines {
    /// Creates the lines of no entry.
    pub fn new(alloc: Global) -> Self {
        Lines {
            text: Vec::new(alloc),
            next: 0,
        }
    }

    /// Makes a checkpoint, and appends the entries that leave memory.
    pub fn keep<B: EngineName<D>, D: Device, C: Clock + Drop, R: Wait>(
        &mut self,
        rt: &R,
        engine: &Engine<B, D, C>,
        desk: &mut Desk<B, D>,
    ) -> Result<(), IocError> {
        let excerpt = engine.checkpoint_from(rt, desk, self.next)?;
        self.next = add_entries(&mut self.text, excerpt.first, excerpt.entries.as_slice())?;
        Ok(())
    }

    /// Appends the entries that are in memory at the end.
    pub fn keep_rest<B: EngineName<D>, D: Device>(
        &mut self,
        report: &Report<B, D>,
    ) -> Result<(), IocError> {
        for _ in 0..u64::MAX {
            let Some(kept) = report.entry_at(self.next) else {
                break;
            };
            add_entry(&mut self.text, self.next, kept)?;
            self.next = self.next.saturating_add(1);
        }
        Ok(())
    }
}
