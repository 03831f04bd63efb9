//! The time stamps of the calls of many threads on one record.
use ioc_engine::{Clock, Device, Engine, EngineName, IocError, Receipt, Report};
use std::alloc::Global;
use std::sync::Wait;
use std::thread;
use std::thread::Threads;

// The number of threads, and of the requests of each.
const THREADS: usize = 8;

const CALLS: usize = 100;

// Requests the record, and returns the receipts.
fn requests<B: EngineName<D>, D: Device, C: Clock + Drop, R: Wait>(
    rt: &R,
    alloc: Global,
    engine: &Engine<B, D, C>,
) -> Result<Vec<Receipt<B>>, IocError> {
    let mut desk = engine.desk(rt)?;
    let number = engine.record(b"a")?;
    let mut receipts = Vec::with_capacity(alloc, CALLS)?;
    for _ in 0..CALLS {
        let (_reply, receipt) = engine.process(rt, &mut desk, number)?;
        receipts.push(receipt)?;
    }
    Ok(receipts)
}

// Puts the time stamps of these calls at their places.
fn place<B: EngineName<D>, D: Device, R: Wait>(
    rt: &R,
    report: &mut Report<B, D>,
    receipts: Vec<Receipt<B>>,
    moments: &mut [u64],
) {
    for receipt in receipts {
        let mut receipt = receipt;
        let moment = match report.entry(rt, &mut receipt) {
            Some(kept) => kept.entry.moment,
            None => 0,
        };
        if let Some(at) = moments.get_mut(receipt.place() as usize) {
            *at = moment;
        }
    }
}

/// Has eight threads request one record. Returns whether each call has a later time stamp than the
/// call before it in the journal, as a clock gives that never falls.
///
/// # Errors
///
/// The first refusal of a call. [`IocError::NoMemory`] if allocation fails.
pub fn moments_rise<
    B: EngineName<D> + Send + Sync,
    D: Device + Send + Sync,
    C: Clock + Drop + Send + Sync,
    R: Threads + Wait + Sync,
>(rt: &R, alloc: Global, engine: Engine<B, D, C>) -> Result<bool, IocError> {
    let each = |_thread: usize| requests(rt, alloc, &engine);
    let all = thread::map_indices(rt, alloc, THREADS, &each)?;
    let mut report = engine.stop(rt);
    let mut moments = vec![in alloc; 0u64; THREADS * CALLS]?;
    for receipts in all {
        place(rt, &mut report, receipts?, moments.as_mut_slice());
    }
    Ok(moments.is_sorted() && moments.first() != Some(&0))
}
