//! The callback queues and the once queue, shared by several threads, and their workers.
ghost use Rattle.std.specs.Prelude.{◌≡◌, ◌-◌, ◌^◌, ⊤, OnOk, IfErr};

use ioc_ledger::{Ledger, PARTS};
use ioc_menus::Priority;
use ioc_names::RecordNo;
use ioc_shared_queues::{
    CallbackQueues, Rank, RecordRequest, Serve, SharedQueues, hand_back_all, record_requests,
};
use std::alloc::{AllocError, Global};
use std::marker::Brand;
use std::sync::atomic::{AtomicU64, Ordering};
use std::sync::ledger::Blank;
use std::sync::{Wait, ledger};
use std::test::Fail;
use std::thread;
use std::thread::Threads;

// Puts one item more on a queue than it holds. Returns whether the items up to its limit found
// room, the last one came back and was counted, and the others are taken in the order of putting.
fn holds_its_limit(
    rt: &impl Wait,
    alloc: Global,
    rank: Rank,
    limit: u64,
) -> Result<bool, AllocError> {
    let queues = CallbackQueues::<u64>::new(alloc)?;
    for item in 0..limit {
        if queues.push(rt, &mut queues.lane(), rank, item).is_err() {
            return Ok(false);
        }
    }
    let refused = queues.push(rt, &mut queues.lane(), rank, limit) == Err(limit);
    for item in 0..limit {
        if queues.take_first(rt, &mut queues.lane()) != Some(item) {
            return Ok(false);
        }
    }
    let empty = queues.take_first(rt, &mut queues.lane()).is_none();
    Ok(refused && empty && queues.dropped() == 1)
}

#[test]
fn queues_hold_their_limits(rt: HostRuntime) -> Result<(), Fail> {
    for (rank, limit) in [
        (Rank::High, 2000),
        (Rank::Medium, 2000),
        (Rank::Low, 2000),
        (Rank::Once, 1000),
    ] {
        assert_eq!(rt; holds_its_limit(&rt, rt.alloc(), rank, limit)?, true);
    }
    Ok(())
}

// Writes down the items that it serves, and those that it refuses and are handed back.
#[derive(Drop)]
struct Clerk {
    served: Vec<u64>,
    handed_back: Vec<u64>,
}

// The item that the clerk refuses.
const REFUSED: u64 = 13;

impl Serve<u64> for Clerk {
    ghost use Rattle.std.specs.Prelude.{⊤};

    ghost serves = { λ _ _ _. ⊤ };

    ghost refuses = { λ _ _ _. ⊤ };

    ghost hands_back = { λ _ _ _. ⊤ };

    fn serve<R: Wait>(&mut self, _rt: &R, item: u64) -> Result<(), u64>
        ensures served { OnOk result ⊤ }
        ensures given_back { IfErr result (λ given. given ≡ item) }
    {
        if item == REFUSED || self.served.push(item).is_err() {
            return Err(item);
        }
        Ok(())
    }

    fn hand_back<R: Wait>(&mut self, _rt: &R, item: u64) {
        let _ = self.handed_back.push(item);
    }
}

static PUT: [(Rank, u64); 6] = [
    (Rank::Once, 1),
    (Rank::Low, 2),
    (Rank::High, 3),
    (Rank::Medium, 4),
    (Rank::High, 13),
    (Rank::High, 5),
];

static LEFT: [(Rank, u64); 2] = [(Rank::Low, 7), (Rank::High, 8)];

// Puts these items on their queues.
fn put_each(rt: &impl Wait, queues: &CallbackQueues<u64>, items: &[(Rank, u64)]) {
    for (rank, item) in items {
        let _ = queues.push(rt, &mut queues.lane(), *rank, *item);
    }
}

// Closes queues with these items, has one worker serve them, and hands back two that come later.
fn served_alone(
    rt: &impl Wait,
    alloc: Global,
    queues: &CallbackQueues<u64>,
    clerk: &mut Clerk,
) -> Result<(), AllocError> {
    put_each(rt, queues, &PUT);
    queues.close(rt);
    let mut worker = queues.worker(rt, alloc)?;
    worker.run(rt, queues, clerk);
    put_each(rt, queues, &LEFT);
    hand_back_all(rt, queues, &mut queues.lane(), clerk);
    Ok(())
}

#[test]
fn high_before_medium_before_low_before_once(rt: HostRuntime) -> Result<(), Fail> {
    let queues = CallbackQueues::<u64>::new(rt.alloc())?;
    let mut clerk = Clerk {
        served: Vec::new(rt.alloc()),
        handed_back: Vec::new(rt.alloc()),
    };
    served_alone(&rt, rt.alloc(), &queues, &mut clerk)?;
    assert_eq!(rt; clerk.served.as_slice(), [3, 5, 4, 2, 1].as_slice());
    assert_eq!(rt; clerk.handed_back.as_slice(), [13, 8, 7].as_slice());
    Ok(())
}

// Sends one request more than the LOW queue holds, each with a ticket, spends the tickets of those
// that found room and hands the last one back. Returns how many were spent and handed back and are
// out, and the number of the first record.
fn sent<B: ledger::Ledger>(
    rt: &impl Wait,
    alloc: Global,
    blank: Blank,
) -> Result<(u64, u64, u64, Option<usize>), AllocError>
    requires name { blank.name ≡ B.name }
    requires parts { (blank.parts ≡ B.parts) × (blank.parts ≡ 2 ^ 64 - 1) }
{
    let mut tickets = Ledger::<B>::new(blank);
    let queues = CallbackQueues::<RecordRequest<B>>::new(alloc)?;
    let rank = Rank::of(Priority::Low);
    for number in 0..2001 {
        let ticket = tickets.begin();
        let number = RecordNo::new(number);
        let lane = &mut queues.lane();
        if let Err(ticket) = record_requests::send(rt, &queues, lane, rank, number, ticket) {
            tickets.hand_back(ticket);
        }
    }
    let mut first = None;
    for _ in 0..2000 {
        if let Some(request) = queues.take(rt, &mut queues.lane(), rank) {
            if first.is_none() {
                first = Some(request.record.index());
            }
            tickets.spend(request.ticket);
        }
    }
    Ok((tickets.spent(), tickets.handed_back(), tickets.out(), first))
}

#[test]
fn a_refused_request_gives_its_ticket_back(rt: HostRuntime) -> Result<(), Fail> {
    assert_eq!(rt;
        sent::<Brand>(&rt, rt.alloc(), Blank::new(PARTS))?,
        (2000, 1, 0, Some(0))
    );
    Ok(())
}

// The number of times that a thread looks for something before it stops waiting.
const LOOKS: u64 = 1_000_000;

const PUSHERS: usize = 4;

const WORKERS: usize = 4;

// The number of items that each pusher puts.
const ITEMS: u64 = 1500;

// The number and the sum of the items that a thread has put or served.
#[derive(Drop)]
struct Done {
    count: u64,
    sum: u64,
}

impl Done {
    fn new() -> Self {
        Done { count: 0, sum: 0 }
    }

    fn add(&mut self, item: u64) {
        self.count = self.count.wrapping_add(1);
        self.sum = self.sum.wrapping_add(item);
    }

    fn add_all(&mut self, other: &Done) {
        self.count = self.count.wrapping_add(other.count);
        self.sum = self.sum.wrapping_add(other.sum);
    }
}

// Serves each item by adding it up, once `open` is 1. All workers together count in `all` the items
// that they have begun.
#[derive(Drop)]
struct Adder<'a> {
    done: Done,
    all: &'a AtomicU64,
    open: &'a AtomicU64,
}

impl Serve<u64> for Adder<'_> {
    ghost use Rattle.std.specs.Prelude.{⊤};

    ghost serves = { λ _ _ _. ⊤ };

    ghost refuses = { λ _ _ _. ⊤ };

    ghost hands_back = { λ _ _ _. ⊤ };

    fn serve<R: Wait>(&mut self, _rt: &R, item: u64) -> Result<(), u64>
        ensures served { OnOk result ⊤ }
        ensures given_back { IfErr result (λ given. given ≡ item) }
    {
        self.all.fetch_add(1, Ordering::SeqCst);
        is_reached(self.open, 1);
        self.done.add(item);
        Ok(())
    }

    fn hand_back<R: Wait>(&mut self, _rt: &R, _item: u64) {}
}

// Returns whether the number was reached in time.
fn is_reached(number: &AtomicU64, wanted: u64) -> bool {
    for _ in 0..LOOKS {
        if number.load(Ordering::SeqCst) == wanted {
            return true;
        }
        thread::yield_now();
    }
    false
}

// Returns whether so many workers were asleep in time.
fn are_asleep(queues: &CallbackQueues<u64>, wanted: usize) -> bool {
    for _ in 0..LOOKS {
        if queues.idle_workers().asleep() == wanted {
            return true;
        }
        thread::yield_now();
    }
    false
}

// Serves items until the queues are closed and empty.
fn work(
    rt: &impl Wait,
    alloc: Global,
    queues: &CallbackQueues<u64>,
    all: &AtomicU64,
    open: &AtomicU64,
) -> Done {
    let mut adder = Adder {
        done: Done::new(),
        all,
        open,
    };
    if let Ok(mut worker) = queues.worker(rt, alloc) {
        worker.run(rt, queues, &mut adder);
    }
    adder.done
}

// Puts items on all queues in turn. The last pusher to end closes the queues. Returns the items
// that found room.
fn put_all(rt: &impl Wait, queues: &CallbackQueues<u64>, ended: &AtomicU64, first: u64) -> Done {
    let mut done = Done::new();
    for k in 0..ITEMS {
        let item = first.wrapping_add(k);
        let rank = match item % 4 {
            0 => Rank::High,
            1 => Rank::Medium,
            2 => Rank::Low,
            _ => Rank::Once,
        };
        if queues.push(rt, &mut queues.lane(), rank, item).is_ok() {
            done.add(item);
        }
    }
    if ended.fetch_add(1, Ordering::SeqCst) == PUSHERS as u64 - 1 {
        queues.close(rt);
    }
    done
}

// What four pushers have put, and what four workers have served meanwhile.
fn four_and_four<R: Threads + Wait + Sync>(
    rt: &R,
    alloc: Global,
    queues: &CallbackQueues<u64>,
) -> Result<(Done, Done), AllocError> {
    let ended = &AtomicU64::new(0);
    let all = &AtomicU64::new(0);
    let open = &AtomicU64::new(1);
    let parts = thread::map_indices(
        rt,
        alloc,
        PUSHERS + WORKERS,
        &|i| {
            if i < PUSHERS {
                put_all(rt, queues, ended, (i as u64).wrapping_mul(10_000))
            } else {
                work(rt, alloc, queues, all, open)
            }
        },
    )?;
    let mut put = Done::new();
    let mut served = Done::new();
    for (i, part) in parts.iter().enumerate() {
        if i < PUSHERS {
            put.add_all(part);
        } else {
            served.add_all(part);
        }
    }
    Ok((put, served))
}

#[test]
fn four_pushers_and_four_workers(rt: HostRuntime) -> Result<(), Fail> {
    let queues = CallbackQueues::<u64>::new(rt.alloc())?;
    let (put, served) = four_and_four(&rt, rt.alloc(), &queues)?;
    assert_eq!(rt; put.count.wrapping_add(queues.dropped()), 6000);
    assert_eq!(rt; served.count, put.count);
    assert_eq!(rt; served.sum, put.sum);
    Ok(())
}

// Puts an item while so many workers sleep. Returns whether it was begun by one of them, and the
// others were left asleep: beside the worker that it woke at most one can have left the list, which
// found the item before it fell asleep.
fn wakes_one(
    rt: &impl Wait,
    queues: &CallbackQueues<u64>,
    all: &AtomicU64,
    item: u64,
    sleeping: usize,
) -> bool {
    let pushed = queues.push(rt, &mut queues.lane(), Rank::Low, item).is_ok();
    let left = queues.idle_workers().asleep();
    let others = sleeping.saturating_sub(1);
    pushed
        && left.saturating_add(1) >= others
        && is_reached(all, item)
        && are_asleep(queues, others)
}

// Wakes one sleeping worker and then another, lets both end their items, and closes the queues once
// all workers sleep again. Returns which of these steps were seen.
fn wake_and_close(
    rt: &impl Wait,
    queues: &CallbackQueues<u64>,
    all: &AtomicU64,
    open: &AtomicU64,
) -> [bool; 4] {
    let slept = are_asleep(queues, WORKERS);
    let first = wakes_one(rt, queues, all, 1, WORKERS);
    let second = wakes_one(rt, queues, all, 2, WORKERS - 1);
    open.store(1, Ordering::SeqCst);
    let slept_again = are_asleep(queues, WORKERS);
    queues.close(rt);
    [slept, first, second, slept_again]
}

// Does these steps beside four workers. Returns which were seen, and what the workers served.
fn woken_and_closed<R: Threads + Wait + Sync>(
    rt: &R,
    alloc: Global,
    queues: &CallbackQueues<u64>,
) -> Result<([bool; 4], Done), AllocError> {
    let all = &AtomicU64::new(0);
    let open = &AtomicU64::new(0);
    let (seen, parts) = thread::join(
        rt,
        || wake_and_close(rt, queues, all, open),
        || thread::map_indices(rt, alloc, WORKERS, &|_| work(rt, alloc, queues, all, open)),
    );
    let mut served = Done::new();
    for part in parts?.iter() {
        served.add_all(part);
    }
    Ok((seen, served))
}

#[test]
fn sleeping_workers_are_woken(rt: HostRuntime) -> Result<(), Fail> {
    let queues = CallbackQueues::<u64>::new(rt.alloc())?;
    let (seen, served) = woken_and_closed(&rt, rt.alloc(), &queues)?;
    assert_eq!(rt; seen, [true; 4]);
    assert_eq!(rt; (served.count, served.sum), (2, 3));
    assert_eq!(rt; queues.idle_workers().asleep(), 0);
    Ok(())
}
