//! Calls and link changes of several sets at once.
ghost use Rattle.std.specs.Prelude.{◌≡◌, Contains, IfOk};
ghost use Rattle.std.specs.Vec.{vec_len};
ghost use Rattle.ioc_tests.specs.declared.tests.numbers.Numbers.{Numbers};

use crate::tests::numbers::Numbers;
use ioc_names::RecordNo;
use ioc_topology::{Directory, NewCells, are_lent, hold_each};
use ioc_values::IocError;
use std::alloc::{AllocError, Global};
use std::sync::Wait;
use std::sync::atomic::{AtomicU64, Ordering};
use std::test::Fail;
use std::thread;
use std::thread::Threads;

// The number of times that a thread looks at a flag before it stops waiting.
const TURNS: u64 = 100_000_000;

// Returns whether the flag was raised in time.
fn seen(flag: &AtomicU64) -> bool {
    for _ in 0..TURNS {
        if flag.load(Ordering::SeqCst) != 0 {
            return true;
        }
        thread::yield_now();
    }
    false
}

// What a call and the steps of another thread tell each other.
#[derive(Drop)]
struct Flags {
    // The call is in progress.
    inside: AtomicU64,
    // The steps are done.
    answered: AtomicU64,
}

impl Flags {
    fn new() -> Self {
        Flags {
            inside: AtomicU64::new(0),
            answered: AtomicU64::new(0),
        }
    }
}

// Reports that the call is in progress, and keeps it so until the other call is answered. Returns
// whether that was in time.
fn held_until(flags: &Flags) -> bool {
    flags.inside.store(1, Ordering::SeqCst);
    seen(&flags.answered)
}

// Returns a directory with each of the first records in a set of its own.
fn singles(alloc: Global, count: usize) -> Result<Directory<Numbers>, AllocError> {
    let mut sets = Directory::new(alloc, count)?;
    for number in 0..count {
        sets.add(alloc, Numbers::of(alloc, &[number])?)?;
    }
    Ok(sets)
}

// Moves records among the sets of a link change: joins the first two, or parts a record from the
// first.
fn move_records(
    first: &mut Numbers,
    second: &mut Numbers,
    spare: &mut Numbers,
    one: usize,
    joins: bool,
) -> Result<(), AllocError> {
    if joins {
        return first.list.append(&mut second.list);
    }
    spare.list.push(one)?;
    first.list.retain(|number| *number != one);
    Ok(())
}

// Joins the sets of two records, or parts a record from its set if there is no other one.
fn relink(
    rt: &impl Wait,
    alloc: Global,
    sets: &Directory<Numbers>,
    one: usize,
    two: Option<usize>,
) -> Result<(), IocError> {
    let _guard = sets.guard_topology(rt);
    let new = sets.new_cells(rt, alloc)?;
    let changed = relink_in(rt, sets, &new, one, two);
    if changed.is_err() {
        sets.leave_new(rt, &new);
    }
    changed
}

// Does so under the locks of the sets.
fn relink_in<'a>(
    rt: &impl Wait,
    sets: &'a Directory<Numbers>,
    new: &NewCells<'a, Numbers>,
    one: usize,
    two: Option<usize>,
) -> Result<(), IocError> {
    let number = RecordNo::new(one);
    let other = match two {
        Some(two) => Some(RecordNo::new(two)),
        None => None,
    };
    for _ in rt.forever() {
        let Some(both) = sets.link_cells(new, number, &other)? else {
            continue;
        };
        let Ok((mut first_guard, mut second_guard)) = both.lock() else {
            continue;
        };
        let mut spare_guard = new.lock_spare(rt);
        let first = &mut *first_guard;
        let second = &mut *second_guard;
        let spare = &mut *spare_guard;
        if are_lent(first, second, spare, number, &other) {
            move_records(first, second, spare, one, two.is_some())?;
            sets.settle_all(rt, &both, new, first, second, spare);
            return Ok(());
        }
    }
    unreachable!()
}

// Returns the number of records of the set of a record, which is that of some set with the record.
fn size_of_set(rt: &impl Wait, sets: &Directory<Numbers>, number: usize) -> Result<usize, IocError>
    ensures { IfOk result (λ n. (s : Numbers) × Contains s.list.items number × (n ≡ vec_len s.list)) }
{
    let set = sets.lock_set(rt, RecordNo::new(number))?;
    Ok(set.list.len())
}

/// A call or a link change, with its expected result.
#[derive(Clone, Copy)]
enum Step {
    /// Joins the sets of two records.
    Join(usize, usize, Result<(), IocError>),
    /// Parts a record from its set.
    Part(usize),
    /// Counts the records of the set of a record.
    Size(usize, Result<usize, IocError>),
}

// Carries out a step, and returns whether it has the expected result.
fn holds(rt: &impl Wait, alloc: Global, sets: &Directory<Numbers>, step: Step) -> bool {
    match step {
        Step::Join(one, two, wanted) => relink(rt, alloc, sets, one, Some(two)) == wanted,
        Step::Part(one) => relink(rt, alloc, sets, one, None) == Ok(()),
        Step::Size(number, wanted) => size_of_set(rt, sets, number) == wanted,
    }
}

// Returns the place of the first step with another result.
fn first_wrong(
    rt: &impl Wait,
    alloc: Global,
    sets: &Directory<Numbers>,
    steps: &[Step],
) -> Option<usize> {
    for (place, step) in steps.iter().enumerate() {
        if !holds(rt, alloc, sets, *step) {
            return Some(place);
        }
    }
    None
}

// Keeps the set of a record locked until the other call is answered. Returns whether that was in
// time.
fn hold_set(
    rt: &impl Wait,
    sets: &Directory<Numbers>,
    number: usize,
    flags: &Flags,
) -> Result<bool, IocError> {
    let _set = sets.lock_set(rt, RecordNo::new(number))?;
    Ok(held_until(flags))
}

// Does the steps once a call is in progress, and reports that. Returns whether it was in progress
// before the steps, and the first step with another result.
fn answer(
    rt: &impl Wait,
    alloc: Global,
    sets: &Directory<Numbers>,
    steps: &[Step],
    flags: &Flags,
) -> (bool, Option<usize>) {
    let began = seen(&flags.inside);
    let wrong = first_wrong(rt, alloc, sets, steps);
    flags.answered.store(1, Ordering::SeqCst);
    (began, wrong)
}

// Keeps a call in progress until the steps are done. Returns whether it was in progress before the
// steps, whether it ended after them, and the first step with another result.
fn beside<R: Threads + Wait + Sync>(
    rt: &R,
    alloc: Global,
    sets: &Directory<Numbers>,
    number: usize,
    steps: &[Step],
) -> (bool, bool, Option<usize>) {
    let flags = Flags::new();
    let (held, other) = thread::join(
        rt,
        || hold_set(rt, sets, number, &flags),
        || answer(rt, alloc, sets, steps, &flags),
    );
    (other.0, held == Ok(true), other.1)
}

static CALL: [Step; 1] = [Step::Size(1, Ok(1))];

#[test]
fn two_sets_at_once(rt: HostRuntime) -> Result<(), Fail> {
    let sets = singles(rt.alloc(), 2)?;
    assert_eq!(rt;
        beside(&rt, rt.alloc(), &sets, 0, &CALL),
        (true, true, None)
    );
    Ok(())
}

static LINK: [Step; 1] = [Step::Join(2, 0, Ok(()))];

static LINKED: [Step; 1] = [Step::Size(0, Ok(2))];

#[test]
fn link_beside_work(rt: HostRuntime) -> Result<(), Fail> {
    let sets = singles(rt.alloc(), 3)?;
    assert_eq!(rt;
        beside(&rt, rt.alloc(), &sets, 1, &LINK),
        (true, true, None)
    );
    assert_eq!(rt; first_wrong(&rt, rt.alloc(), &sets, &LINKED), None);
    Ok(())
}

static JOINED: [Step; 10] = [
    Step::Join(3, 0, Ok(())),
    Step::Join(0, 2, Ok(())),
    Step::Size(2, Ok(3)),
    Step::Size(1, Ok(1)),
    Step::Join(2, 3, Ok(())),
    Step::Part(3),
    Step::Size(3, Ok(1)),
    Step::Size(0, Ok(2)),
    Step::Size(4, Err(IocError::NoRecord)),
    Step::Join(1, 4, Err(IocError::NoRecord)),
];

#[test]
fn sets_join_and_part(rt: HostRuntime) -> Result<(), Fail> {
    let sets = singles(rt.alloc(), 4)?;
    assert_eq!(rt; first_wrong(&rt, rt.alloc(), &sets, &JOINED), None);
    Ok(())
}

static PAIR: [Step; 1] = [Step::Join(3, 0, Ok(()))];

static PUT_BACK: [Step; 2] = [Step::Size(0, Ok(2)), Step::Size(2, Ok(1))];

// Takes the sets that may be taken and have this many records or more, and puts them back. Returns
// how many these were, and whether record 3 is in the first of them.
fn taken(
    rt: &impl Wait,
    alloc: Global,
    sets: &Directory<Numbers>,
    least: usize,
) -> Result<(usize, bool), IocError> {
    let guard = sets.guard_topology(rt);
    let taken = sets.take_where(rt, alloc, &|set: &Numbers| set.list.len() >= least)?;
    let count = taken.sets.len();
    let has_third = match taken.sets.first() {
        Some(set) => set.list.contains(&3),
        None => false,
    };
    sets.put_back(rt, taken);
    drop(guard);
    Ok((count, has_third))
}

#[test]
fn sets_are_taken_and_put_back(rt: HostRuntime) -> Result<(), Fail> {
    let sets = singles(rt.alloc(), 4)?;
    assert_eq!(rt; taken(&rt, rt.alloc(), &sets, 1)?, (0, false));
    assert_eq!(rt; first_wrong(&rt, rt.alloc(), &sets, &PAIR), None);
    assert_eq!(rt; taken(&rt, rt.alloc(), &sets, 2)?, (1, true));
    assert_eq!(rt; taken(&rt, rt.alloc(), &sets, 3)?, (0, false));
    assert_eq!(rt; taken(&rt, rt.alloc(), &sets, 1)?, (1, true));
    assert_eq!(rt; first_wrong(&rt, rt.alloc(), &sets, &PUT_BACK), None);
    Ok(())
}

// The number of times that a thread lets others run while it keeps all sets out of their cells.
const PAUSE: u64 = 1_000;

// Takes all sets out of their cells, keeps them while other threads run, and puts them back.
// Returns whether they had each record, and whether the other call was answered before that.
fn all_taken(
    rt: &impl Wait,
    alloc: Global,
    sets: &Directory<Numbers>,
    flags: &Flags,
) -> Result<(bool, bool), IocError> {
    let mut marks = Vec::from_elem(alloc, false, sets.len())?;
    let guard = sets.guard_topology(rt);
    let taken = sets.take_all(rt, alloc)?;
    let complete = hold_each(taken.sets.as_slice(), marks.as_mut_slice(), sets.len());
    flags.inside.store(1, Ordering::SeqCst);
    for _ in 0..PAUSE {
        thread::yield_now();
    }
    let found = flags.answered.load(Ordering::SeqCst) != 0;
    sets.put_back(rt, taken);
    drop(guard);
    Ok((complete, found))
}

// Takes all sets and puts them back while another thread does the steps. Returns what `all_taken`
// does, whether the sets were out before the steps, and the first step with another result.
fn all_taken_beside<R: Threads + Wait + Sync>(
    rt: &R,
    alloc: Global,
    sets: &Directory<Numbers>,
    steps: &[Step],
) -> (Result<(bool, bool), IocError>, bool, Option<usize>) {
    let flags = Flags::new();
    let (taken, other) = thread::join(
        rt,
        || all_taken(rt, alloc, sets, &flags),
        || answer(rt, alloc, sets, steps, &flags),
    );
    (taken, other.0, other.1)
}

static ALL_BACK: [Step; 5] = [
    Step::Size(0, Ok(2)),
    Step::Size(1, Ok(1)),
    Step::Size(2, Ok(1)),
    Step::Size(3, Ok(2)),
    Step::Join(2, 1, Ok(())),
];

#[test]
fn all_sets_are_taken_and_put_back(rt: HostRuntime) -> Result<(), Fail> {
    let sets = singles(rt.alloc(), 4)?;
    assert_eq!(rt; first_wrong(&rt, rt.alloc(), &sets, &PAIR), None);
    assert_eq!(rt;
        all_taken_beside(&rt, rt.alloc(), &sets, &ALL_BACK),
        (Ok((true, false)), true, None)
    );
    // The flag of each set was settled.
    assert_eq!(rt; taken(&rt, rt.alloc(), &sets, 1)?, (2, true));
    Ok(())
}

// Takes sets while the set of a record is locked, with its flag down, and puts them back.
fn taken_beside(
    rt: &impl Wait,
    alloc: Global,
    sets: &Directory<Numbers>,
    number: usize,
) -> Result<(usize, bool), IocError> {
    let set = sets.lock_set(rt, RecordNo::new(number))?;
    let found = taken(rt, alloc, sets, 1);
    drop(set);
    found
}

#[test]
fn others_may_be_locked(rt: HostRuntime) -> Result<(), Fail> {
    let sets = singles(rt.alloc(), 4)?;
    assert_eq!(rt; first_wrong(&rt, rt.alloc(), &sets, &PAIR), None);
    assert_eq!(rt; taken_beside(&rt, rt.alloc(), &sets, 1)?, (1, true));
    Ok(())
}

// Raises the flag of the set of a record, or settles it.
fn flag(
    rt: &impl Wait,
    sets: &Directory<Numbers>,
    number: usize,
    raises: bool,
) -> Result<(), IocError> {
    let set = sets.lock_set(rt, RecordNo::new(number))?;
    if raises {
        sets.raise_flag(RecordNo::new(number));
    } else {
        sets.settle_flag(RecordNo::new(number), &set);
    }
    Ok(())
}

#[test]
fn flags_are_settled(rt: HostRuntime) -> Result<(), Fail> {
    let sets = singles(rt.alloc(), 4)?;
    flag(&rt, &sets, 3, true)?;
    assert_eq!(rt; taken(&rt, rt.alloc(), &sets, 1)?, (1, true));
    // It was settled when the set was put back.
    assert_eq!(rt; taken(&rt, rt.alloc(), &sets, 1)?, (0, false));
    flag(&rt, &sets, 3, true)?;
    flag(&rt, &sets, 3, false)?;
    assert_eq!(rt; taken(&rt, rt.alloc(), &sets, 1)?, (0, false));
    Ok(())
}

static CHANGES: [Step; 6] = [
    Step::Join(0, 1, Ok(())),
    Step::Join(2, 3, Ok(())),
    Step::Join(0, 3, Ok(())),
    Step::Part(1),
    Step::Part(2),
    Step::Part(3),
];

// Goes through the steps many times, and returns the first with another result. Cells that were
// left are used again, otherwise there would be none left after a few of them.
fn first_wrong_of_many(
    rt: &impl Wait,
    alloc: Global,
    sets: &Directory<Numbers>,
    steps: &[Step],
) -> Option<usize> {
    for _ in 0..100 {
        if let Some(place) = first_wrong(rt, alloc, sets, steps) {
            return Some(place);
        }
    }
    None
}

#[test]
fn cells_are_used_again(rt: HostRuntime) -> Result<(), Fail> {
    let sets = singles(rt.alloc(), 4)?;
    assert_eq!(rt; first_wrong_of_many(&rt, rt.alloc(), &sets, &CHANGES), None);
    assert_eq!(rt; taken(&rt, rt.alloc(), &sets, 1)?, (0, false));
    Ok(())
}

static CHANGED: [Step; 3] = [
    Step::Join(3, 0, Ok(())),
    Step::Join(1, 0, Ok(())),
    Step::Part(3),
];

static GONE: [Step; 1] = [Step::Size(0, Err(IocError::NoRecord))];

// Returns the sizes of the sets as bits. Sizes from three on share a bit.
fn sizes(sets: &[Numbers]) -> u32 {
    let mut sizes = 0;
    for set in sets {
        sizes |= 1 << set.list.len().min(3);
    }
    sizes
}

// Gathers the sets, and returns their number and their sizes.
fn gathered(rt: &impl Wait, alloc: Global, sets: &mut Directory<Numbers>) -> (usize, u32) {
    let all = sets.gather(rt, alloc).sets;
    (all.len(), sizes(all.as_slice()))
}

#[test]
fn gather_finds_all(rt: HostRuntime) -> Result<(), Fail> {
    let mut sets = singles(rt.alloc(), 4)?;
    assert_eq!(rt; first_wrong(&rt, rt.alloc(), &sets, &CHANGED), None);
    assert_eq!(rt; gathered(&rt, rt.alloc(), &mut sets), (3, 6));
    assert_eq!(rt; sets.len(), 0);
    assert_eq!(rt; first_wrong(&rt, rt.alloc(), &sets, &GONE), None);
    Ok(())
}
