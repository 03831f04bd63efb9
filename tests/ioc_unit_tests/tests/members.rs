//! Sets of records that are joined and parted by link changes, by a list of steps. If an allocation
//! fails, all must be as before, and the step is repeated: so the test holds whichever allocation
//! fails.
use crate::tests::sets::{
    Cut, Run, Sensor, add, answers, both_lead, fresh, holds, is_refused, join, leads_out, made,
    part, target,
};
use ioc_device::Device;
use ioc_names::RecordNo;
use ioc_record::{Record, RecordKind};
use ioc_set_records::Members;
use rec_numeric::Longin;
use std::alloc::{AllocError, Global};
use std::mem;

// The records of the chain.
static CHAIN: [Run; 1] = [(0, 10, None)];

// The first three records of the chain once the link of the third is empty, and the others.
static FRONT: [Run; 1] = [(0, 3, None)];

static BACK: [Run; 1] = [(3, 10, None)];

static ALONE: [Run; 1] = [(10, 11, None)];

static FRONT_AND_ALONE: [Run; 2] = [(0, 3, Some(10)), (10, 11, None)];

// The chain, and a record without links.
static CHAIN_AND_ALONE: [Run; 2] = [(0, 10, None), (10, 11, None)];

// A record whose link leaves its set.
static LOOSE: [Run; 1] = [(4, 5, Some(5))];

// The chain as a ring, and the ring without one of its links.
static RING: [Run; 1] = [(0, 10, Some(0))];

static OPEN_RING: [Run; 2] = [(0, 5, None), (5, 10, Some(0))];

// Returns whether all links of the chain are empty, and those of the bases unchanged.
fn are_cut<K: RecordKind, D: Device>(set: &mut Members<K, D>) -> bool {
    for (from, end, last) in &CHAIN {
        for index in *from..*end {
            let number = RecordNo::new(index);
            if !both_lead(set, number, None, target(index, *end, *last)) || !answers(set, number) {
                return false;
            }
        }
    }
    true
}

/// The records of a set.
#[derive(Clone, Copy)]
enum List {
    Nothing,
    Chain,
    Front,
    Back,
    Alone,
    FrontAndAlone,
    Ring,
    OpenRing,
    ChainAndAlone,
    Loose,
}

fn records(list: List) -> &'static [Run] {
    match list {
        List::Nothing => &[],
        List::Chain => &CHAIN,
        List::Front => &FRONT,
        List::Back => &BACK,
        List::Alone => &ALONE,
        List::FrontAndAlone => &FRONT_AND_ALONE,
        List::Ring => &RING,
        List::OpenRing => &OPEN_RING,
        List::ChainAndAlone => &CHAIN_AND_ALONE,
        List::Loose => &LOOSE,
    }
}

/// A step on three sets, with its expected result.
#[derive(Clone, Copy)]
enum Step {
    /// Replaces the first set by one of these records.
    First(List),
    Second(List),
    /// Adds this record to the first set.
    Add(usize, Option<usize>),
    /// Changes the link of a record of the first set. The records that part from it are the second
    /// set.
    Part(usize, Option<usize>),
    /// Changes the link of a record of the first set to one of the second. All records are in the
    /// first set then.
    Join(usize, usize),
    /// Swaps the second set and the third.
    Swap,
    /// Empties all links of the first set.
    Cut,
    /// The records of the first set and of the second.
    Are(List, List),
    /// The first set is the chain with all links empty.
    AreCut,
    /// The tests refuse what can't be done with the chain.
    Refused,
}

/// The sets that the steps work on.
#[derive(Drop)]
struct Sets<K, D> {
    first: Members<K, D>,
    second: Members<K, D>,
    third: Members<K, D>,
}

static STEPS: [Step; 39] = [
    // The third link of the chain is emptied, then leads to the single record, then back to where
    // it led.
    Step::First(List::Chain),
    Step::Are(List::Chain, List::Nothing),
    Step::Part(2, None),
    Step::Are(List::Front, List::Back),
    Step::Swap,
    Step::Are(List::Front, List::Nothing),
    Step::Second(List::Alone),
    Step::Are(List::Front, List::Alone),
    Step::Join(2, 10),
    Step::Are(List::FrontAndAlone, List::Nothing),
    Step::Part(2, None),
    Step::Are(List::Front, List::Alone),
    Step::Swap,
    Step::Are(List::Front, List::Back),
    Step::Join(2, 3),
    Step::Are(List::Chain, List::Nothing),
    Step::Swap,
    Step::Are(List::Chain, List::Alone),
    Step::Second(List::Nothing),
    // A link within the set closes the ring, and another one is emptied: no record parts.
    Step::Are(List::Chain, List::Nothing),
    Step::Part(9, Some(0)),
    Step::Are(List::Ring, List::Nothing),
    Step::Part(4, None),
    Step::Are(List::OpenRing, List::Nothing),
    Step::First(List::Chain),
    // Two chains have common records.
    Step::Are(List::Chain, List::Nothing),
    Step::Second(List::Chain),
    Step::Are(List::Chain, List::Chain),
    Step::Refused,
    // A further record without links, and one whose link leaves the set.
    Step::Add(10, None),
    Step::Are(List::ChainAndAlone, List::Chain),
    Step::First(List::Nothing),
    Step::Are(List::Nothing, List::Chain),
    Step::Add(4, Some(5)),
    Step::Are(List::Loose, List::Chain),
    Step::First(List::Chain),
    // Each record is changed.
    Step::Are(List::Chain, List::Chain),
    Step::Cut,
    Step::AreCut,
];

// Carries out a step that creates records.
fn makes(
    alloc: Global,
    sets: &mut Sets<Record<Longin>, Sensor>,
    step: &Step,
) -> Result<bool, AllocError> {
    match step {
        Step::First(list) => sets.first = made(alloc, records(*list))?,
        Step::Second(list) => sets.second = made(alloc, records(*list))?,
        Step::Add(number, target) => return add(alloc, &mut sets.first, fresh(), *number, *target),
        step => return changes(alloc, sets, step),
    }
    Ok(true)
}

// Carries out a step that changes sets.
fn changes<K: RecordKind + Drop, D: Device>(
    alloc: Global,
    sets: &mut Sets<K, D>,
    step: &Step,
) -> Result<bool, AllocError> {
    match step {
        Step::Part(number, target) => part(
            alloc,
            &mut sets.first,
            &mut sets.second,
            RecordNo::new(*number),
            *target,
        ),
        Step::Join(number, target) => join(
            alloc,
            &mut sets.first,
            &mut sets.second,
            RecordNo::new(*number),
            *target,
        ),
        Step::Swap => {
            mem::swap(&mut sets.second, &mut sets.third);
            Ok(true)
        }
        Step::Cut => {
            sets.first.change_all(&Cut);
            Ok(true)
        }
        step => tells(alloc, &mut sets.first, &mut sets.second, step),
    }
}

// Carries out a step that tests the sets.
fn tells<K: RecordKind, D: Device>(
    alloc: Global,
    first: &mut Members<K, D>,
    second: &mut Members<K, D>,
    step: &Step,
) -> Result<bool, AllocError> {
    match step {
        Step::Are(list, other) => Ok(
            holds(first, records(*list)) && holds(second, records(*other)),
        ),
        Step::AreCut => Ok(are_cut(first)),
        Step::Refused => Ok(is_refused(first, second) && leads_out(alloc, first)?),
        _ => Ok(false),
    }
}

// Returns whether a step has the expected result, if necessary at the second attempt after a failed
// allocation that left the sets as before.
fn holds_again(
    alloc: Global,
    sets: &mut Sets<Record<Longin>, Sensor>,
    step: &Step,
    before: &Step,
) -> bool {
    match makes(alloc, sets, step) {
        Ok(held) => held,
        Err(_) => makes(alloc, sets, before) == Ok(true) && makes(alloc, sets, step) == Ok(true),
    }
}

// Returns the place of the first step with another result.
fn first_wrong(alloc: Global, sets: &mut Sets<Record<Longin>, Sensor>) -> Option<usize> {
    let mut before = &Step::Are(List::Nothing, List::Nothing);
    for (place, step) in STEPS.iter().enumerate() {
        if !holds_again(alloc, sets, step, before) {
            return Some(place);
        }
        if let Step::Are(_, _) | Step::AreCut = step {
            before = step;
        }
    }
    None
}

#[test]
fn sets_by_steps(rt: HostRuntime) {
    let alloc = rt.alloc();
    let mut sets = Sets {
        first: Members::new(alloc),
        second: Members::new(alloc),
        third: Members::new(alloc),
    };
    assert_eq!(rt; first_wrong(alloc, &mut sets), None);
}
