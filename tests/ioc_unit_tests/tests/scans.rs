//! Scan lists, by lists of steps.
use ioc_menus::{Priority, Scan};
use ioc_names::RecordNo;
use ioc_scan::{ListName, Listed, Placement, ScanLists};
use ioc_values::{Short, Text};
use std::test::Fail;

/// The fields of a record, as in a change of its scan list.
#[derive(Clone, Copy)]
enum Fields {
    /// SCAN is `1 second`, and PHAS is this number.
    EverySecond(i16),
    Passive,
    /// SCAN is `Event`, and EVNT is this text.
    Event(&'static [u8]),
    /// SCAN is `I/O Intr`, and the record has this device.
    Interrupt(&'static [u8]),
}

/// A step of a test.
#[derive(Clone, Copy)]
enum Step {
    /// Replaces the lists by new ones, for this many records.
    New(usize),
    /// Applies the change with this number to a record.
    Changes(usize, u64, Fields),
    Adds(usize, Fields),
    Removes(usize),
    /// The list of records with these fields has these records, in this order.
    Walks(Fields, &'static [usize]),
}

static STEPS: [Step; 42] = [
    // Lists are in the order of PHAS.
    Step::New(5),
    Step::Walks(Fields::EverySecond(0), &[]),
    Step::Changes(0, 0, Fields::EverySecond(1)),
    Step::Changes(1, 0, Fields::EverySecond(0)),
    Step::Changes(2, 0, Fields::EverySecond(-1)),
    Step::Changes(3, 0, Fields::EverySecond(0)),
    Step::Changes(4, 0, Fields::Passive),
    Step::Walks(Fields::EverySecond(0), &[2, 1, 3, 0]),
    // The same place again: behind the others with its PHAS.
    Step::Changes(1, 1, Fields::EverySecond(0)),
    Step::Walks(Fields::EverySecond(0), &[2, 3, 1, 0]),
    // A change that comes too late.
    Step::Changes(1, 0, Fields::Passive),
    Step::Walks(Fields::EverySecond(0), &[2, 3, 1, 0]),
    Step::Changes(3, 1, Fields::Passive),
    Step::Changes(4, 2, Fields::EverySecond(-32768)),
    Step::Changes(0, 1, Fields::EverySecond(32767)),
    Step::Walks(Fields::EverySecond(0), &[4, 2, 1, 0]),
    Step::Walks(Fields::Passive, &[]),
    // Events are found by name.
    Step::New(5),
    Step::Changes(0, 0, Fields::Event(b" go ")),
    Step::Changes(1, 0, Fields::Event(b"go")),
    Step::Changes(2, 0, Fields::Event(b"g o")),
    Step::Changes(3, 0, Fields::Event(b" 0")),
    Step::Changes(4, 0, Fields::Event(b"")),
    Step::Walks(Fields::Event(b"go"), &[0, 1]),
    Step::Walks(Fields::Event(b"  go"), &[0, 1]),
    Step::Walks(Fields::Event(b"g o"), &[2]),
    Step::Walks(Fields::Event(b"\tgo"), &[]),
    Step::Walks(Fields::Event(b"0"), &[]),
    Step::Walks(Fields::Event(b"  "), &[]),
    Step::Walks(Fields::Interrupt(b"go"), &[]),
    // Interrupts are found by the first word.
    Step::New(5),
    Step::Changes(0, 0, Fields::Interrupt(b"card 1")),
    Step::Changes(1, 0, Fields::Interrupt(b"card\t2")),
    Step::Changes(2, 0, Fields::Interrupt(b"cards")),
    Step::Walks(Fields::Interrupt(b"card"), &[0, 1]),
    Step::Walks(Fields::Interrupt(b"cards 7"), &[2]),
    Step::Walks(Fields::Interrupt(b"Card"), &[]),
    // Records are added and removed.
    Step::New(2),
    Step::Adds(1, Fields::EverySecond(0)),
    Step::Walks(Fields::EverySecond(0), &[1]),
    Step::Removes(1),
    Step::Walks(Fields::EverySecond(0), &[]),
];

fn list_of(fields: Fields) -> Option<ListName> {
    match fields {
        Fields::EverySecond(_) => ListName::of(Scan::OneSecond, Text::cut(b""), None),
        Fields::Passive => ListName::of(Scan::Passive, Text::cut(b""), None),
        Fields::Event(name) => ListName::of(Scan::Event, Text::cut(name), None),
        Fields::Interrupt(device) => {
            ListName::of(Scan::IoIntr, Text::cut(b""), Some(Short::cut(device)))
        }
    }
}

fn place_of(fields: Fields) -> Option<Placement> {
    let phase = match fields {
        Fields::EverySecond(phase) => phase,
        _ => 0,
    };
    Some(Placement {
        list: list_of(fields)?,
        phase,
        priority: Priority::Medium,
    })
}

// Applies a change if the record exists and a number of adding is left.
fn change(lists: &mut ScanLists, member: usize, number: u64, place: Option<Placement>) -> bool {
    if member >= lists.len() || !lists.can_change() {
        return false;
    }
    lists.change(RecordNo::new(member), number, place);
    true
}

// Adds a record with a place, or removes one without, if the record exists and a number of adding
// is left.
fn put(lists: &mut ScanLists, member: usize, place: Option<Placement>) -> bool {
    if member >= lists.len() || !lists.can_change() {
        return false;
    }
    match place {
        Some(place) => lists.add(RecordNo::new(member), place),
        None => lists.remove(RecordNo::new(member)),
    }
    true
}

// Returns whether these are the records, in this order.
fn are_listed(found: &[Listed], wanted: &[usize]) -> bool {
    for (place, listed) in found.iter().enumerate() {
        if wanted.get(place) != Some(&listed.number.index()) {
            return false;
        }
    }
    found.len() == wanted.len()
}

// Returns whether the list has these records, in this order.
fn has(lists: &mut ScanLists, fields: Fields, wanted: &[usize], into: &mut Vec<Listed>) -> bool {
    match list_of(fields) {
        Some(list) => lists.walk(&list, into).is_ok() && are_listed(into.as_slice(), wanted),
        None => wanted.is_empty(),
    }
}

// Carries out a step, and returns whether it has the expected result.
fn holds(lists: &mut ScanLists, step: Step, into: &mut Vec<Listed>) -> bool {
    match step {
        Step::New(count) => lists.len() == count,
        Step::Changes(member, number, fields) => change(lists, member, number, place_of(fields)),
        Step::Adds(member, fields) => put(lists, member, place_of(fields)),
        Step::Removes(member) => put(lists, member, None),
        Step::Walks(fields, wanted) => has(lists, fields, wanted, into),
    }
}

#[test]
fn lists_by_steps(rt: HostRuntime) -> Result<(), Fail> {
    let mut lists = ScanLists::new(rt.alloc(), 0)?;
    let mut into = Vec::new(rt.alloc());
    for (number, step) in STEPS.iter().enumerate() {
        if let Step::New(count) = step {
            lists = ScanLists::new(rt.alloc(), *count)?;
        }
        assert!(rt; holds(&mut lists, *step, &mut into), "step {number}");
    }
    Ok(())
}
