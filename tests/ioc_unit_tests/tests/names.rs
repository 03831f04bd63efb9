//! The names of records and their numbers.
use ioc_names::*;
use ioc_values::Name;
use std::process::Abort;

/// A step of a test, with its expected result.
#[derive(Clone, Copy)]
enum Step<'a> {
    /// The number of records.
    Counts(usize),
    /// No record has this name.
    Misses(&'a [u8]),
    /// The record with this number has this name.
    Finds(&'a [u8], usize),
    /// Adds a record with this name, which gets this number.
    Adds(&'a [u8], usize),
    /// Adds this second name to the record with this number.
    Aliases(&'a [u8], usize),
}

// Adds a record if its name is free and a number is left.
fn add(names: &mut Names, name: Name) -> Option<RecordNo> {
    if names.len() == usize::MAX || names.find(name.as_slice()).is_some() {
        return None;
    }
    names.add(name).ok()
}

// Adds a second name to a record if the name is free and the record exists.
fn alias(names: &mut Names, number: RecordNo, name: Name) -> bool {
    if names.len() <= number.index() || names.find(name.as_slice()).is_some() {
        return false;
    }
    names.alias(number, name).is_ok()
}

// Carries out a step, and returns whether it has the expected result.
fn holds(names: &mut Names, step: &Step<'_>) -> bool {
    match step {
        Step::Counts(count) => names.len() == *count && names.is_empty() == (*count == 0),
        Step::Misses(name) => names.find(name).is_none(),
        Step::Finds(name, number) => names.find(name) == Some(RecordNo::new(*number)),
        Step::Adds(name, number) => add(names, Name::cut(name)) == Some(RecordNo::new(*number)),
        Step::Aliases(name, number) => alias(names, RecordNo::new(*number), Name::cut(name)),
    }
}

// Carries out steps, beginning without records.
fn follow(rt: &(impl AllocGlobal + Abort), steps: &[Step<'_>]) {
    let mut names = Names::new(rt.alloc());
    let mut number = 0u64;
    for step in steps {
        assert!(rt; holds(&mut names, step), "step {number}, counted from 0");
        number = number.saturating_add(1);
    }
}

// Records are numbered in load order.
static RECORDS: [Step<'static>; 12] = [
    Step::Counts(0),
    Step::Misses(b"a"),
    Step::Adds(b"a", 0),
    Step::Counts(1),
    Step::Misses(b"b"),
    Step::Adds(b"b", 1),
    Step::Counts(2),
    Step::Finds(b"a", 0),
    Step::Finds(b"b", 1),
    Step::Misses(b"ab"),
    Step::Misses(b""),
    Step::Misses(b"A"),
];

// An alias has its record's number.
static ALIAS: [Step<'static>; 7] = [
    Step::Adds(b"a", 0),
    Step::Counts(1),
    Step::Misses(b"z"),
    Step::Aliases(b"z", 0),
    Step::Counts(1),
    Step::Finds(b"z", 0),
    Step::Finds(b"a", 0),
];

static LONG: [u8; 61] = [120; 61];

#[test]
fn records_aliases_and_long_names(rt: HostRuntime) {
    follow(&rt, &RECORDS);
    follow(&rt, &ALIAS);
    // A name that is too long isn't found.
    let cut = &LONG[..60];
    let steps = [
        Step::Misses(cut),
        Step::Adds(&LONG, 0),
        Step::Finds(cut, 0),
        Step::Misses(&LONG),
    ];
    follow(&rt, &steps);
}
