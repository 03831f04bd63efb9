//! The database of the tests: 64 records of all types.
use std::alloc::{AllocError, Global};
use std::fmt::Write;

/// The number of records.
pub const RECORDS: usize = 64;

/// The devices of the first records, which answer later.
pub static LATER: [&str; 8] = ["d0", "d1", "d2", "d3", "d4", "d5", "d6", "d7"];

/// The devices of the next records, which answer at once.
pub static COUNTED: [&str; 4] = ["c8", "c9", "c10", "c11"];

/// The record types, as their names.
static TYPES: [&str; 12] = [
    "longin",
    "longout",
    "bi",
    "bo",
    "mbbi",
    "mbbo",
    "stringin",
    "stringout",
    "fanout",
    "event",
    "int64in",
    "int64out",
];

// What SCAN is at the load.
static SCANS: [&str; 4] = ["Passive", ".1 second", "Event", "1 second"];

// Returns an entry of a list, from its beginning again behind its end.
fn turn(list: &[&'static str], number: usize) -> &'static str {
    match list.get(number % list.len().max(1)) {
        Some(entry) => entry,
        None => "",
    }
}

// Appends a record with a device.
fn add_with_device(text: &mut String, number: usize, name: &str) -> Result<(), AllocError> {
    let scan = if number < LATER.len() {
        "Passive"
    } else {
        "I/O Intr"
    };
    writeln!(
        text,
        "record(longin,\"r{number}\"){{field(INP,\"@{name}\") field(SCAN,\"{scan}\")}}"
    )?;
    Ok(())
}

// Appends a record without one. The events that event records post are no record's.
fn add_plain(text: &mut String, number: usize) -> Result<(), AllocError> {
    let record_type = turn(&TYPES, number);
    if record_type == "event" {
        writeln!(text, "record(event,\"r{number}\"){{field(VAL,\"end\")}}")?;
        return Ok(());
    }
    let scan = turn(&SCANS, number / TYPES.len());
    let phase = number % 3;
    writeln!(
        text,
        "record({record_type},\"r{number}\"){{field(SCAN,\"{scan}\") field(EVNT,\"go\") field(PHAS,{phase})}}"
    )?;
    Ok(())
}

/// Returns the text of the database.
pub fn text(alloc: Global) -> Result<String, AllocError> {
    let mut text = String::new(alloc);
    for (number, name) in LATER.iter().enumerate() {
        add_with_device(&mut text, number, name)?;
    }
    for (number, name) in COUNTED.iter().enumerate() {
        add_with_device(&mut text, number.saturating_add(LATER.len()), name)?;
    }
    for number in LATER.len().saturating_add(COUNTED.len())..RECORDS {
        add_plain(&mut text, number)?;
    }
    Ok(text)
}
