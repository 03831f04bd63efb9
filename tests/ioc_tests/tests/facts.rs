//! Loads a database text, which makes a database with given facts, or has a fault.
use Fact::{Counts, Leads, LeadsHome, LeadsNowhere, Named, Shows, Unnamed};
use ioc_dbcommon::{FieldAddress, Lead};
use ioc_dbfile::{Database, Macros, load};
use ioc_fields::{FieldNo, field};
use ioc_names::RecordNo;
use ioc_record::{RecordKind, text_of};
use ioc_values::{BadDbKind, IocError, LoadError};
use std::alloc::Global;

/// A fact of a loaded database.
pub enum Fact {
    /// The number of records.
    Counts(usize),
    /// The record with this name has this number.
    Named(&'static [u8], usize),
    Unnamed(&'static [u8]),
    /// The text of a field of the record with a number.
    Shows(usize, &'static str, &'static [u8]),
    /// The link in the field of a record leads to this field of a record.
    Leads(usize, FieldNo, usize, FieldNo),
    LeadsNowhere(usize, FieldNo),
    /// The link leads to the device of its own record.
    LeadsHome(usize, FieldNo),
}

// Returns whether this is the text of the field of the record with a number.
fn shows(database: &Database, number: usize, name: &str, wanted: &[u8]) -> bool {
    let Some(item) = database.records.get(number) else {
        return false;
    };
    match field(item.record_type(), name.as_bytes()) {
        Some(field) => text_of(item, field).as_slice() == wanted,
        None => false,
    }
}

// Returns where a link of a record leads.
fn lead_of(database: &Database, number: usize, field: FieldNo) -> Option<Lead> {
    let link = database.records.get(number)?.link(field)?;
    Some(link.get().lead)
}

fn holds(database: &Database, fact: &Fact) -> bool {
    match fact {
        Counts(count) => database.records.len() == *count,
        Named(name, number) => database.names.find(name) == Some(RecordNo::new(*number)),
        Unnamed(name) => database.names.find(name).is_none(),
        Shows(number, name, wanted) => shows(database, *number, name, wanted),
        Leads(number, field, end, end_field) => {
            let address = FieldAddress {
                number: RecordNo::new(*end),
                field: *end_field,
            };
            lead_of(database, *number, *field) == Some(Lead::Field(address))
        }
        LeadsNowhere(number, field) => lead_of(database, *number, *field) == Some(Lead::Nowhere),
        LeadsHome(number, field) => lead_of(database, *number, *field) == Some(Lead::OwnDevice),
    }
}

// Returns whether all the facts hold.
fn all_hold(database: &Database, facts: &[Fact]) -> bool {
    for fact in facts {
        if !holds(database, fact) {
            return false;
        }
    }
    true
}

/// The name and the value of a macro.
pub type Definition<'a> = (&'a [u8], &'a [u8]);

/// Returns macros with these names and values.
pub fn defined(alloc: Global, definitions: &[Definition<'_>]) -> Result<Macros, IocError> {
    let mut macros = Macros::new(alloc);
    for (name, value) in definitions {
        macros.define(alloc, name, value)?;
    }
    Ok(macros)
}

fn loaded(
    alloc: Global,
    definitions: &[Definition<'_>],
    text: &[u8],
) -> Result<Database, LoadError> {
    let Ok(macros) = defined(alloc, definitions) else {
        return Err(LoadError::NoMemory);
    };
    load(alloc, text, &macros)
}

/// The expected result of a load.
#[derive(Clone, Copy)]
pub enum Made {
    /// A database with these facts.
    Facts(&'static [Fact]),
    /// A fault in this line and of this kind.
    Fault(u64, BadDbKind),
}

/// Returns whether the load of a text with these macros has the expected result.
pub fn makes(alloc: Global, definitions: &[Definition<'_>], text: &[u8], wanted: Made) -> bool {
    match (loaded(alloc, definitions, text), wanted) {
        (Ok(database), Made::Facts(facts)) => all_hold(&database, facts),
        (Err(LoadError::BadDb(fault)), Made::Fault(line, kind)) => {
            fault.line == line && fault.kind == kind
        }
        _ => false,
    }
}

/// Returns whether the database of a text has these facts once each record has a device of its own.
pub fn makes_own(alloc: Global, text: &[u8], facts: &[Fact]) -> bool {
    let Ok(database) = loaded(alloc, &[], text) else {
        return false;
    };
    match database.with_own_devices(alloc) {
        Ok(database) => all_hold(&database, facts),
        Err(_) => false,
    }
}

/// A kind of fault, and texts whose first fault is of this kind, each with its line.
pub type Refused = (BadDbKind, &'static [(u64, &'static [u8])]);

/// Returns the first text that doesn't have its fault if it is loaded with these macros.
pub fn first_unrefused(
    alloc: Global,
    definitions: &[Definition<'_>],
    refused: &[Refused],
) -> Option<&'static [u8]> {
    for (kind, texts) in refused {
        for (line, text) in *texts {
            if !makes(alloc, definitions, text, Made::Fault(*line, *kind)) {
                return Some(*text);
            }
        }
    }
    None
}
