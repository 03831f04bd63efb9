//! A plain walk over links, which finds the parts that they make.
use ioc_engine::RecordNo;
use std::alloc::{AllocError, Global};

// Gives two records the lesser of their values.
fn join(least: &mut [usize], one: usize, other: usize) {
    let (Some(&mine), Some(&theirs)) = (least.get(one), least.get(other)) else {
        return;
    };
    let joined = if mine < theirs { mine } else { theirs };
    for record in [one, other] {
        if let Some(value) = least.get_mut(record) {
            *value = joined;
        }
    }
}

/// Returns for each record the least one that links join it to. `links` has the record that the
/// link of each one leads to.
pub fn least_joined(alloc: Global, links: &[Option<usize>]) -> Result<Vec<usize>, AllocError> {
    let mut least = Vec::with_capacity(alloc, links.len())?;
    for record in 0..links.len() {
        least.push(record)?;
    }
    // Each turn brings a value at least one link farther.
    for _ in 0..links.len() {
        for (record, link) in links.iter().enumerate() {
            if let Some(other) = link {
                join(&mut least, record, *other);
            }
        }
    }
    Ok(least)
}

// Returns whether all records of a part are joined to this one.
fn is_joined(least: &[usize], part: &[RecordNo], first: usize) -> bool {
    for number in part {
        if least.get(number.index()) != Some(&first) {
            return false;
        }
    }
    true
}

/// Returns whether these parts are those of records that are joined to the same record each, and
/// no two parts are joined.
pub fn are_walked(least: &[usize], parts: &[Vec<RecordNo>]) -> bool {
    let mut records = 0usize;
    for part in parts {
        let Some(first) = part.first() else {
            return false;
        };
        let Some(joined) = least.get(first.index()) else {
            return false;
        };
        if !is_joined(least, part, *joined) {
            return false;
        }
        records = records.saturating_add(part.len());
    }
    let mut firsts = 0usize;
    for (record, joined) in least.iter().enumerate() {
        if record == *joined {
            firsts = firsts.saturating_add(1);
        }
    }
    records == least.len() && firsts == parts.len()
}
