//! Databases with a script and the expected output: the tables of the other files, which share one
//! function.
use crate::tests::{
    analog, calc, devices, doubles, lock_sets, notifications, relinks, rows, scans, types,
};
use ioc_dbfile::Macros;
use ioc_main::run;
use std::alloc::Global;

/// The title of a program, its database, its script, and its expected output.
pub type Program = (&'static str, &'static [u8], &'static [u8], &'static [u8]);

/// Returns whether the run ends at the end of its script with the expected output.
pub fn prints(alloc: Global, db: &[u8], script: &[u8], wanted: &[u8]) -> bool {
    let mut out = Vec::new(alloc);
    let ended = run(alloc, db, &Macros::new(alloc), script, &mut out);
    ended.is_ok() && out.as_slice() == wanted
}

// Returns the title of the first program with another output.
fn first_wrong(alloc: Global, programs: &[Program]) -> Option<&'static str> {
    for (name, db, script, wanted) in programs {
        if !prints(alloc, db, script, wanted) {
            return Some(*name);
        }
    }
    None
}

#[test]
fn programs(rt: HostRuntime) {
    let tables: [&[Program]; 7] = [
        &rows::PROGRAMS,
        &types::PROGRAMS,
        &devices::PROGRAMS,
        &scans::PROGRAMS,
        &notifications::PROGRAMS,
        &lock_sets::PROGRAMS,
        &relinks::PROGRAMS,
    ];
    for programs in &tables {
        assert_eq!(rt; first_wrong(rt.alloc(), programs), None);
    }
}

#[test]
fn analog_programs(rt: HostRuntime) {
    assert_eq!(rt; first_wrong(rt.alloc(), &analog::PROGRAMS), None);
}

#[test]
fn programs_of_special_doubles(rt: HostRuntime) {
    assert_eq!(rt; first_wrong(rt.alloc(), &doubles::PROGRAMS), None);
}

#[test]
fn calculations(rt: HostRuntime) {
    assert_eq!(rt; first_wrong(rt.alloc(), &calc::PROGRAMS), None);
}
