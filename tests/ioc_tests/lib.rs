//! Tests that cross the crates: whole runs of databases and scripts over memory, and the directory
//! of lock sets, with sets that are lists of numbers. The tests of the engine are in
//! `ioc_engine_tests`.
#![tactic(auto)]

#[cfg(test)]
mod tests;
