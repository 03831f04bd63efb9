//! The tests, by what they test.
mod findings;
mod reading;
mod spelling;
mod writing;
