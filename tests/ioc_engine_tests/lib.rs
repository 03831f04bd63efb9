//! Tests of the engine, from a database text to its end.
#![tactic(auto)]

#[cfg(test)]
mod tests;
