//! Tests of the engine under every kind of call at once.
#![tactic(auto)]

#[cfg(test)]
mod tests;
