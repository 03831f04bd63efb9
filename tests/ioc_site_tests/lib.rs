//! Tests of the crates that read, check and write a site's files.
#![tactic(auto)]

#[cfg(test)]
mod tests;
