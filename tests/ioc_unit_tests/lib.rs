//! Tests of the crates below processing: values, menus, names, links, alarms, the ledger and the
//! reading of texts; devices, notifications, connected parts, queues, scan lists and tickets;
//! fields, records, record types and the records of sets. Most cases stand in tables of constants.
#![tactic(auto)]

#[cfg(test)]
mod tests;
