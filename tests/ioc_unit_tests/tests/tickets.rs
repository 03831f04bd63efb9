//! Tests of tickets.
ghost use Rattle.std.specs.Prelude.{◌≡◌, ◌-◌, ◌^◌};

use ioc_ledger::{Ledger, PARTS};
use std::marker::Brand;
use std::sync::ledger;
use std::sync::ledger::Blank;

// Returns the numbers of tickets that were begun, spent and handed back, and that are out. Of three
// tickets, one is spent, one handed back and one kept.
fn three_tickets<B: ledger::Ledger>(blank: Blank) -> [u64; 4]
    requires name { blank.name ≡ B.name }
    requires parts { (blank.parts ≡ B.parts) × (blank.parts ≡ 2 ^ 64 - 1) }
{
    let mut ledger = Ledger::<B>::new(blank);
    let first = ledger.begin();
    let second = ledger.begin();
    let _kept = ledger.begin();
    ledger.spend(second);
    ledger.hand_back(first);
    [
        ledger.begun(),
        ledger.spent(),
        ledger.handed_back(),
        ledger.out(),
    ]
}

#[test]
fn tickets_are_spent_or_handed_back_or_out(rt: HostRuntime) {
    assert!(rt; three_tickets::<Brand>(Blank::new(PARTS)) == [3, 1, 1, 1]);
}
