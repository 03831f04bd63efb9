//! The table of the puts with notification of many sets.
ghost use Rattle.std.specs.Prelude.{◌≡◌, ◌∷◌, []};

use ioc_notify::{Live, NotificationCounts, NotifyId};
use std::alloc::{AllocError, Global};
use std::test::Fail;

// Returns the live puts with notification of a set that has one, with this many records.
fn one(number: u64, holders: u64) -> [Live; 1]
    ensures { result ≡ record { number = number; holders = holders } ∷ [] }
{
    [Live {
        number: NotifyId::new(number),
        holders,
    }]
}

// Returns whether its number is taken while a set has it, and another number is free.
fn is_taken(table: &NotificationCounts) -> bool {
    let seven = NotifyId::new(7);
    let eight = NotifyId::new(8);
    let is_seven = table.is_live(seven) && !table.has_place(seven);
    is_seven && table.has_place(eight) && !table.is_live(eight)
}

// Two sets have a put with notification, with two records in the first and one in the second.
// Returns whether its number is taken, whether it is live without the first set, and whether it is
// live without both.
fn lives_until_the_last(alloc: Global) -> Result<[bool; 3], AllocError> {
    let seven = NotifyId::new(7);
    let mut table = NotificationCounts::new(alloc);
    table.reserve(2)?;
    table.add_on(&one(7, 2));
    table.add_on(&one(7, 1));
    table.is_table();
    let at_first = is_taken(&table);
    table.take_off(&one(7, 2));
    let then = table.is_live(seven);
    table.take_off(&one(7, 1));
    Ok([at_first, then, table.is_live(seven)])
}

#[test]
fn live_while_any_set_has_it(rt: HostRuntime) -> Result<(), Fail> {
    assert!(rt; lives_until_the_last(rt.alloc())? == [true, true, false]);
    Ok(())
}
