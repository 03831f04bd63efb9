//! A single fanout record.
use crate::tests::steps::Step::{
    Begin, Converts, Copied, Has, HasAll, Load, Put, PutRefused, Set, SetAll, SetRefused, Stands,
    Take, Test,
};
use crate::tests::steps::{Came, Does, Step, Wants, follow};
use ioc_dbcommon::{BodyBox, InputKind};
use ioc_fields::{FieldNo, FieldSlot, OwnField};
use ioc_links::Mode;
use ioc_record::RecordBody;
use ioc_values::{IocError, Range, Value};
use rec_flow::Fanout;
use std::test::Fail;

pub static TESTS: [Step<'static>; 35] = [
    // UDF becomes 0, and no alarm of an undefined value is raised.
    Test("new"),
    Load,
    HasAll(&[
        ("VAL", "0"),
        ("SELM", "All"),
        ("SELN", "1"),
        ("SELL", ""),
        ("OFFS", "0"),
    ]),
    HasAll(&[("SHFT", "-1"), ("LNK0", ""), ("LNKF", ""), ("STAT", "UDF")]),
    Begin(Wants::Unused),
    Take(Came::Nothing, Does::Follow(0xffff)),
    HasAll(&[("UDF", "0"), ("NSTA", "NO_ALARM")]),
    // The value of SELL is put into SELN. After a fault, SELN is unchanged, and the links are
    // selected all the same.
    Test("number by a link"),
    SetAll(&[("SELM", "Specified"), ("SELL", "n PP MSS")]),
    Load,
    Begin(Wants::Absent),
    Stands(FieldNo::Own(OwnField::Sell)),
    Begin(Wants::Link(true, Mode::Mss)),
    Take(Came::UShort(4), Does::Follow(0x10)),
    Has("SELN", "4"),
    Take(Came::Fault, Does::Follow(0x10)),
    Has("SELN", "4"),
    Converts(InputKind::Number(Range::UShort)),
    Test("number by a constant"),
    SetAll(&[("SELN", "2"), ("SELL", "3")]),
    Load,
    HasAll(&[("SELN", "3"), ("UDF", "1")]),
    SetRefused("SELL", "65536", IocError::BadValue),
    SetRefused("SELL", "@card", IocError::BadLink),
    Test("links and puts"),
    SetAll(&[
        ("LNK0", "a"),
        ("LNK1", "65536"),
        ("LNKA", "b PP"),
        ("LNKF", "c.SCAN"),
    ]),
    SetRefused("LNK2", "@card", IocError::BadLink),
    Stands(FieldNo::Own(OwnField::Lnk(FieldSlot::N10))),
    HasAll(&[
        ("LNK0", "a.VAL NPP NMS"),
        ("LNK1", "65536"),
        ("LNK9", ""),
        ("LNKA", "b.VAL PP NMS"),
    ]),
    HasAll(&[("LNKB", ""), ("LNKF", "c.SCAN NPP NMS")]),
    PutRefused("LNK0", "a", IocError::NoMod),
    PutRefused("OFFS", "32768", IocError::BadValue),
    Put("VAL", "-5"),
    Copied,
    Has("UDF", "0"),
];

// SELM, SELN, OFFS, SHFT; the links that are followed; the alarm.
static CHOICES: [(&str, &str, &str, &str, u16, &str); 19] = [
    ("All", "99", "99", "99", 0xffff, "NO_ALARM"),
    ("Specified", "0", "0", "0", 1, "NO_ALARM"),
    ("Specified", "3", "2", "99", 0x20, "NO_ALARM"),
    ("Specified", "15", "0", "-1", 0x8000, "NO_ALARM"),
    ("Specified", "16", "-1", "-1", 0x8000, "NO_ALARM"),
    ("Specified", "16", "0", "-1", 0, "SOFT"),
    ("Specified", "0", "-1", "-1", 0, "SOFT"),
    ("Specified", "65535", "-32768", "-1", 0, "SOFT"),
    ("Mask", "5", "99", "0", 5, "NO_ALARM"),
    ("Mask", "5", "0", "-1", 10, "NO_ALARM"),
    ("Mask", "5", "0", "2", 1, "NO_ALARM"),
    ("Mask", "65535", "0", "15", 1, "NO_ALARM"),
    ("Mask", "65535", "0", "0", 0xffff, "NO_ALARM"),
    ("Mask", "3", "0", "-15", 0x8000, "NO_ALARM"),
    ("Mask", "0x8001", "0", "-4", 0x10, "NO_ALARM"),
    ("Mask", "0", "0", "0", 0, "NO_ALARM"),
    ("Mask", "1", "0", "16", 0, "SOFT"),
    ("Mask", "1", "0", "-16", 0, "SOFT"),
    ("Mask", "1", "0", "32767", 0, "SOFT"),
];

#[test]
fn links_chosen(rt: HostRuntime) {
    for (select, number, offset, shift, links, alarm) in &CHOICES {
        let steps = [
            Set("SELM", *select),
            Set("SELN", *number),
            Set("OFFS", *offset),
            Set("SHFT", *shift),
            Load,
            Take(Came::Nothing, Does::Follow(*links)),
            Has("NSTA", *alarm),
        ];
        follow::<Fanout>(&rt, rt.alloc(), "all", &steps);
    }
}

#[test]
fn on_the_heap(rt: HostRuntime) -> Result<(), Fail> {
    let mut kept = BodyBox::<Fanout>::fresh(rt.alloc())?;
    kept.get_mut().number = 7;
    assert!(rt; kept.get().get(OwnField::Seln) == Some(Value::UShort(7)));
    Ok(())
}
