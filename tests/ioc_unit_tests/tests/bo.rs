//! A single bo record.
use crate::tests::steps::Step::{
    Answer, AnswerFault, Begin, Converts, Has, HasAll, Lists, Load, OwnsDevice, Put, PutRefused,
    Raised, Raises, ReadAsNumber, ReadAsText, Set, SetAll, SetRefused, Stands, Take, Test,
};
use crate::tests::steps::{Came, Does, OUT, SHOW, Step, TAKE_FAULT, TAKE_NOTHING, Wants, follow};
use ioc_dbcommon::InputKind;
use ioc_fields::{FieldNo, OwnField};
use ioc_links::Mode;
use ioc_values::{IocError, Range};
use rec_state::Bo;

pub static TESTS: [Step<'static>; 94] = [
    // A text is put as the lowest state with that text. A state with an empty text is shown as its
    // number.
    Test("same texts of states"),
    SetAll(&[("ZNAM", "shut"), ("ONAM", "open")]),
    Put("VAL", "0"),
    Has("VAL", "shut"),
    PutRefused("VAL", "Open", IocError::BadValue),
    Has("VAL", "shut"),
    Put("ONAM", ""),
    Put("VAL", "1"),
    Has("VAL", "1"),
    Put("ONAM", "shut"),
    Put("VAL", "shut"),
    Put("ZNAM", ""),
    Has("VAL", "0"),
    Test("links written"),
    SetAll(&[("MASK", "8"), ("OUT", "there"), ("VAL", "1")]),
    Load,
    Take(Came::Nothing, Does::WriteAbsent(1)),
    Stands(OUT),
    Take(Came::Nothing, Does::Write(1)),
    Put("DTYP", "Raw Soft Channel"),
    Take(Came::Nothing, Does::WriteRaw(8)),
    Set("OUT", ""),
    TAKE_NOTHING,
    Set("OUT", "3"),
    TAKE_NOTHING,
    SetRefused("OUT", "there CA", IocError::BadLink),
    Test("device written"),
    SetAll(&[("MASK", "8"), ("OUT", "@card"), ("VAL", "1")]),
    Load,
    Take(Came::Nothing, Does::WriteAbsentRaw(8)),
    OwnsDevice(OUT),
    Take(Came::Nothing, Does::WriteDevice(8)),
    Answer(3),
    Has("RVAL", "8"),
    AnswerFault,
    Raised("WRITE", "INVALID"),
    // DOL is read only in a closed loop. After a fault of DOL, VAL is unchanged, and is converted.
    Test("desired output"),
    Set("DOL", "wish"),
    Load,
    Put("OMSL", "closed_loop"),
    Take(Came::UShort(1), Does::Nothing),
    HasAll(&[("VAL", "1"), ("UDF", "0")]),
    Put("RVAL", "5"),
    TAKE_FAULT,
    Has("RVAL", "1"),
    Set("DOL", ""),
    Begin(Wants::Unused),
    Converts(InputKind::Number(Range::UShort)),
    Test("constants refused"),
    SetRefused("DOL", "65536", IocError::BadValue),
    SetRefused("DOL", "-1", IocError::BadValue),
    SetRefused("DOL", "@card", IocError::BadLink),
    // With a lesser alarm, the output is driven, whatever IVOA is.
    Test("lesser alarm"),
    SetAll(&[
        ("IVOA", "Don't drive outputs"),
        ("UDFS", "MAJOR"),
        ("OUT", "x"),
    ]),
    Load,
    Take(Came::Nothing, Does::WriteAbsent(0)),
    Put("IVOA", "Set output to IVOV"),
    Take(Came::Nothing, Does::WriteAbsent(0)),
    // The severity of a state is ZSV if VAL is 0, otherwise OSV.
    Test("alarms of states"),
    SetAll(&[("ZSV", "MINOR"), ("OSV", "MAJOR"), ("VAL", "0")]),
    Load,
    Raises(Came::Nothing, "STATE", "MINOR"),
    SHOW,
    Take(Came::UShort(1), Does::Nothing),
    Has("NSEV", "MAJOR"),
    SHOW,
    Raises(Came::UShort(2), "STATE", "MAJOR"),
    // If VAL differs from LALM, COS is raised with COSV, and LALM becomes VAL even if the alarm has
    // no effect.
    Test("changes of state"),
    SetAll(&[("OSV", "MINOR"), ("COSV", "MAJOR"), ("VAL", "0")]),
    Load,
    TAKE_NOTHING,
    Has("NSTA", "NO_ALARM"),
    Raises(Came::UShort(1), "COS", "MAJOR"),
    Has("LALM", "1"),
    SHOW,
    Raises(Came::Nothing, "STATE", "MINOR"),
    SHOW,
    Put("COSV", "MINOR"),
    Put("OSV", "MAJOR"),
    Put("ZSV", "MINOR"),
    Take(Came::UShort(0), Does::Nothing),
    HasAll(&[("NSTA", "STATE"), ("LALM", "0")]),
    Put("UDF", "1"),
    TAKE_NOTHING,
    Has("NSTA", "UDF"),
    // The values for readers of numbers and of texts.
    Test("fields read"),
    SetAll(&[("ONAM", "on"), ("ZNAM", "12"), ("VAL", "on")]),
    Load,
    ReadAsNumber("VAL", 1),
    ReadAsNumber("ZNAM", 12),
    ReadAsNumber("UDFS", 3),
    ReadAsText("VAL", "on"),
    ReadAsText("UDFS", "INVALID"),
    Lists(4, 2),
];

// MASK and VAL, with RVAL for them: 0 if VAL is 0, otherwise MASK if that isn't 0, otherwise VAL.
static MASKS: [(&str, u16, &str); 6] = [
    ("0", 1, "1"),
    ("8", 1, "8"),
    ("8", 3, "8"),
    ("0", 3, "3"),
    ("0xffffffff", 1, "4294967295"),
    ("8", 0, "0"),
];

#[test]
fn raw_values(rt: HostRuntime) {
    for (mask, value, raw) in &MASKS {
        let steps = [
            Set("MASK", *mask),
            Set("RVAL", "77"),
            Load,
            Take(Came::UShort(*value), Does::Nothing),
            Has("RVAL", *raw),
            Has("UDF", "0"),
            PutRefused("MASK", "1", IocError::NoMod),
        ];
        follow::<Bo>(&rt, rt.alloc(), "valve", &steps);
    }
}

// A constant of DOL, and VAL and LALM after a load.
static CONSTANTS: [(&str, &str); 4] = [("0", "0"), ("1", "1"), ("7", "1"), ("65535", "1")];

#[test]
fn constants(rt: HostRuntime) {
    for (constant, value) in &CONSTANTS {
        let steps = [
            Set("DOL", *constant),
            Load,
            Has("VAL", *value),
            Has("LALM", *value),
            HasAll(&[("UDF", "0"), ("STAT", "UDF"), ("SEVR", "INVALID")]),
        ];
        follow::<Bo>(&rt, rt.alloc(), "valve", &steps);
    }
}

// With an INVALID alarm, IVOA decides what is driven, and then VAL and RVAL.
static INVALID: [(&str, Does, &str, &str); 3] = [
    ("Continue normally", Does::WriteAbsent(0), "0", "0"),
    ("Don't drive outputs", Does::Nothing, "0", "0"),
    ("Set output to IVOV", Does::WriteAbsent(3), "3", "8"),
];

#[test]
fn invalid_values(rt: HostRuntime) {
    for (action, driven, value, raw) in &INVALID {
        let steps = [
            Set("IVOA", *action),
            SetAll(&[("IVOV", "3"), ("MASK", "8"), ("OUT", "x")]),
            Load,
            Take(Came::Nothing, *driven),
            Raised("UDF", "INVALID"),
            Has("VAL", *value),
            Has("RVAL", *raw),
        ];
        follow::<Bo>(&rt, rt.alloc(), "valve", &steps);
    }
}
