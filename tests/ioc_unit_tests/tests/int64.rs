//! A single int64in record and a single int64out record.
use crate::tests::steps::Step::{
    Begin, Converts, Copied, Has, HasAll, Lists, Load, Put, PutRefused, Raises, Reaches, Set,
    SetAll, Shows, Take, Test,
};
use crate::tests::steps::{Came, Does, Step, Wants};
use ioc_dbcommon::InputKind;
use ioc_values::{IocError, Range};

pub static INPUT: [Step<'static>; 38] = [
    Test("numbers of 64 bits"),
    Put("VAL", "9223372036854775807"),
    Copied,
    Has("VAL", "9223372036854775807"),
    PutRefused("VAL", "9223372036854775808", IocError::BadValue),
    Put("VAL", "-9223372036854775808"),
    Has("VAL", "-9223372036854775808"),
    Converts(InputKind::Number(Range::Int64)),
    Begin(Wants::Unused),
    Test("limits past 32 bits"),
    SetAll(&[
        ("HIHI", "5000000000"),
        ("HHSV", "MAJOR"),
        ("LOLO", "-5000000000"),
    ]),
    SetAll(&[("LLSV", "MINOR"), ("HYST", "1"), ("VAL", "0")]),
    Load,
    Reaches(
        Came::Int64(4_999_999_999),
        "NO_ALARM",
        "NO_ALARM",
        "4999999999",
    ),
    Reaches(Came::Int64(5_000_000_000), "HIHI", "MAJOR", "5000000000"),
    Take(Came::Int64(4_999_999_999), Does::Nothing),
    Shows("HIHI", "MAJOR"),
    Reaches(Came::Int64(-6_000_000_000), "LOLO", "MINOR", "-5000000000"),
    // The sums of hysteresis don't wrap.
    Test("high limit at the end"),
    SetAll(&[
        ("HIGH", "-9223372036854775000"),
        ("HSV", "MINOR"),
        ("HYST", "9223372036854775807"),
    ]),
    Set("VAL", "-9223372036854775000"),
    Load,
    Raises(Came::Int64(-9_223_372_036_854_775_807), "HIGH", "MINOR"),
    Has("LALM", "-9223372036854775000"),
    Test("low limit at the end"),
    SetAll(&[
        ("LOW", "9223372036854775000"),
        ("LSV", "MINOR"),
        ("HYST", "9223372036854775807"),
    ]),
    Set("VAL", "9223372036854775000"),
    Load,
    Raises(Came::Int64(9_223_372_036_854_775_807), "LOW", "MINOR"),
    Has("LALM", "9223372036854775000"),
    Test("undefined value"),
    Load,
    Raises(Came::Nothing, "UDF", "INVALID"),
    Test("constant"),
    Set("INP", "-9223372036854775808"),
    Load,
    HasAll(&[
        ("VAL", "-9223372036854775808"),
        ("UDF", "0"),
        ("LALM", "-9223372036854775808"),
    ]),
    Lists(3, 0),
];

pub static OUTPUT: [Step<'static>; 22] = [
    Test("drive limits past 32 bits"),
    SetAll(&[
        ("DRVH", "5000000000"),
        ("DRVL", "-5000000000"),
        ("OUT", "x"),
    ]),
    Load,
    Copied,
    Take(
        Came::Int64(6_000_000_000),
        Does::WriteAbsentInt64(5_000_000_000),
    ),
    Has("VAL", "5000000000"),
    Take(
        Came::Int64(-6_000_000_000),
        Does::WriteAbsentInt64(-5_000_000_000),
    ),
    Take(
        Came::Int64(4_999_999_999),
        Does::WriteAbsentInt64(4_999_999_999),
    ),
    Test("Set output to IVOV"),
    SetAll(&[
        ("IVOA", "Set output to IVOV"),
        ("IVOV", "6000000000"),
        ("DRVH", "5000000000"),
    ]),
    Set("OUT", "x"),
    Load,
    Take(Came::Nothing, Does::WriteAbsentInt64(6_000_000_000)),
    Has("UDF", "1"),
    Test("constant"),
    Set("DOL", "9223372036854775807"),
    Load,
    HasAll(&[
        ("VAL", "9223372036854775807"),
        ("UDF", "0"),
        ("LALM", "9223372036854775807"),
    ]),
    Begin(Wants::Nothing),
    Converts(InputKind::Number(Range::Int64)),
    PutRefused("DRVH", "9223372036854775808", IocError::BadValue),
    Lists(4, 0),
];
