//! Conversions at the ends of all ranges, and the texts of refusals.
use ioc_values::number::{is_number, number, signed};
use ioc_values::trim::trim;
use ioc_values::{
    BadDbKind, DbFault, Double, IocError, Kind, LoadError, Range, Short, Text, Value, convert,
    convert_text, double_of_text, exact_double_text,
};
use std::alloc::Global;
use std::process::Abort;

const BAD: Result<Value, IocError> = Err(IocError::BadValue);

const STOP_GO: [&'static str; 2] = ["STOP", "GO"];

fn text(bytes: &[u8]) -> Value {
    Value::Text(Text::cut(bytes))
}

/// A value, with its text borrowed.
#[derive(Clone, Copy)]
enum Given {
    Long(i32),
    ULong(u32),
    Short(i16),
    UShort(u16),
    UChar(u8),
    Enum(u16),
    Int64(i64),
    /// The double that the text spells.
    Double(&'static str),
    Text(&'static str),
}

fn value(given: Given) -> Value {
    match given {
        Given::Long(number) => Value::Long(number),
        Given::ULong(number) => Value::ULong(number),
        Given::Short(number) => Value::Short(number),
        Given::UShort(number) => Value::UShort(number),
        Given::UChar(number) => Value::UChar(number),
        Given::Enum(number) => Value::Enum(number),
        Given::Int64(number) => Value::Int64(number),
        Given::Double(spelled) => {
            Value::Double(double_of_text(spelled.as_bytes()).unwrap_or(Double::from(0i32)))
        }
        Given::Text(bytes) => text(bytes.as_bytes()),
    }
}

// Returns the value of a conversion, or its refusal.
fn made(wanted: Option<Given>) -> Result<Value, IocError> {
    match wanted {
        Some(given) => Ok(value(given)),
        None => BAD,
    }
}

/// A field.
#[derive(Clone, Copy)]
enum Field {
    Number(Range),
    Double,
    Text,
    Menu,
    State,
}

fn kind(field: Field, states: &[Text]) -> Kind<'_> {
    match field {
        Field::Number(range) => Kind::Number(range),
        Field::Double => Kind::Double,
        Field::Text => Kind::Text,
        Field::Menu => Kind::Menu(&STOP_GO),
        Field::State => Kind::State(states),
    }
}

// A value, and its conversion for a field, if that isn't refused.
type Converted = (Given, Field, Option<Given>);

fn are_converted(rt: &impl Abort, states: &[Text], table: &[Converted]) {
    let mut row = 0u64;
    for (given, field, wanted) in table {
        let found = convert(value(*given), kind(*field, states));
        assert!(rt; found == made(*wanted), "row {row}, counted from 0");
        row = row.saturating_add(1);
    }
}

// A text, and its conversion to a number in a range, if that isn't refused.
type Spelled = (&'static str, Range, Option<Given>);

fn are_spelled(rt: &impl Abort, table: &[Spelled]) {
    for (text, range, wanted) in table {
        let found = convert(value(Given::Text(*text)), Kind::Number(*range));
        assert!(rt; found == made(*wanted), "{text}");
    }
}

static ENDS: [Spelled; 25] = [
    ("2147483647", Range::Long, Some(Given::Long(2147483647))),
    ("-2147483648", Range::Long, Some(Given::Long(-2147483648))),
    ("2147483648", Range::Long, None),
    ("-2147483649", Range::Long, None),
    ("4294967295", Range::ULong, Some(Given::ULong(4294967295))),
    ("4294967296", Range::ULong, None),
    ("-1", Range::ULong, None),
    ("32767", Range::Short, Some(Given::Short(32767))),
    ("-32768", Range::Short, Some(Given::Short(-32768))),
    ("32768", Range::Short, None),
    ("-32769", Range::Short, None),
    ("65535", Range::UShort, Some(Given::UShort(65535))),
    ("65536", Range::UShort, None),
    ("255", Range::UChar, Some(Given::UChar(255))),
    ("256", Range::UChar, None),
    ("65535", Range::Enum, Some(Given::Enum(65535))),
    ("65536", Range::Enum, None),
    (
        "9223372036854775807",
        Range::Int64,
        Some(Given::Int64(9223372036854775807)),
    ),
    (
        "-9223372036854775808",
        Range::Int64,
        Some(Given::Int64(-9223372036854775808)),
    ),
    ("9223372036854775808", Range::Int64, None),
    ("-9223372036854775809", Range::Int64, None),
    ("0", Range::Zero, Some(Given::Short(0))),
    ("-2", Range::Zero, None),
    ("32", Range::Bits, Some(Given::UShort(32))),
    ("33", Range::Bits, None),
];

static SPELLINGS: [Spelled; 14] = [
    ("+5", Range::Long, Some(Given::Long(5))),
    ("-0x10", Range::Long, Some(Given::Long(-16))),
    (" 7 ", Range::Long, Some(Given::Long(7))),
    ("0xfF", Range::UChar, Some(Given::UChar(255))),
    ("007", Range::UChar, Some(Given::UChar(7))),
    ("-0", Range::ULong, Some(Given::ULong(0))),
    ("1x", Range::Long, None),
    ("", Range::Long, None),
    ("0x", Range::Long, None),
    ("0X1", Range::Long, None),
    ("+-1", Range::Long, None),
    ("1 2", Range::Long, None),
    ("\t7", Range::Long, None),
    ("9223372036854775808", Range::Long, None),
];

static NUMBERS: [Converted; 13] = [
    (Given::Long(-1), Field::Number(Range::ULong), None),
    (
        Given::ULong(4294967295),
        Field::Number(Range::ULong),
        Some(Given::ULong(4294967295)),
    ),
    (
        Given::Long(-2147483648),
        Field::Text,
        Some(Given::Text("-2147483648")),
    ),
    (Given::UChar(0), Field::Text, Some(Given::Text("0"))),
    (Given::Short(1), Field::Menu, Some(Given::Enum(1))),
    (Given::UShort(2), Field::Menu, None),
    (Given::Enum(65535), Field::State, Some(Given::Enum(65535))),
    (Given::Long(65536), Field::State, None),
    (
        Given::Long(-5),
        Field::Number(Range::Int64),
        Some(Given::Int64(-5)),
    ),
    (
        Given::Int64(2147483647),
        Field::Number(Range::Long),
        Some(Given::Long(2147483647)),
    ),
    (Given::Int64(2147483648), Field::Number(Range::Long), None),
    (Given::Int64(-7), Field::Text, Some(Given::Text("-7"))),
    (Given::Long(1), Field::Number(Range::Zero), None),
];

static TEXTS: [Converted; 9] = [
    (Given::Text(" a "), Field::Text, Some(Given::Text(" a "))),
    (Given::Text("GO"), Field::Menu, Some(Given::Enum(1))),
    (Given::Text(" 1"), Field::Menu, Some(Given::Enum(1))),
    (Given::Text("go"), Field::Menu, None),
    (Given::Text("2"), Field::Menu, None),
    (Given::Text("off"), Field::State, Some(Given::Enum(0))),
    (Given::Text("0"), Field::State, Some(Given::Enum(1))),
    (Given::Text("1"), Field::State, Some(Given::Enum(1))),
    (Given::Text("2"), Field::State, None),
];

const LONG: Field = Field::Number(Range::Long);

const INT64: Field = Field::Number(Range::Int64);

const DIGITS: Field = Field::Number(Range::Digits);

static DOUBLES: [Converted; 26] = [
    (Given::Double("2.9"), LONG, Some(Given::Long(2))),
    (Given::Double("-2.9"), LONG, Some(Given::Long(-2))),
    (
        Given::Double("2147483647.9"),
        LONG,
        Some(Given::Long(2147483647)),
    ),
    (Given::Double("3e9"), LONG, None),
    (Given::Double("nan"), LONG, None),
    (Given::Double("inf"), INT64, None),
    (Given::Double("-inf"), INT64, None),
    (Given::Double("9223372036854775807"), INT64, None),
    (
        Given::Double("-9223372036854775808"),
        INT64,
        Some(Given::Int64(-9223372036854775808)),
    ),
    (
        Given::Double("-0.5"),
        Field::Number(Range::ULong),
        Some(Given::ULong(0)),
    ),
    (
        Given::Double("65535.9"),
        Field::Number(Range::UShort),
        Some(Given::UShort(65535)),
    ),
    (Given::Double("65536"), Field::Number(Range::UShort), None),
    (
        Given::Double("-0.9"),
        Field::Number(Range::Zero),
        Some(Given::Short(0)),
    ),
    (Given::Double("15.9"), DIGITS, Some(Given::UShort(15))),
    (Given::Double("16"), DIGITS, None),
    (Given::Double("1.9"), Field::Menu, Some(Given::Enum(1))),
    (Given::Double("-0.5"), Field::Menu, Some(Given::Enum(0))),
    (Given::Double("2"), Field::Menu, None),
    (Given::Double("nan"), Field::Menu, None),
    (
        Given::Double("65535.5"),
        Field::State,
        Some(Given::Enum(65535)),
    ),
    (Given::Double("-1"), Field::State, None),
    (
        Given::Double("2.25"),
        Field::Text,
        Some(Given::Text("2.250000")),
    ),
    (
        Given::Double("-0.0001"),
        Field::Text,
        Some(Given::Text("-0.000100")),
    ),
    (
        Given::Double("inf"),
        Field::Text,
        Some(Given::Text("          inf")),
    ),
    (Given::Double("nan"), Field::Text, Some(Given::Text("nan"))),
    (
        Given::Double("-0"),
        Field::Double,
        Some(Given::Double("-0")),
    ),
];

static INTO_DOUBLES: [Converted; 17] = [
    (
        Given::Int64(9007199254740993),
        Field::Double,
        Some(Given::Double("9007199254740992")),
    ),
    (Given::Long(-7), Field::Double, Some(Given::Double("-7"))),
    (
        Given::ULong(4294967295),
        Field::Double,
        Some(Given::Double("4294967295")),
    ),
    (Given::Enum(3), Field::Double, Some(Given::Double("3"))),
    (
        Given::Text(" -2.5e1 "),
        Field::Double,
        Some(Given::Double("-25")),
    ),
    (
        Given::Text("0x1F"),
        Field::Double,
        Some(Given::Double("31")),
    ),
    (
        Given::Text("-Infinity"),
        Field::Double,
        Some(Given::Double("-inf")),
    ),
    (
        Given::Text("+1e-400"),
        Field::Double,
        Some(Given::Double("0")),
    ),
    (Given::Text("5."), Field::Double, Some(Given::Double("5"))),
    (Given::Text("1.5 mm"), Field::Double, None),
    (Given::Text("1e400"), Field::Double, None),
    (Given::Text("0x1.8"), Field::Double, None),
    (Given::Text("1e"), Field::Double, None),
    (Given::Text("."), Field::Double, None),
    (Given::Text(""), Field::Double, None),
    (Given::Long(15), DIGITS, Some(Given::UShort(15))),
    (Given::Text("16"), DIGITS, None),
];

#[test]
fn doubles(rt: HostRuntime) {
    are_converted(&rt, &[Text::cut(b"off"), Text::new()], &DOUBLES);
    are_converted(&rt, &[Text::cut(b"off"), Text::new()], &INTO_DOUBLES);
    let zero = value(Given::Double("0"));
    let held = [
        value(Given::Double("-0")) != zero,
        value(Given::Double("nan")) == value(Given::Double("-nan")),
        value(Given::Double("7")).number().is_none(),
        exact_double_text(Double::from(7i32)) == Text::cut(b"7.0"),
    ];
    assert!(rt; held == [true; 4]);
}

static UNNAMED: [Converted; 3] = [
    (Given::Text(""), Field::State, None),
    (Given::Text("15"), Field::State, Some(Given::Enum(15))),
    (Given::Text("16"), Field::State, None),
];

#[test]
fn values_into_fields(rt: HostRuntime) {
    are_spelled(&rt, &ENDS);
    are_spelled(&rt, &SPELLINGS);
    are_converted(&rt, &[Text::cut(b"off"), Text::new()], &NUMBERS);
    are_converted(&rt, &[Text::cut(b"off"), Text::cut(b"0")], &TEXTS);
    are_converted(&rt, &[Text::new(); 16], &UNNAMED);
}

#[test]
fn spellings_of_numbers(rt: HostRuntime) {
    let held = [
        number(b" -9223372036854775808 ") == Some(i64::MIN),
        signed(b"9223372036854775808").is_none(),
        is_number(b"9223372036854775808"),
        !is_number(b"1.5"),
        trim(b" \ta \t", true) == b"a".as_slice(),
        trim(b" \ta \t", false) == b"\ta \t".as_slice(),
        Value::Long(-7).number() == Some(-7),
        text(b"7").number().is_none(),
    ];
    assert!(rt; held == [true; 8]);
}

static ZEROS: [u8; 40] = [b'0'; 40];

#[test]
fn long_texts(rt: HostRuntime) {
    let cut = Text::cut(&ZEROS);
    let held = [
        convert_text(&ZEROS[..39], Kind::Number(Range::Long)) == Ok(Value::Long(0)),
        convert_text(&ZEROS, Kind::Number(Range::Long)) == BAD,
        convert_text(&ZEROS, Kind::Text) == Ok(Value::Text(cut)),
        cut.as_slice().len() == 39,
        Kind::Text.is_text(),
        !Kind::Menu(&STOP_GO).is_text(),
    ];
    assert!(rt; held == [true; 6]);
}

#[test]
fn texts_of_a_fixed_capacity(rt: HostRuntime) {
    let mut short = Short::<4>::new();
    short.extend(b"ab");
    short.push(b'c');
    let is_filled = short.as_slice() == b"abc".as_slice();
    short.push_cut(b'd');
    short.push_cut(b'e');
    let is_cut = Short::from_slice(b"abcd") == Some(short);
    short.clear();
    let held = [
        is_filled,
        is_cut,
        Short::<4>::from_slice(b"abcde").is_none(),
        short == Short::cut(b""),
    ];
    assert!(rt; held == [true; 4]);
}

/// What has words: a refusal, or a fault of a database text.
#[derive(Clone, Copy)]
enum Said {
    Refusal(IocError),
    Fault(BadDbKind),
}

static WORDS: [(Said, &str); 26] = [
    (Said::Refusal(IocError::NoRecord), "E1 NoRecord"),
    (Said::Refusal(IocError::NoField), "E2 NoField"),
    (Said::Refusal(IocError::NoMod), "E3 NoMod"),
    (Said::Refusal(IocError::PutDisabled), "E4 PutDisabled"),
    (Said::Refusal(IocError::BadValue), "E5 BadValue"),
    (Said::Refusal(IocError::BadLink), "E6 BadLink"),
    (Said::Refusal(IocError::NotifyPending), "E7 NotifyPending"),
    (Said::Refusal(IocError::Stale), "E8 Stale"),
    (Said::Refusal(IocError::QueueFull), "E9 QueueFull"),
    (Said::Refusal(IocError::NoMemory), "E10 NoMemory"),
    (Said::Refusal(IocError::JournalFull), "E11 JournalFull"),
    (Said::Refusal(IocError::Stopped), "E12 Stopped"),
    (Said::Fault(BadDbKind::Syntax), "syntax"),
    (Said::Fault(BadDbKind::Unclosed), "text not closed"),
    (Said::Fault(BadDbKind::OpenBody), "body not closed"),
    (Said::Fault(BadDbKind::BadType), "unknown type"),
    (Said::Fault(BadDbKind::BadField), "unknown field"),
    (Said::Fault(BadDbKind::NoMod), "field not settable"),
    (Said::Fault(BadDbKind::BadName), "bad name"),
    (Said::Fault(BadDbKind::BadValue), "bad value"),
    (Said::Fault(BadDbKind::BadLink), "bad link"),
    (Said::Fault(BadDbKind::Duplicate), "duplicate"),
    (Said::Fault(BadDbKind::NoRecord), "no record"),
    (Said::Fault(BadDbKind::Macro), "macro"),
    (Said::Fault(BadDbKind::LeftOut), "left out"),
    (Said::Fault(BadDbKind::TooMany), "too many"),
];

// Returns whether these are the words of the refusal, and its text.
fn says(alloc: Global, refused: IocError, words: &str) -> bool {
    match refused.to_string(alloc) {
        Ok(text) => refused.words() == words && text.as_str() == words,
        Err(_) => false,
    }
}

// Returns whether this is the text of the error.
fn prints(alloc: Global, error: LoadError, printed: &str) -> bool {
    match error.to_string(alloc) {
        Ok(text) => text.as_str() == printed,
        Err(_) => false,
    }
}

#[test]
fn refusals_in_words(rt: HostRuntime) {
    for (said, words) in &WORDS {
        let is_said = match said {
            Said::Refusal(refused) => says(rt.alloc(), *refused, words),
            Said::Fault(kind) => kind.words() == *words,
        };
        assert!(rt; is_said, "{words}");
    }
    let fault = DbFault {
        line: 2,
        kind: BadDbKind::Unclosed,
    };
    let printed = "E13 BadDb line 2: text not closed";
    let held = [
        prints(rt.alloc(), LoadError::BadDb(fault), printed),
        prints(rt.alloc(), LoadError::NoMemory, "E10 NoMemory"),
    ];
    assert!(rt; held == [true; 2]);
}
