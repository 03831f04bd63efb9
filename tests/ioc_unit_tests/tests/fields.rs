//! The tables of fields: rows, names, defaults and links. All cases are in lists of facts, because
//! a list is far cheaper to prove than a function.
use Fact::{
    CanPut, CanSet, Default, Field, Index, KeptOnly, Kind, NoDefault, NoField, NoKind, NoType,
    ProcessPassive, Role, Row, Rows, Type,
};
use ioc_fields::{
    CommonField, FieldKind, FieldNo, FieldSlot, LinkRole, OwnField, RecordType, can_put, can_set,
    default_of, field, is_kept_only, is_process_passive, kind_of, link_fields, name_of, row_of,
};
use ioc_links::LinkKind;
use ioc_menus::Menu;
use ioc_values::Range;

const LONG: FieldKind = FieldKind::Number(Range::Long);

const ULONG: FieldKind = FieldKind::Number(Range::ULong);

const SHORT: FieldKind = FieldKind::Number(Range::Short);

const USHORT: FieldKind = FieldKind::Number(Range::UShort);

const INT64: FieldKind = FieldKind::Number(Range::Int64);

const DIGITS: FieldKind = FieldKind::Number(Range::Digits);

const DOUBLE: FieldKind = FieldKind::Double;

const BITS: FieldKind = FieldKind::Number(Range::Bits);

const UCHAR: FieldKind = FieldKind::Number(Range::UChar);

const SEVERITY: FieldKind = FieldKind::Menu(Menu::Severity);

const STATUS: FieldKind = FieldKind::Menu(Menu::Status);

const INPUT: FieldKind = FieldKind::Link(LinkRole::Input);

const PLAIN_INPUT: FieldKind = FieldKind::Link(LinkRole::InputWithoutDevice);

const OUTPUT: FieldKind = FieldKind::Link(LinkRole::Output);

const FORWARD: FieldKind = FieldKind::Link(LinkRole::Forward);

// How a field is marked in the tables of fields.
#[derive(Clone, Copy)]
enum Mark {
    Plain,
    // A put processes a passive record.
    P,
    // Neither put nor set.
    N,
    // Stored, without effect.
    K,
    // Set only by a database text, as link fields are.
    Set,
}

// A fact of a record type.
enum Fact {
    // The type of the following facts: its name, whether it reads devices, and its number of link
    // fields.
    Type(RecordType, &'static str, bool, usize),
    // No type has this name.
    NoType(&'static str),
    // The row of the field with this name.
    Row(&'static str, FieldKind, Mark),
    // The equal rows of the fields with these names.
    Rows(&'static [&'static str], FieldKind, Mark),
    // The field with this name, which is also the name of the field.
    Field(&'static str, FieldNo),
    NoField(&'static str),
    // The number of the field in a new record. A link field has none.
    Default(&'static str, i64),
    NoDefault(&'static str),
    Kind(FieldNo, FieldKind),
    NoKind(FieldNo),
    ProcessPassive(FieldNo),
    KeptOnly(FieldNo, bool),
    CanPut(FieldNo, bool),
    CanSet(FieldNo),
    // The kind of links that fields of this role take.
    Role(LinkRole, LinkKind),
    Index(FieldSlot, usize),
}

const VAL: FieldNo = FieldNo::Own(OwnField::Val);

const MASK: FieldNo = FieldNo::Own(OwnField::Mask);

static COMMON: [Fact; 24] = [
    Rows(&["NAME", "TIME"], FieldKind::Text, Mark::N),
    Rows(&["DESC", "ASG"], FieldKind::Text, Mark::K),
    Rows(&["DTYP", "EVNT"], FieldKind::Text, Mark::Plain),
    Row("SCAN", FieldKind::Menu(Menu::Scan), Mark::Plain),
    Row("PINI", FieldKind::Menu(Menu::Pini), Mark::Plain),
    Rows(&["PHAS", "DISV", "DISA"], SHORT, Mark::Plain),
    Row("TSE", FieldKind::Number(Range::Zero), Mark::Plain),
    Row("SDIS", PLAIN_INPUT, Mark::Set),
    Rows(&["DISS", "UDFS"], SEVERITY, Mark::Plain),
    Rows(&["PROC", "DISP"], UCHAR, Mark::Plain),
    Row("PRIO", FieldKind::Menu(Menu::Priority), Mark::Plain),
    Row("UDF", UCHAR, Mark::P),
    Row("FLNK", FORWARD, Mark::Set),
    Rows(&["STAT", "NSTA"], STATUS, Mark::N),
    Rows(&["SEVR", "NSEV"], SEVERITY, Mark::N),
    Rows(&["LCNT", "PACT", "PUTF", "RPRO"], UCHAR, Mark::N),
    Default("UDF", 1),
    Default("UDFS", 3),
    Default("DISV", 1),
    Default("DISA", 0),
    Default("TSE", 0),
    Default("SCAN", 0),
    NoDefault("SDIS"),
    NoDefault("FLNK"),
];

// The facts of each type that writes.
static OUTPUTS: [Fact; 5] = [
    Row("OUT", OUTPUT, Mark::Set),
    Row("DOL", PLAIN_INPUT, Mark::Set),
    Row("OMSL", FieldKind::Menu(Menu::Omsl), Mark::Plain),
    Row("IVOA", FieldKind::Menu(Menu::Ivoa), Mark::Plain),
    NoField("INP"),
];

// The facts that don't depend on the type, and then those of each type.
static TYPES: [Fact; 184] = [
    Role(LinkRole::Input, LinkKind::WithDevice),
    Role(LinkRole::Output, LinkKind::WithDevice),
    Role(LinkRole::InputWithoutDevice, LinkKind::NoDevice),
    Role(LinkRole::Forward, LinkKind::NoDevice),
    NoType("longi"),
    NoType("Bo"),
    Index(FieldSlot::N10, 10),
    Type(RecordType::Longin, "longin", true, 3),
    Rows(&["VAL", "HIHI", "LOLO", "HIGH", "LOW"], LONG, Mark::P),
    Row("INP", INPUT, Mark::Set),
    Rows(&["HHSV", "LLSV", "HSV", "LSV"], SEVERITY, Mark::P),
    Row("HYST", LONG, Mark::Plain),
    Row("LALM", LONG, Mark::N),
    Rows(&["ADEL", "MDEL", "HOPR", "LOPR"], LONG, Mark::K),
    Row("EGU", FieldKind::Text, Mark::K),
    NoField("UD"),
    NoField("UDFX"),
    NoField("val"),
    NoField(""),
    NoField("ZNAM"),
    NoField("LNK0"),
    Default("PROC", 0),
    Default("VAL", 0),
    Default("HHSV", 0),
    Kind(VAL, LONG),
    NoKind(MASK),
    ProcessPassive(VAL),
    KeptOnly(FieldNo::Own(OwnField::Egu), true),
    KeptOnly(VAL, false),
    Type(RecordType::Bo, "bo", false, 4),
    Row("VAL", FieldKind::State, Mark::P),
    Row("IVOV", USHORT, Mark::P),
    Row("RVAL", ULONG, Mark::Plain),
    Row("MASK", ULONG, Mark::Set),
    Rows(&["ZNAM", "ONAM"], FieldKind::Text, Mark::P),
    Rows(&["ZSV", "OSV", "COSV"], SEVERITY, Mark::P),
    Row("LALM", USHORT, Mark::N),
    Field("NAME", FieldNo::Common(CommonField::Name)),
    Field("UDFS", FieldNo::Common(CommonField::Udfs)),
    Field("ZNAM", FieldNo::Own(OwnField::Znam)),
    Default("VAL", 0),
    Default("MASK", 0),
    Default("IVOV", 0),
    CanPut(MASK, false),
    CanSet(MASK),
    Type(RecordType::Fanout, "fanout", false, 19),
    Row("VAL", LONG, Mark::P),
    Row("SELM", FieldKind::Menu(Menu::Selm), Mark::Plain),
    Row("SELN", USHORT, Mark::Plain),
    Row("SELL", PLAIN_INPUT, Mark::Set),
    Rows(&["OFFS", "SHFT"], SHORT, Mark::Plain),
    Rows(&["LNK0", "LNK9", "LNKA", "LNKF"], FORWARD, Mark::Set),
    Field("LNKA", FieldNo::Own(OwnField::Lnk(FieldSlot::N10))),
    NoField("LNKG"),
    NoField("LALM"),
    Default("SELM", 0),
    Default("SELN", 1),
    Default("OFFS", 0),
    Default("SHFT", -1),
    NoDefault("LNKF"),
    Type(RecordType::Longout, "longout", false, 4),
    Rows(&["VAL", "DRVH", "DRVL", "IVOV"], LONG, Mark::P),
    Row("HYST", LONG, Mark::Plain),
    Row("EGU", FieldKind::Text, Mark::K),
    Type(RecordType::Int64in, "int64in", true, 3),
    Rows(&["VAL", "LOLO"], INT64, Mark::P),
    Row("INP", INPUT, Mark::Set),
    Row("HYST", INT64, Mark::Plain),
    Row("LALM", INT64, Mark::N),
    Row("LOPR", INT64, Mark::K),
    Default("VAL", 0),
    NoField("DRVH"),
    Type(RecordType::Int64out, "int64out", false, 4),
    Rows(&["VAL", "DRVL", "IVOV"], INT64, Mark::P),
    Type(RecordType::Bi, "bi", true, 3),
    Row("VAL", FieldKind::State, Mark::P),
    Row("INP", INPUT, Mark::Set),
    Row("RVAL", ULONG, Mark::Plain),
    Row("MASK", ULONG, Mark::Set),
    Row("ONAM", FieldKind::Text, Mark::P),
    NoField("OUT"),
    NoField("IVOV"),
    Type(RecordType::Mbbi, "mbbi", true, 3),
    Row("VAL", FieldKind::State, Mark::P),
    Row("INP", INPUT, Mark::Set),
    Row("RVAL", ULONG, Mark::Plain),
    Row("MASK", ULONG, Mark::Set),
    Rows(&["SHFT", "NOBT"], BITS, Mark::Plain),
    Row("ZRVL", ULONG, Mark::P),
    Row("TEST", FieldKind::Text, Mark::P),
    Rows(&["FFSV", "UNSV", "COSV"], SEVERITY, Mark::P),
    Row("LALM", USHORT, Mark::N),
    Field("ONVL", FieldNo::Own(OwnField::StateValue(FieldSlot::N1))),
    Field("TWST", FieldNo::Own(OwnField::StateText(FieldSlot::N2))),
    Field("THSV", FieldNo::Own(OwnField::StateSeverity(FieldSlot::N3))),
    Field("FRVL", FieldNo::Own(OwnField::StateValue(FieldSlot::N4))),
    Field("FVVL", FieldNo::Own(OwnField::StateValue(FieldSlot::N5))),
    Field("SXVL", FieldNo::Own(OwnField::StateValue(FieldSlot::N6))),
    Field("SVVL", FieldNo::Own(OwnField::StateValue(FieldSlot::N7))),
    Field("EIST", FieldNo::Own(OwnField::StateText(FieldSlot::N8))),
    Field("NIST", FieldNo::Own(OwnField::StateText(FieldSlot::N9))),
    Field("TEST", FieldNo::Own(OwnField::StateText(FieldSlot::N10))),
    Field("ELST", FieldNo::Own(OwnField::StateText(FieldSlot::N11))),
    Field(
        "TVSV",
        FieldNo::Own(OwnField::StateSeverity(FieldSlot::N12)),
    ),
    Field(
        "TTSV",
        FieldNo::Own(OwnField::StateSeverity(FieldSlot::N13)),
    ),
    Field(
        "FTSV",
        FieldNo::Own(OwnField::StateSeverity(FieldSlot::N14)),
    ),
    Default("SHFT", 0),
    NoField("SXXX"),
    NoField("ZNAM"),
    Type(RecordType::Mbbo, "mbbo", false, 4),
    Row("VAL", FieldKind::State, Mark::P),
    Row("IVOV", USHORT, Mark::P),
    Row("SVSV", SEVERITY, Mark::P),
    Type(RecordType::Stringin, "stringin", true, 3),
    Row("VAL", FieldKind::Text, Mark::P),
    Row("INP", INPUT, Mark::Set),
    NoField("LALM"),
    Type(RecordType::Stringout, "stringout", false, 4),
    Rows(&["VAL", "IVOV"], FieldKind::Text, Mark::P),
    Type(RecordType::Event, "event", true, 3),
    Row("VAL", FieldKind::Text, Mark::P),
    Row("INP", INPUT, Mark::Set),
    NoField("IVOV"),
    Type(RecordType::Ai, "ai", true, 3),
    Rows(&["VAL", "HIHI", "LOLO", "HIGH", "LOW"], DOUBLE, Mark::P),
    Row("PREC", DIGITS, Mark::Plain),
    Row("EGU", FieldKind::Text, Mark::K),
    Rows(&["HOPR", "LOPR", "EGUF", "EGUL"], DOUBLE, Mark::K),
    Rows(&["HHSV", "LLSV", "HSV", "LSV"], SEVERITY, Mark::P),
    Rows(&["HYST", "MDEL", "ADEL", "SMOO"], DOUBLE, Mark::Plain),
    Rows(&["LALM", "MLST", "ALST"], DOUBLE, Mark::N),
    Row("LINR", FieldKind::Menu(Menu::Linr), Mark::P),
    Rows(&["ESLO", "EOFF", "ASLO", "AOFF"], DOUBLE, Mark::P),
    Row("ROFF", ULONG, Mark::P),
    Row("RVAL", LONG, Mark::Plain),
    Row("INIT", UCHAR, Mark::N),
    Row("INP", INPUT, Mark::Set),
    Default("INIT", 1),
    Default("PREC", 0),
    Default("LINR", 0),
    NoField("ORAW"),
    NoField("DRVH"),
    Type(RecordType::Ao, "ao", false, 4),
    Rows(&["VAL", "DRVH", "DRVL", "IVOV"], DOUBLE, Mark::P),
    Row("OIF", FieldKind::Menu(Menu::Oif), Mark::Plain),
    Row("OROC", DOUBLE, Mark::Plain),
    Rows(&["OVAL", "PVAL", "MLST", "ALST"], DOUBLE, Mark::N),
    Row("RVAL", LONG, Mark::Plain),
    Row("ROFF", ULONG, Mark::P),
    Row("ASLO", DOUBLE, Mark::P),
    Default("OIF", 0),
    Default("RVAL", 0),
    NoField("SMOO"),
    NoField("INIT"),
    NoField("OMOD"),
    NoField("INP"),
    Type(RecordType::Calc, "calc", false, 14),
    Row("VAL", DOUBLE, Mark::Plain),
    Rows(&["A", "B", "L"], DOUBLE, Mark::P),
    Rows(&["LA", "LB", "LL", "LALM", "MLST", "ALST"], DOUBLE, Mark::N),
    Rows(&["INPA", "INPB", "INPL"], PLAIN_INPUT, Mark::Set),
    Row("CALC", FieldKind::Expression, Mark::Set),
    NoField("M"),
    NoField("LM"),
    NoField("INPM"),
    NoField("INP"),
    NoField("OCAL"),
    Type(RecordType::Calcout, "calcout", false, 15),
    Row("VAL", DOUBLE, Mark::Plain),
    Rows(&["OVAL", "PVAL"], DOUBLE, Mark::N),
    Row("OOPT", FieldKind::Menu(Menu::Oopt), Mark::Plain),
    Row("DOPT", FieldKind::Menu(Menu::Dopt), Mark::Plain),
    Rows(&["CALC", "OCAL"], FieldKind::Expression, Mark::Set),
    Row("IVOV", DOUBLE, Mark::P),
    Row("OUT", OUTPUT, Mark::Set),
    NoField("ODLY"),
    NoField("DOL"),
    Type(RecordType::Sel, "sel", false, 15),
    Row("VAL", DOUBLE, Mark::N),
    Row("SELM", FieldKind::Menu(Menu::Selmode), Mark::Plain),
    Row("SELN", USHORT, Mark::Plain),
    Row("NVL", PLAIN_INPUT, Mark::Set),
    NoField("CALC"),
    NoField("NLST"),
];

// Returns the row of a field in the tables of fields.
fn told(kind: FieldKind, mark: Mark) -> ioc_fields::Row {
    if let FieldKind::Link(role) = kind {
        return ioc_fields::Row::link(role);
    }
    match mark {
        Mark::Plain => ioc_fields::Row::plain(kind),
        Mark::P => ioc_fields::Row::passive(kind),
        Mark::N => ioc_fields::Row::fixed(kind),
        Mark::K => ioc_fields::Row::kept(kind),
        Mark::Set => ioc_fields::Row::given(kind),
    }
}

// Returns whether this is the row of the field with this name.
fn has_row(record_type: RecordType, name: &str, kind: FieldKind, mark: Mark) -> bool {
    match field(record_type, name.as_bytes()) {
        Some(field) => row_of(record_type, field) == Some(told(kind, mark)),
        None => false,
    }
}

fn have_rows(record_type: RecordType, names: &[&str], kind: FieldKind, mark: Mark) -> bool {
    for name in names {
        if !has_row(record_type, name, kind, mark) {
            return false;
        }
    }
    true
}

// Returns the number of a field in a new record.
fn default_number(record_type: RecordType, name: &str) -> Option<i64> {
    let field = field(record_type, name.as_bytes())?;
    default_of(record_type, field)?.number()
}

// Returns whether a fact of a name holds.
fn holds(record_type: RecordType, fact: &Fact) -> bool {
    match fact {
        Row(name, kind, mark) => has_row(record_type, name, *kind, *mark),
        Rows(names, kind, mark) => have_rows(record_type, names, *kind, *mark),
        Field(name, wanted) => {
            field(record_type, name.as_bytes()) == Some(*wanted) && name_of(*wanted) == *name
        }
        NoField(name) => field(record_type, name.as_bytes()).is_none(),
        Default(name, number) => default_number(record_type, name) == Some(*number),
        NoDefault(name) => {
            field(record_type, name.as_bytes()).is_some()
                && default_number(record_type, name).is_none()
        }
        Type(_, name, reads, links) => {
            RecordType::from_name(name.as_bytes()) == Some(record_type)
                && record_type.name() == *name
                && record_type.reads_device() == *reads
                && link_fields(record_type).len() == *links
        }
        NoType(name) => RecordType::from_name(name.as_bytes()).is_none(),
        fact => field_holds(record_type, fact),
    }
}

// Returns whether a fact of a field holds, or one that doesn't depend on the type.
fn field_holds(record_type: RecordType, fact: &Fact) -> bool {
    match fact {
        Kind(field, kind) => kind_of(record_type, *field) == Some(*kind),
        NoKind(field) => kind_of(record_type, *field).is_none(),
        ProcessPassive(field) => is_process_passive(record_type, *field),
        KeptOnly(field, wanted) => is_kept_only(record_type, *field) == *wanted,
        CanPut(field, wanted) => can_put(record_type, *field) == *wanted,
        CanSet(field) => can_set(record_type, *field),
        Role(role, kind) => role.link_kind() == *kind,
        Index(slot, index) => slot.index() == *index,
        _ => false,
    }
}

// Returns the place of the first fact that doesn't hold. The facts begin with those of type
// `first`.
fn first_wrong(first: RecordType, facts: &[Fact]) -> Option<usize> {
    let mut record_type = first;
    for (place, fact) in facts.iter().enumerate() {
        if let Type(named, _, _, _) = fact {
            record_type = *named;
        }
        if !holds(record_type, fact) {
            return Some(place);
        }
    }
    None
}

#[test]
fn fields(rt: HostRuntime) {
    assert_eq!(rt; first_wrong(RecordType::Longin, &COMMON), None);
    assert_eq!(rt; first_wrong(RecordType::Fanout, &COMMON), None);
    assert_eq!(rt; first_wrong(RecordType::Longin, &TYPES), None);
    let writers = [
        RecordType::Bo,
        RecordType::Longout,
        RecordType::Int64out,
        RecordType::Mbbo,
        RecordType::Stringout,
        RecordType::Ao,
    ];
    for writer in &writers {
        assert_eq!(rt; first_wrong(*writer, &OUTPUTS), None);
    }
}
