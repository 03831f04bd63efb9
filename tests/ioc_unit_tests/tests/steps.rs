//! Tests of single records as lists of steps, each with its expected result. One list has all tests
//! of a type, because a list is far cheaper to prove than a function.
use crate::tests::acts::{Act, is_done};
use ioc_dbcommon::{
    FieldAddress, Fresh, Got, InputKind, Lead, LinkBox, LinkUse, Need, Output, StandingLink,
};
use ioc_fields::{CommonField, FieldNo, OwnField, field};
use ioc_links::Mode;
use ioc_names::RecordNo;
use ioc_record::{
    Given, Record, RecordBody, RecordKind, put_field, put_untested, read_as, set_field, test_put,
    text_of,
};
use ioc_values::{Finished, Input, IocError, Name, Range, Text, Value};
use std::alloc::Global;
use std::process::Abort;

/// The input of a body.
#[derive(Clone, Copy)]
pub enum Came {
    Nothing,
    Fault,
    Long(i32),
    UShort(u16),
    ULong(u32),
    Int64(i64),
    /// A text from the test.
    Text(&'static str),
}

/// What a body needs. A link that is read leads to VAL of record 1, with PP or not, and in this
/// mode.
#[derive(Clone, Copy)]
pub enum Wants {
    Nothing,
    Unused,
    Absent,
    Device,
    Link(bool, Mode),
}

/// What a body does next. A link that is written leads to VAL of record 1, with NPP and NMS.
#[derive(Clone, Copy)]
pub enum Does {
    Nothing,
    WriteAbsent(u16),
    WriteAbsentRaw(u32),
    WriteAbsentLong(i32),
    WriteAbsentInt64(i64),
    Write(u16),
    WriteRaw(u32),
    WriteDevice(u32),
    WriteDeviceLong(i32),
    Follow(u16),
    WriteText(&'static str),
    WriteDeviceText(&'static str),
    /// Posts the event with this name.
    Post(&'static str),
}

/// A step of a test, with its expected result.
#[derive(Clone, Copy)]
pub enum Step<'a> {
    /// Begins the test with this name, with a new record.
    Test(&'a str),
    /// Sets a field by a database text.
    Set(&'a str, &'a str),
    SetAll(&'a [(&'a str, &'a str)]),
    SetRefused(&'a str, &'a str, IocError),
    /// Ends the load.
    Load,
    /// Replaces the record by a copy.
    Copied,
    /// Puts a text into a field by a script.
    Put(&'a str, &'a str),
    PutRefused(&'a str, &'a str, IocError),
    /// Puts a text into a field by a link, whatever DISP is.
    PutByLink(&'a str, &'a str),
    /// Whether a client may put the field, or the refusal.
    MayPut(&'a str, Option<IocError>),
    /// Puts a number into a field, as a record does.
    PutNumber(&'a str, i32),
    /// Makes the link of the field lead to VAL of record 1.
    Stands(FieldNo),
    /// Makes the link of the field lead to the record's own device.
    OwnsDevice(FieldNo),
    /// The body begins, and needs this.
    Begin(Wants),
    /// The body takes this input, and does this next.
    Take(Came, Does),
    /// Completes the body with a number from its device, or with a fault.
    Answer(u32),
    AnswerFault,
    Do(Act),
    /// The field has this text.
    Has(&'a str, &'a str),
    HasAll(&'a [(&'a str, &'a str)]),
    /// Shows the alarms, which have this status and severity.
    Shows(&'a str, &'a str),
    /// The body takes this input and does nothing next. An alarm of this status and severity is
    /// raised.
    Raises(Came, &'a str, &'a str),
    /// The body takes this input and does nothing next. Then the alarms are shown, which have this
    /// status and severity, and LALM has this text.
    Reaches(Came, &'a str, &'a str, &'a str),
    /// An alarm of this status and severity is raised.
    Raised(&'a str, &'a str),
    /// The field as a number, and as a text, for a reader.
    ReadAsNumber(&'a str, i32),
    ReadAsText(&'a str, &'a str),
    /// The kind that the input of the body is converted to.
    Converts(InputKind),
    /// The numbers of link fields and of states of the type.
    Lists(usize, usize),
}

const STAT: FieldNo = FieldNo::Common(CommonField::Stat);

const SEVR: FieldNo = FieldNo::Common(CommonField::Sevr);

const NSTA: FieldNo = FieldNo::Common(CommonField::Nsta);

const NSEV: FieldNo = FieldNo::Common(CommonField::Nsev);

const LALM: FieldNo = FieldNo::Own(OwnField::Lalm);

pub const INP: FieldNo = FieldNo::Own(OwnField::Inp);

pub const OUT: FieldNo = FieldNo::Own(OwnField::Out);

pub const DOL: FieldNo = FieldNo::Own(OwnField::Dol);

/// The body takes no input, or a fault of it, and does nothing next.
pub const TAKE_NOTHING: Step<'static> = Step::Take(Came::Nothing, Does::Nothing);

pub const TAKE_FAULT: Step<'static> = Step::Take(Came::Fault, Does::Nothing);

/// Shows the alarms.
pub const SHOW: Step<'static> = Step::Do(Act::Show);

/// A request finds the record active.
pub const BLOCK: Step<'static> = Step::Do(Act::Block);

// Returns whether this is the text of the field.
fn has_text<K: RecordKind>(item: &K, field: FieldNo, wanted: &str) -> bool {
    text_of(item, field).as_slice() == wanted.as_bytes()
}

// Makes the link of the field lead to `lead`.
fn lead_on<K: RecordKind>(alloc: Global, item: &mut K, field: FieldNo, lead: Lead) -> bool {
    let Some(kept) = item.link(field) else {
        return false;
    };
    let mut link = kept.get();
    link.lead = lead;
    match LinkBox::new(alloc, link) {
        Ok(kept) => {
            item.set_link(field, kept);
            true
        }
        Err(_) => false,
    }
}

// Returns a lead to VAL of record 1.
fn there() -> Lead {
    Lead::Field(FieldAddress {
        number: RecordNo::new(1),
        field: FieldNo::Own(OwnField::Val),
    })
}

// Returns the use of a link to VAL of record 1.
fn standing(process_passive: bool, mode: Mode) -> LinkUse {
    LinkUse::Standing(StandingLink {
        number: RecordNo::new(1),
        field: FieldNo::Own(OwnField::Val),
        process_passive,
        mode,
    })
}

fn text_value(text: &str) -> Value {
    Value::Text(Text::cut(text.as_bytes()))
}

fn got(came: Came) -> Got {
    match came {
        Came::Nothing => Got::Nothing,
        Came::Fault => Got::Fault,
        Came::Long(number) => Got::Value(Value::Long(number)),
        Came::UShort(number) => Got::Value(Value::UShort(number)),
        Came::ULong(number) => Got::Value(Value::ULong(number)),
        Came::Int64(number) => Got::Value(Value::Int64(number)),
        Came::Text(text) => Got::Value(text_value(text)),
    }
}

fn output(does: Does) -> Output {
    match does {
        Does::Nothing => Output::NoOutput,
        Does::WriteAbsent(number) => Output::WriteLink(LinkUse::Absent, Value::UShort(number)),
        Does::WriteAbsentRaw(number) => Output::WriteLink(LinkUse::Absent, Value::ULong(number)),
        Does::WriteAbsentLong(number) => Output::WriteLink(LinkUse::Absent, Value::Long(number)),
        Does::WriteAbsentInt64(number) => Output::WriteLink(LinkUse::Absent, Value::Int64(number)),
        Does::Write(number) => Output::WriteLink(standing(false, Mode::Nms), Value::UShort(number)),
        Does::WriteRaw(number) => {
            Output::WriteLink(standing(false, Mode::Nms), Value::ULong(number))
        }
        Does::WriteDevice(number) => Output::WriteDevice(Value::ULong(number)),
        Does::WriteDeviceLong(number) => Output::WriteDevice(Value::Long(number)),
        Does::Follow(links) => Output::FollowLinks(links),
        Does::WriteText(text) => Output::WriteLink(standing(false, Mode::Nms), text_value(text)),
        Does::WriteDeviceText(text) => Output::WriteDevice(text_value(text)),
        Does::Post(name) => Output::PostEvent(Text::cut(name.as_bytes())),
    }
}

// Returns the name of the field of a step, if it has one.
fn name_of<'a>(step: &Step<'a>) -> Option<&'a str> {
    match step {
        Step::Set(name, _) | Step::SetRefused(name, _, _) => Some(*name),
        Step::Put(name, _) | Step::PutRefused(name, _, _) => Some(*name),
        Step::PutByLink(name, _) | Step::PutNumber(name, _) => Some(*name),
        Step::MayPut(name, _) | Step::Has(name, _) => Some(*name),
        Step::ReadAsNumber(name, _) | Step::ReadAsText(name, _) => Some(*name),
        _ => None,
    }
}

// Returns whether the expected refusal is that the type doesn't have the field.
fn is_fieldless(step: &Step<'_>) -> bool {
    match step {
        Step::SetRefused(_, _, fault) | Step::PutRefused(_, _, fault) => *fault
            == IocError::NoField,
        _ => false,
    }
}

// Carries out a step on a field.
fn field_holds<K: RecordKind>(
    alloc: Global,
    item: &mut K,
    field: FieldNo,
    step: &Step<'_>,
) -> bool {
    match step {
        Step::Set(_, text) => set_field(alloc, item, field, text.as_bytes()) == Ok(()),
        Step::SetRefused(_, text, fault) => {
            set_field(alloc, item, field, text.as_bytes()) == Err(*fault)
        }
        Step::Has(_, wanted) => has_text(item, field, wanted),
        Step::ReadAsNumber(_, number) => {
            read_as(item, field, InputKind::Number(Range::Long)) == Ok(Value::Long(*number))
        }
        Step::ReadAsText(_, text) => read_as(item, field, InputKind::Text) == Ok(text_value(text)),
        step => is_put(item, field, step),
    }
}

// Puts a field as a client does. It has no contract, which keeps its five callers cheap to prove.
fn put_by_client<K: RecordKind>(
    item: &mut K,
    field: FieldNo,
    given: Given<'_>,
) -> Result<(), IocError> {
    put_field(item, field, given)
}

// Carries out a step that puts a field, or tests whether a client may.
fn is_put<K: RecordKind>(item: &mut K, field: FieldNo, step: &Step<'_>) -> bool {
    match step {
        Step::Put(_, text) => put_by_client(item, field, Given::Text(text.as_bytes())).is_ok(),
        Step::PutRefused(_, text, fault) => {
            let given = Input::from_text(text.as_bytes());
            put_by_client(item, field, Given::Value(&given)) == Err(*fault)
                && put_by_client(item, field, Given::Text(text.as_bytes())) == Err(*fault)
        }
        Step::PutByLink(_, text) => {
            let given = Input::from_text(text.as_bytes());
            put_untested(item, field, Given::Value(&given)).is_ok()
        }
        Step::PutNumber(_, number) => {
            let given = Input::Value(Value::Long(*number));
            put_by_client(item, field, Given::Value(&given)).is_ok()
        }
        Step::MayPut(_, fault) => test_put(item, field).err() == *fault,
        _ => false,
    }
}

// Carries out a step on the field with this name.
fn named_holds<K: RecordKind>(alloc: Global, item: &mut K, name: &str, step: &Step<'_>) -> bool {
    match field(item.record_type(), name.as_bytes()) {
        Some(field) => field_holds(alloc, item, field, step),
        None => is_fieldless(step),
    }
}

// Carries out a step on each of these fields.
fn all_hold<K: RecordKind>(
    alloc: Global,
    item: &mut K,
    fields: &[(&str, &str)],
    sets: bool,
) -> bool {
    for (name, text) in fields {
        let step = if sets {
            Step::Set(*name, *text)
        } else {
            Step::Has(*name, *text)
        };
        if !named_holds(alloc, item, name, &step) {
            return false;
        }
    }
    true
}

// Carries out a step, and returns whether it has the expected result.
fn holds<K: RecordKind + Drop>(alloc: Global, item: &mut K, step: &Step<'_>) -> bool {
    match step {
        Step::SetAll(fields) => return all_hold(alloc, item, fields, true),
        Step::HasAll(fields) => return all_hold(alloc, item, fields, false),
        _ => {}
    }
    match name_of(step) {
        Some(name) => named_holds(alloc, item, name, step),
        None => record_holds(alloc, item, step),
    }
}

// Shows the alarms, and returns whether they have this status and severity.
fn shows<K: RecordKind>(item: &mut K, status: &str, severity: &str) -> bool {
    item.common_mut().show(0);
    has_text(item, STAT, status) && has_text(item, SEVR, severity)
}

// Returns whether an alarm of this status and severity is raised.
fn is_raised<K: RecordKind>(item: &K, status: &str, severity: &str) -> bool {
    has_text(item, NSTA, status) && has_text(item, NSEV, severity)
}

// Carries out a step on what all records have.
fn record_holds<K: RecordKind + Drop>(alloc: Global, item: &mut K, step: &Step<'_>) -> bool {
    match step {
        Step::Test(_) => true,
        Step::Do(act) => is_done(item.common_mut(), *act),
        Step::Shows(status, severity) => shows(item, status, severity),
        Step::Reaches(came, status, severity, last) => {
            takes(item, got(*came), Output::NoOutput)
                && shows(item, status, severity)
                && has_text(item, LALM, last)
        }
        Step::Raised(status, severity) => is_raised(item, status, severity),
        Step::Raises(came, status, severity) => {
            takes(item, got(*came), Output::NoOutput) && is_raised(item, status, severity)
        }
        Step::Lists(links, states) => {
            item.link_fields().len() == *links && item.states().len() == *states
        }
        step => type_holds(alloc, item, step),
    }
}

// Returns whether the body needs this at its beginning.
fn begins<K: RecordKind>(item: &K, wants: Wants) -> bool {
    let (need, link) = match wants {
        Wants::Nothing | Wants::Unused => (Need::Nothing, LinkUse::Unused),
        Wants::Absent => (Need::Link, LinkUse::Absent),
        Wants::Device => (Need::Device, LinkUse::Unused),
        Wants::Link(process_passive, mode) => (Need::Link, standing(process_passive, mode)),
    };
    item.begin() == need && item.wanted_link() == link
}

// Passes an input to the body, and returns whether it does this next.
fn takes<K: RecordKind>(item: &mut K, got: Got, does: Output) -> bool {
    let mut output = Output::NoOutput;
    let puts_out = item.take(&got, &mut output);
    puts_out == (does != Output::NoOutput) && output == does
}

// Completes the body with the answer of its device, and returns whether it outputs nothing.
fn ends<K: RecordKind>(item: &mut K, finished: Finished) -> bool {
    let mut output = Output::FollowLinks(0);
    item.finish(finished, &mut output);
    output == Output::NoOutput
}

// Replaces the record by a copy that was updated from it once more.
fn copied<K: RecordKind + Drop>(alloc: Global, item: &mut K) -> bool {
    let Ok(mut copy) = item.copy(alloc) else {
        return false;
    };
    copy.copy_from(item);
    *item = copy;
    true
}

// Carries out a step that depends on the record's type.
fn type_holds<K: RecordKind + Drop>(alloc: Global, item: &mut K, step: &Step<'_>) -> bool {
    match step {
        Step::Load => {
            item.load();
            true
        }
        Step::Copied => copied(alloc, item),
        Step::Stands(field) => lead_on(alloc, item, *field, there()),
        Step::OwnsDevice(field) => lead_on(alloc, item, *field, Lead::OwnDevice),
        Step::Begin(wants) => begins(item, *wants),
        Step::Take(came, does) => takes(item, got(*came), output(*does)),
        Step::Answer(number) => ends(item, Finished::Done(Value::ULong(*number))),
        Step::AnswerFault => ends(item, Finished::Fault),
        Step::Converts(kind) => item.input_kind() == *kind,
        _ => false,
    }
}

/// Carries out the tests of a list of steps, each with a new record of the type.
pub fn follow<B: RecordBody + Fresh + Drop>(
    rt: &impl Abort,
    alloc: Global,
    record_name: &str,
    steps: &[Step<'_>],
) {
    let fresh_name = Name::cut(record_name.as_bytes());
    let mut item = Record::new(fresh_name, B::fresh());
    let mut name = record_name;
    for (number, step) in steps.iter().enumerate() {
        if let Step::Test(test) = step {
            item = Record::new(fresh_name, B::fresh());
            name = *test;
        }
        assert!(rt;
            holds(alloc, &mut item, step),
            "{record_name}: {name}, step {number}"
        );
    }
}
