//! Sets of records whose links form a chain, and the operations on them.

use ioc_dbcommon::{FieldAddress, Fresh, Lead, LinkBox, LinkField};
use ioc_device::{Answer, Ask, Device};
use ioc_fields::{CommonField, FieldNo, OwnField};
use ioc_links::{LinkKind, parse};
use ioc_names::RecordNo;
use ioc_record::{Record, RecordKind};
use ioc_set_records::{Change, JoinBuffers, Members};
use ioc_values::{Name, Value};
use rec_numeric::Longin;
use std::alloc::{AllocError, Global};

/// A device that answers with the number of its record.
#[derive(Drop)]
pub struct Sensor {
    number: u16,
}

impl Device for Sensor {
    ghost gives = { λ _ _ _ _ _. Unit {0} };

    fn read(&mut self, _moment: u64) -> Answer {
        Answer::Done(Value::UShort(self.number))
    }

    fn write(&mut self, _value: Value, _moment: u64) -> Answer {
        Answer::Fault
    }
}

pub type Set = Members<Record<Longin>, Sensor>;

/// The numbers of the first record and after the last one, and the number of the record that the
/// link of the last one leads to. Each other link leads to the next record.
pub type Run = (usize, usize, Option<usize>);

/// Returns the number of the record that the link of a record leads to.
pub fn target(number: usize, end: usize, last: Option<usize>) -> Option<usize> {
    let next = number.saturating_add(1);
    if next < end { Some(next) } else { last }
}

// Room for all records.
const ROOM: usize = 11;

// The field whose links form the chain.
const LINK: FieldNo = FieldNo::Common(CommonField::Flnk);

// Returns a record's number as the answer of its device.
fn u16_of(number: usize) -> u16 {
    u16::try_from(number).unwrap_or(u16::MAX)
}

/// Empties the link of a record.
pub struct Cut;

impl<K: RecordKind> Change<K> for Cut {
    ghost use Rattle.ioc_fields.specs.declared.field_no.FieldNo.TheVariants.{Common};
    ghost use Rattle.ioc_fields.specs.declared.field_no.CommonField.TheVariants.{Flnk};
    ghost use Rattle.ioc_dbcommon.specs.Links.{no_link};

    ghost changed = { λ _ item. K.rules.with_link item (Common Flnk) no_link };

    fn apply(&self, item: &mut K) {
        item.set_link(LINK, LinkBox::empty());
    }
}

// Returns a link to VAL of a record, or an empty one.
fn link_to(alloc: Global, target: Option<usize>) -> Result<LinkBox, AllocError> {
    let Some(target) = target else {
        return Ok(LinkBox::empty());
    };
    let Ok(link) = parse(LinkKind::NoDevice, b"next") else {
        return Ok(LinkBox::empty());
    };
    let lead = Lead::Field(FieldAddress {
        number: RecordNo::new(target),
        field: FieldNo::Own(OwnField::Val),
    });
    LinkBox::new(alloc, LinkField { link, lead })
}

/// Adds a record with this number, a link to the target, and its device. Returns `false` if the
/// number isn't above all others.
pub fn add<K: RecordKind + Drop>(
    alloc: Global,
    set: &mut Members<K, Sensor>,
    mut item: K,
    number: usize,
    target: Option<usize>,
) -> Result<bool, AllocError> {
    let place = RecordNo::new(number);
    if let Some(last) = set
        .len()
        .checked_sub(1)
        .and_then(|last| set.number_at(last))
    {
        if last.index() >= number {
            return Ok(false);
        }
    }
    item.set_link(LINK, link_to(alloc, target)?);
    let base = item.copy(alloc)?;
    let sensor = Sensor {
        number: u16_of(number),
    };
    set.add(place, item, base, Some(sensor))?;
    Ok(true)
}

/// Returns a new record.
pub fn fresh() -> Record<Longin> {
    Record::new(Name::cut(b"any"), Longin::fresh())
}

/// Returns a set of these records, each with its link.
pub fn made(alloc: Global, records: &[Run]) -> Result<Set, AllocError> {
    let mut set = Members::with_room(alloc, ROOM)?;
    for (from, end, last) in records {
        for number in *from..*end {
            add(
                alloc,
                &mut set,
                fresh(),
                number,
                target(number, *end, *last),
            )?;
        }
    }
    Ok(set)
}

// Returns whether the link of a record leads to the target.
fn leads<K: RecordKind>(item: &K, target: Option<usize>) -> bool {
    match item.link(LINK) {
        Some(link) => link.record_named() == target.map(RecordNo::new),
        None => false,
    }
}

/// Returns whether the links of the record and of its base lead to these targets.
pub fn both_lead<K: RecordKind, D: Device>(
    set: &Members<K, D>,
    number: RecordNo,
    target: Option<usize>,
    base_target: Option<usize>,
) -> bool {
    set.has(number) && leads(set.record(number), target) && leads(set.base(number), base_target)
}

/// Returns whether the record's device answers.
pub fn answers<K: RecordKind, D: Device>(set: &mut Members<K, D>, number: RecordNo) -> bool {
    let given = set.device_gives(number, &Ask::Read, 0);
    given == Answer::Done(Value::UShort(u16_of(number.index())))
}

// Returns whether the record at a place has this number, a link to the target, also in its base,
// and its device.
fn is_at<K: RecordKind, D: Device>(
    set: &mut Members<K, D>,
    place: usize,
    number: RecordNo,
    target: Option<usize>,
) -> bool {
    set.number_at(place) == Some(number)
        && both_lead(set, number, target, target)
        && answers(set, number)
}

/// Returns whether these are the records, with these links also in their bases, and each has its
/// device.
pub fn holds<K: RecordKind, D: Device>(set: &mut Members<K, D>, wanted: &[Run]) -> bool {
    let lowest = wanted.first().map(|first| RecordNo::new(first.0));
    if set.number_at(0) != lowest {
        return false;
    }
    let mut place = 0usize;
    for (from, end, last) in wanted {
        for number in *from..*end {
            let to = target(number, *end, *last);
            if !is_at(set, place, RecordNo::new(number), to) {
                return false;
            }
            place = place.saturating_add(1);
        }
    }
    set.len() == place && set.is_empty() == wanted.is_empty()
}

/// Changes a link and parts the set. The records that part from it are `rest`. Returns `false` if
/// that isn't allowed.
pub fn part<K: RecordKind + Drop, D: Device>(
    alloc: Global,
    set: &mut Members<K, D>,
    rest: &mut Members<K, D>,
    number: RecordNo,
    target: Option<usize>,
) -> Result<bool, AllocError> {
    let link = link_to(alloc, target)?;
    if !set.has_link(number, LINK) || !set.leads_within(&link) {
        return Ok(false);
    }
    let base_link = link.copy(alloc)?;
    *rest = set.part(alloc, number, LINK, link, base_link)?;
    Ok(true)
}

/// Joins two sets by a link. Returns `false` if that isn't allowed.
pub fn join<K: RecordKind + Drop, D: Device>(
    alloc: Global,
    set: &mut Members<K, D>,
    other: &mut Members<K, D>,
    number: RecordNo,
    target: usize,
) -> Result<bool, AllocError> {
    let link = link_to(alloc, Some(target))?;
    if !set.is_apart(other) || !set.has_link(number, LINK) || !other.leads_into(&link) {
        return Ok(false);
    }
    let base_link = link.copy(alloc)?;
    set.are_few();
    other.are_few();
    let room = JoinBuffers::new(alloc, set.len() + other.len())?;
    set.join(room, other, number, LINK, link, base_link);
    Ok(true)
}

/// Returns whether the set refuses what the chain doesn't have, and another set with common
/// records.
pub fn is_refused<K: RecordKind, D: Device>(set: &Members<K, D>, other: &Members<K, D>) -> bool {
    let has = [
        set.has_link(RecordNo::new(10), LINK),
        set.has_link(RecordNo::new(3), FieldNo::Own(OwnField::Val)),
        set.is_apart(other),
    ];
    has == [false; 3]
}

/// Returns whether a link that leads out of the chain, and an empty one, are recognized as such.
pub fn leads_out<K: RecordKind, D: Device>(
    alloc: Global,
    set: &Members<K, D>,
) -> Result<bool, AllocError> {
    let is_within = set.leads_within(&link_to(alloc, Some(10))?);
    let is_into = set.leads_into(&link_to(alloc, None)?);
    Ok(!is_within && !is_into)
}
