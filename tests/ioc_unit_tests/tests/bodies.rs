//! Single records of each type, by the type's list of steps.
use crate::tests::steps::Step::{Begin, Converts, Load, Put, Set, Stands};
use crate::tests::steps::{DOL, INP, Step, Wants, follow};
use crate::tests::{bi, bo, fanout, int64, longin, longout, multi, records, texts};
use ioc_dbcommon::InputKind;
use ioc_links::Mode;
use ioc_values::Range;
use rec_flow::{EventBody, Fanout};
use rec_numeric::{Int64in, Int64out, Longin, Longout};
use rec_state::{Bi, Bo, Mbbi, Mbbo};
use rec_text::{Stringin, Stringout};

// DOL of an output is read only in a closed loop.
static DESIRED: [Step<'static>; 6] = [
    Set("DOL", "wish"),
    Load,
    Stands(DOL),
    Begin(Wants::Nothing),
    Put("OMSL", "closed_loop"),
    Begin(Wants::Link(false, Mode::Nms)),
];

// The value of a bi or mbbi is read by a link.
static READ: [Step<'static>; 5] = [
    Set("INP", "there"),
    Load,
    Stands(INP),
    Begin(Wants::Link(false, Mode::Nms)),
    Converts(InputKind::Number(Range::UShort)),
];

#[test]
fn records_by_themselves(rt: HostRuntime) {
    let alloc = rt.alloc();
    follow::<Longin>(&rt, alloc, "level", &records::TESTS);
    follow::<Longin>(&rt, alloc, "level", &longin::TESTS);
    follow::<Longout>(&rt, alloc, "pump", &longout::TESTS);
    follow::<Longout>(&rt, alloc, "pump", &DESIRED);
    follow::<Int64in>(&rt, alloc, "count", &int64::INPUT);
    follow::<Int64out>(&rt, alloc, "goal", &int64::OUTPUT);
    follow::<Bi>(&rt, alloc, "door", &bi::TEXTS);
    follow::<Bi>(&rt, alloc, "door", &READ);
    follow::<Bi>(&rt, alloc, "door", &bi::TESTS);
    follow::<Bo>(&rt, alloc, "valve", &bi::TEXTS);
    follow::<Bo>(&rt, alloc, "valve", &bo::TESTS);
    follow::<Bo>(&rt, alloc, "valve", &DESIRED);
    follow::<Mbbi>(&rt, alloc, "mode", &READ);
    follow::<Mbbi>(&rt, alloc, "mode", &multi::INPUT);
    follow::<Mbbo>(&rt, alloc, "select", &multi::OUTPUT);
    follow::<Mbbo>(&rt, alloc, "select", &DESIRED);
    follow::<Stringin>(&rt, alloc, "text", &texts::STRINGIN);
    follow::<Stringout>(&rt, alloc, "text", &texts::STRINGOUT);
    follow::<EventBody>(&rt, alloc, "event", &texts::EVENT);
    follow::<Fanout>(&rt, alloc, "all", &fanout::TESTS);
}
