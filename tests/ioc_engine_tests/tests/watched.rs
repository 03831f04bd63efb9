//! Sessions with watched records, and which of them calls mark.
use crate::tests::calling::Call::{Cancel, Process, Put, PutNotify, SetLink};
use crate::tests::sessions::Session;
use crate::tests::steps::Step::{Looks, Makes, Marked, Unwatches, Watches};
use crate::tests::steps::Wanted::Answered;
use ioc_fields::{CommonField, FieldNo, OwnField};

const VALUE: FieldNo = FieldNo::Own(OwnField::Val);

const ACTIVE: FieldNo = FieldNo::Common(CommonField::Pact);

/// Sessions of a desk that watches records.
pub static WATCHED: [Session; 3] = [
    // A record is marked once it is watched, and by each call that may change it, until it is looked
    // at. One that is read isn't marked.
    Session {
        name: "records that calls change",
        text: b"record(longin,\"a\"){}
record(longin,\"b\"){field(INP,\"a\") field(FLNK,\"c\")}
record(longin,\"c\"){}
record(longin,\"d\"){}
",
        later: &[],
        places: None,
        steps: &[
            Watches(b"a"),
            Marked(&[b"a"]),
            Looks(b"a", VALUE, b"0"),
            Makes(Put(b"d.VAL", b"3"), Answered),
            Marked(&[]),
            Makes(Put(b"a.VAL", b"5"), Answered),
            Makes(Put(b"a.VAL", b"6"), Answered),
            Marked(&[b"a"]),
            Looks(b"a", VALUE, b"6"),
            Watches(b"b"),
            Watches(b"c"),
            Marked(&[b"b", b"c"]),
            Makes(Process(b"b"), Answered),
            Marked(&[]),
            Looks(b"b", VALUE, b"6"),
            Looks(b"c", VALUE, b"0"),
            Makes(Process(b"b"), Answered),
            Marked(&[b"b", b"c"]),
            Looks(b"c", VALUE, b"0"),
            Unwatches(b"b"),
            Makes(Process(b"b"), Answered),
            Marked(&[b"c"]),
        ],
        end: &[],
    },
    // A link change marks the watched records of its sets, and they are watched on in the sets that it
    // makes.
    Session {
        name: "watched records of sets that a link change makes",
        text: b"record(longin,\"a\"){}
record(longin,\"b\"){field(INP,\"a\")}
record(longin,\"c\"){}
record(longin,\"d\"){}
",
        later: &[],
        places: None,
        steps: &[
            Watches(b"a"),
            Watches(b"b"),
            Watches(b"c"),
            Watches(b"d"),
            Marked(&[b"a", b"b", b"c", b"d"]),
            Looks(b"a", VALUE, b"0"),
            Looks(b"b", VALUE, b"0"),
            Looks(b"c", VALUE, b"0"),
            Looks(b"d", VALUE, b"0"),
            Makes(SetLink(b"b.INP", b"c"), Answered),
            Marked(&[b"a", b"b", b"c"]),
            Looks(b"a", VALUE, b"0"),
            Looks(b"b", VALUE, b"0"),
            Looks(b"c", VALUE, b"0"),
            Makes(Put(b"c.VAL", b"7"), Answered),
            Marked(&[b"c"]),
            Makes(Process(b"b"), Answered),
            Marked(&[b"b"]),
            Looks(b"b", VALUE, b"7"),
            Makes(Put(b"a.VAL", b"8"), Answered),
            Marked(&[b"a"]),
            Looks(b"a", VALUE, b"8"),
        ],
        end: &[],
    },
    // A put with notification marks the record, and a cancel all watched records of its sets.
    Session {
        name: "watched records of a put with notification",
        text: b"record(longin,\"p\"){field(INP,\"@d\") field(FLNK,\"q\")}
record(longin,\"q\"){}
",
        later: &[b"d"],
        places: None,
        steps: &[
            Watches(b"p"),
            Watches(b"q"),
            Marked(&[b"p", b"q"]),
            Looks(b"p", ACTIVE, b"0"),
            Looks(b"q", VALUE, b"0"),
            Makes(PutNotify(b"p.VAL", b"7"), Answered),
            Marked(&[b"p"]),
            Looks(b"p", ACTIVE, b"1"),
            Makes(Cancel(1), Answered),
            Marked(&[b"p", b"q"]),
        ],
        end: &[],
    },
];
