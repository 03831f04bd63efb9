//! Sessions with an engine: the calls of a desk on the records of a text, and what is
//! found at the end.
use crate::tests::calling::Call::{self, Cancel, Complete, Get, Process, Put, PutNotify, SetLink};
use crate::tests::scans::SCANS;
use crate::tests::steps::Step::{self, Checkpoint, Closes, Ends, Makes, Parts};
use crate::tests::steps::Wanted::{At, Fails, Moves, Shows};
use crate::tests::steps::{Says, Wanted};
use crate::tests::watched::WATCHED;
use ioc_engine::{IocError, Tally};

/// What is expected at the end of an engine.
#[derive(Clone, Copy)]
pub enum AtEnd {
    /// The number of lock sets.
    Sets(usize),
    /// The number of records.
    Records(usize),
    /// The number of records with a device.
    Devices(usize),
    /// The number of records that await their devices.
    Active(usize),
    /// The place of the first entry that the journal has.
    FirstPlace(u64),
    /// The field VAL of the first record at the last checkpoint, and the number of puts with
    /// notification that waited then.
    Base(&'static [u8], usize),
    /// The number of requests, all of which were processed, and those of the answers of devices
    /// that were to come later, and that came.
    Counts(u64, u64, u64),
    /// These counts.
    Counted(Tally),
    /// The number of items that events dropped because they had sent 256 already, and that of once
    /// requests that were dropped because 1,000 waited.
    Dropped(u64, u64),
    /// The number of tickets that were begun for once requests, that were spent, and that were
    /// handed back. All were begun for requests or once requests, and none is out.
    Tickets(u64, u64, u64),
    /// The number of tickets that were begun for once requests and for requests on callback queues,
    /// that of requests that came with their ticket, and the number of tickets that were spent, and
    /// that were handed back. None is out.
    Queued(u64, u64, u64, u64, u64),
}

/// The calls of a desk on the records of a text.
pub struct Session {
    pub name: &'static str,
    pub text: &'static [u8],
    /// The names of the devices. The one named `seven` answers at once, with 7, 9 and so on; the
    /// answers of all others are asynchronous.
    pub later: &'static [&'static [u8]],
    /// The number of places in the journal, if it isn't the usual one.
    pub places: Option<u64>,
    pub steps: &'static [Step],
    pub end: &'static [AtEnd],
}

const PLAIN: Wanted = Wanted::Says(Says::Plain);

const PROCESSED: Wanted = Wanted::Says(Says::Processed);

const STALE: Wanted = Wanted::Says(Says::Refused(IocError::Stale));

const FIRST: Wanted = Wanted::Says(Says::Notify(1));

const SECOND: Wanted = Wanted::Says(Says::Notify(2));

const IS_LIVE: Wanted = Wanted::Says(Says::Live(true));

const IS_OVER: Wanted = Wanted::Says(Says::Live(false));

const BAD_VALUE: Wanted = Wanted::Says(Says::Refused(IocError::BadValue));

const PUT_DISABLED: Wanted = Wanted::Says(Says::Refused(IocError::PutDisabled));

// A record with a device whose answers are asynchronous, and one that is done at once.
const NOTIFIED: &[u8] = b"record(longin,\"p\"){field(INP,\"@d\")}\nrecord(longin,\"a\"){}\n";

// A chain of ten records, and one without links.
const TEN_AND_ONE: &[u8] = b"record(longin,\"c0\"){field(FLNK,\"c1\")}
record(longin,\"c1\"){field(FLNK,\"c2\")}
record(longin,\"c2\"){field(FLNK,\"c3\")}
record(longin,\"c3\"){field(FLNK,\"c4\")}
record(longin,\"c4\"){field(FLNK,\"c5\")}
record(longin,\"c5\"){field(FLNK,\"c6\")}
record(longin,\"c6\"){field(FLNK,\"c7\")}
record(longin,\"c7\"){field(FLNK,\"c8\")}
record(longin,\"c8\"){field(FLNK,\"c9\")}
record(longin,\"c9\"){}
record(longin,\"x\"){}
";

// A fanout that processes an event record 300 times, by fanouts that process it 16 and 256 times.
const MANY_EVENTS: &[u8] = b"record(event,\"e\"){field(VAL,\"1\")}
record(fanout,\"f\"){
  field(LNK0,\"e\") field(LNK1,\"e\") field(LNK2,\"e\") field(LNK3,\"e\")
  field(LNK4,\"e\") field(LNK5,\"e\") field(LNK6,\"e\") field(LNK7,\"e\")
  field(LNK8,\"e\") field(LNK9,\"e\") field(LNKA,\"e\") field(LNKB,\"e\")
  field(LNKC,\"e\") field(LNKD,\"e\") field(LNKE,\"e\") field(LNKF,\"e\")
}
record(fanout,\"g\"){
  field(LNK0,\"f\") field(LNK1,\"f\") field(LNK2,\"f\") field(LNK3,\"f\")
  field(LNK4,\"f\") field(LNK5,\"f\") field(LNK6,\"f\") field(LNK7,\"f\")
  field(LNK8,\"f\") field(LNK9,\"f\") field(LNKA,\"f\") field(LNKB,\"f\")
  field(LNKC,\"f\") field(LNKD,\"f\") field(LNKE,\"f\") field(LNKF,\"f\")
}
record(fanout,\"h\"){
  field(LNK0,\"g\") field(LNK1,\"f\") field(LNK2,\"f\") field(LNK3,\"e\")
  field(LNK4,\"e\") field(LNK5,\"e\") field(LNK6,\"e\") field(LNK7,\"e\")
  field(LNK8,\"e\") field(LNK9,\"e\") field(LNKA,\"e\") field(LNKB,\"e\")
  field(LNKC,\"e\") field(LNKD,\"e\") field(LNKE,\"e\")
}
record(longin,\"a\"){field(DISP,1)}
";

// Two records with devices whose answers are asynchronous, and a fanout that processes both.
const FANNED: &[u8] = b"record(fanout,\"f\"){field(LNK1,\"a\") field(LNK2,\"b\")}
record(longin,\"a\"){field(INP,\"@d\")}
record(longin,\"b\"){field(INP,\"@e\")}
";

// Calls of a desk.
static CALLS: [Session; 5] = [
    // A put to a record that awaits its device marks it for reprocessing, so its completion sends a
    // once request, which waits until the end. A put that is no request has no ticket.
    Session {
        name: "tickets of requests",
        text: b"record(longin,\"r\"){field(INP,\"@d\")}\n",
        later: &[b"d"],
        places: None,
        steps: &[
            Makes(Process(b"r"), PROCESSED),
            Makes(Put(b"r.VAL", b"7"), Wanted::Says(Says::Reprocess)),
            Makes(Complete(b"r", 1, 5), PLAIN),
            Makes(Get(b"r.RPRO"), Shows(b"0")),
            Makes(Process(b"r"), PROCESSED),
            Makes(Put(b"r.DESC", b"x"), PLAIN),
        ],
        end: &[AtEnd::Active(1), AtEnd::Tickets(1, 2, 1)],
    },
    // A call on a missing field, a field that can't be put, or a missing record takes no place in
    // the journal. A put that DISP forbids takes one.
    Session {
        name: "calls of one desk",
        text: b"record(longin,\"a\"){field(FLNK,\"b\")}\nrecord(longin,\"b\"){}\n",
        later: &[],
        places: None,
        steps: &[
            Makes(Put(b"a.VAL", b"5"), At(0, Says::Processed)),
            Makes(Get(b"a.VAL"), At(1, Says::Shown(b"5"))),
            Makes(Process(b"a"), At(2, Says::Processed)),
            Makes(Get(b"c.VAL"), Fails(IocError::NoRecord)),
            Makes(Put(b"a.PACT", b"1"), Fails(IocError::NoMod)),
            Makes(Get(b"a.RVAL"), Fails(IocError::NoField)),
            Makes(Put(b"a.DISP", b"1"), At(3, Says::Plain)),
            Makes(Put(b"a", b"6"), At(4, Says::Refused(IocError::PutDisabled))),
        ],
        end: &[
            AtEnd::Sets(1),
            AtEnd::Records(2),
            AtEnd::Devices(0),
            AtEnd::Counts(4, 0, 0),
        ],
    },
    // The alarm lasts down to 8, which is the limit less the hysteresis.
    Session {
        name: "hysteresis",
        text: b"record(longin,\"h\"){field(HIGH,10) field(HSV,MINOR) field(HYST,2)}\n",
        later: &[],
        places: None,
        steps: &[
            Makes(Put(b"h.VAL", b"10"), PROCESSED),
            Makes(Get(b"h.STAT"), Shows(b"HIGH")),
            Makes(Put(b"h.VAL", b"9"), PROCESSED),
            Makes(Get(b"h.STAT"), Shows(b"HIGH")),
            Makes(Put(b"h.VAL", b"7"), PROCESSED),
            Makes(Get(b"h.STAT"), Shows(b"NO_ALARM")),
        ],
        end: &[AtEnd::Sets(1), AtEnd::Records(1), AtEnd::Counts(3, 0, 0)],
    },
    Session {
        name: "refusals",
        text: b"record(longin,\"a\"){}\n",
        later: &[],
        places: None,
        steps: &[
            Makes(Get(b"z.VAL"), Fails(IocError::NoRecord)),
            Makes(Get(b"a.XYZ"), Fails(IocError::NoField)),
            Makes(Put(b"a.PACT", b"1"), Fails(IocError::NoMod)),
            Makes(Put(b"a.DISP", b"1"), PLAIN),
            Makes(Put(b"a.VAL", b"1"), PUT_DISABLED),
            Makes(Put(b"a.DISP", b"0"), PLAIN),
            Makes(Put(b"a.VAL", b"1x"), BAD_VALUE),
            Makes(Put(b"a.VAL", b"2147483648"), BAD_VALUE),
            Makes(SetLink(b"a.INP", b"a CP"), Fails(IocError::BadLink)),
        ],
        end: &[AtEnd::Sets(1), AtEnd::Records(1), AtEnd::Counts(0, 0, 0)],
    },
    // The journal has three places, and a call that fails takes none. When it is full, a call that
    // would take one fails, and when the engine is closed, each call does.
    Session {
        name: "places of a small journal",
        text: b"record(longin,\"a\"){}\n",
        later: &[],
        places: Some(3),
        steps: &[
            Makes(Put(b"a.VAL", b"1"), At(0, Says::Processed)),
            Makes(Put(b"a.VAL", b"2"), At(1, Says::Processed)),
            Makes(Put(b"a.PACT", b"1"), Fails(IocError::NoMod)),
            Makes(Put(b"a.VAL", b"3"), At(2, Says::Processed)),
            Makes(Put(b"a.VAL", b"4"), Fails(IocError::JournalFull)),
            Makes(Get(b"a.VAL"), Fails(IocError::JournalFull)),
            Makes(Put(b"a.PACT", b"1"), Fails(IocError::NoMod)),
            Closes,
            Makes(Get(b"a.VAL"), Fails(IocError::Stopped)),
            Makes(Put(b"a.PACT", b"1"), Fails(IocError::Stopped)),
        ],
        end: &[AtEnd::Records(1), AtEnd::Active(0), AtEnd::Counts(3, 0, 0)],
    },
];

// Checkpoints of the journal.
static CHECKPOINTS: [Session; 4] = [
    Session {
        name: "places after a checkpoint",
        text: b"record(longin,\"a\"){}\n",
        later: &[],
        places: Some(2),
        steps: &[
            Makes(Put(b"a.VAL", b"1"), At(0, Says::Processed)),
            Makes(Put(b"a.VAL", b"2"), At(1, Says::Processed)),
            Makes(Get(b"a.VAL"), Fails(IocError::JournalFull)),
            Checkpoint,
            Makes(Get(b"a.VAL"), At(2, Says::Shown(b"2"))),
        ],
        end: &[
            AtEnd::Counts(2, 0, 0),
            AtEnd::FirstPlace(2),
            AtEnd::Base(b"2", 0),
        ],
    },
    Session {
        name: "one checkpoint after the other",
        text: b"record(longin,\"a\"){}\n",
        later: &[],
        places: Some(1),
        steps: &[
            Checkpoint,
            Makes(Put(b"a.VAL", b"1"), At(0, Says::Processed)),
            Makes(Put(b"a.VAL", b"2"), Fails(IocError::JournalFull)),
            Checkpoint,
            Checkpoint,
            Makes(Put(b"a.VAL", b"3"), At(1, Says::Processed)),
            Makes(Put(b"a.VAL", b"4"), Fails(IocError::JournalFull)),
            Checkpoint,
            Makes(Put(b"a.VAL", b"5"), At(2, Says::Processed)),
        ],
        end: &[
            AtEnd::Counts(3, 0, 0),
            AtEnd::FirstPlace(2),
            AtEnd::Base(b"3", 0),
        ],
    },
    // The second put waits for the device at the checkpoint, and both end afterwards as ever.
    Session {
        name: "a put that waits at a checkpoint",
        text: NOTIFIED,
        later: &[b"d"],
        places: None,
        steps: &[
            Makes(PutNotify(b"p.VAL", b"7"), At(0, Says::Notify(1))),
            Makes(PutNotify(b"p.VAL", b"8"), At(1, Says::Notify(2))),
            Checkpoint,
            Makes(Call::Live(2), At(2, Says::Live(true))),
            Ends(Complete(b"p", 1, 5), At(3, Says::Plain), &[1]),
            Makes(Get(b"p.VAL"), Shows(b"8")),
            Ends(Complete(b"p", 2, 9), At(5, Says::Plain), &[2]),
            Makes(Call::Live(2), At(6, Says::Live(false))),
        ],
        end: &[
            AtEnd::Sets(2),
            AtEnd::Active(0),
            AtEnd::Counts(2, 2, 2),
            AtEnd::FirstPlace(2),
            AtEnd::Base(b"7", 1),
        ],
    },
    // Sets that were joined before a checkpoint part after it.
    Session {
        name: "link changes beside checkpoints",
        text: b"record(longin,\"a\"){}\nrecord(longin,\"b\"){}\n",
        later: &[],
        places: None,
        steps: &[
            Makes(SetLink(b"a.FLNK", b"b"), Moves(1)),
            Checkpoint,
            Parts(&[&[b"a", b"b"]]),
            Makes(Put(b"a.VAL", b"1"), At(1, Says::Processed)),
            Makes(SetLink(b"a.FLNK", b""), Moves(1)),
            Checkpoint,
            Parts(&[&[b"a"], &[b"b"]]),
            Makes(Process(b"a"), At(3, Says::Processed)),
        ],
        end: &[
            AtEnd::Sets(2),
            AtEnd::Counts(3, 0, 0),
            AtEnd::FirstPlace(3),
            AtEnd::Base(b"1", 0),
        ],
    },
];

// Link changes.
static LINK_CHANGES: [Session; 4] = [
    // An event sends 256 items and drops the others. A refused link change drops none.
    Session {
        name: "dropped items counted once",
        text: MANY_EVENTS,
        later: &[],
        places: None,
        steps: &[
            Makes(Process(b"h"), PROCESSED),
            Makes(SetLink(b"a.FLNK", b"h"), PUT_DISABLED),
            Makes(SetLink(b"a.FLNK", b"h"), PUT_DISABLED),
            Makes(SetLink(b"a.FLNK", b""), PUT_DISABLED),
        ],
        end: &[
            AtEnd::Sets(2),
            AtEnd::Counts(320, 0, 0),
            AtEnd::Dropped(44, 0),
        ],
    },
    Session {
        name: "moved by link changes",
        text: TEN_AND_ONE,
        later: &[],
        places: None,
        steps: &[
            Makes(SetLink(b"c2.FLNK", b""), Moves(3)),
            Parts(&[
                &[b"c0", b"c1", b"c2"],
                &[b"c3", b"c4", b"c5", b"c6", b"c7", b"c8", b"c9"],
                &[b"x"],
            ]),
            Makes(SetLink(b"c2.FLNK", b"x"), Moves(1)),
            Parts(&[
                &[b"c0", b"c1", b"c2", b"x"],
                &[b"c3", b"c4", b"c5", b"c6", b"c7", b"c8", b"c9"],
            ]),
            Makes(SetLink(b"c2.FLNK", b"c9"), Moves(4)),
            Parts(&[
                &[
                    b"c0", b"c1", b"c2", b"c3", b"c4", b"c5", b"c6", b"c7", b"c8", b"c9",
                ],
                &[b"x"],
            ]),
            Makes(SetLink(b"c9.FLNK", b"c0"), Moves(0)),
            Parts(&[
                &[
                    b"c0", b"c1", b"c2", b"c3", b"c4", b"c5", b"c6", b"c7", b"c8", b"c9",
                ],
                &[b"x"],
            ]),
        ],
        end: &[AtEnd::Sets(2), AtEnd::Records(11), AtEnd::Counts(0, 0, 0)],
    },
    Session {
        name: "joined and parted",
        text: b"record(longin,\"a\"){}\nrecord(longin,\"b\"){}\n",
        later: &[],
        places: None,
        steps: &[
            Parts(&[&[b"a"], &[b"b"]]),
            Makes(SetLink(b"a.INP", b"b"), PLAIN),
            Parts(&[&[b"a", b"b"]]),
            Makes(SetLink(b"a.INP", b""), PLAIN),
            Parts(&[&[b"a"], &[b"b"]]),
        ],
        end: &[AtEnd::Sets(2), AtEnd::Records(2), AtEnd::Counts(0, 0, 0)],
    },
    // The forward link is gone when the answer comes, so the other record isn't processed.
    Session {
        name: "completed after a link change",
        text: b"record(longin,\"a\"){field(INP,\"@d\") field(FLNK,\"b\")}
record(longin,\"b\"){}
",
        later: &[b"d"],
        places: None,
        steps: &[
            Makes(Process(b"a"), PROCESSED),
            Parts(&[&[b"a", b"b"]]),
            Makes(SetLink(b"a.FLNK", b""), PLAIN),
            Parts(&[&[b"a"], &[b"b"]]),
            Makes(Complete(b"a", 1, 4), PLAIN),
            Makes(Complete(b"a", 1, 4), STALE),
            Makes(Get(b"a.VAL"), Shows(b"4")),
        ],
        end: &[
            AtEnd::Sets(2),
            AtEnd::Devices(1),
            AtEnd::Active(0),
            AtEnd::Counts(1, 1, 1),
        ],
    },
];

// Puts with notification.
static PUTS: [Session; 4] = [
    // The put that awaits the device is live until the device answers. One that is done at once,
    // and one that processes nothing, end at once.
    Session {
        name: "live until done",
        text: NOTIFIED,
        later: &[b"d"],
        places: None,
        steps: &[
            Makes(PutNotify(b"p.VAL", b"7"), At(0, Says::Notify(1))),
            Makes(Call::Live(1), At(1, Says::Live(true))),
            Ends(Complete(b"p", 1, 5), At(2, Says::Plain), &[1]),
            Makes(Call::Live(1), At(3, Says::Live(false))),
            Ends(PutNotify(b"a.VAL", b"7"), At(4, Says::Notify(2)), &[2]),
            Makes(Call::Live(2), At(5, Says::Live(false))),
            Ends(PutNotify(b"a.DESC", b"x"), At(6, Says::Notify(3)), &[3]),
        ],
        end: &[
            AtEnd::Sets(2),
            AtEnd::Records(2),
            AtEnd::Active(0),
            AtEnd::Counts(2, 1, 1),
        ],
    },
    // The put that awaits the device is canceled: it isn't live any more and can't be canceled
    // again, and the record's set is there for the answer of the device.
    Session {
        name: "over when given up",
        text: NOTIFIED,
        later: &[b"d"],
        places: None,
        steps: &[
            Makes(PutNotify(b"p.VAL", b"7"), At(0, Says::Notify(1))),
            Makes(Cancel(1), At(1, Says::Plain)),
            Makes(Call::Live(1), At(2, Says::Live(false))),
            Makes(Cancel(1), At(3, Says::Refused(IocError::Stale))),
            Makes(Complete(b"p", 1, 5), At(4, Says::Plain)),
            Parts(&[&[b"p"], &[b"a"]]),
        ],
        end: &[
            AtEnd::Records(2),
            AtEnd::Devices(1),
            AtEnd::Active(0),
            AtEnd::Counts(1, 1, 1),
        ],
    },
    // The second put waits for the device, is stored when the first has ended, and waits again.
    Session {
        name: "one put after the other",
        text: b"record(longin,\"a\"){}
record(longin,\"p\"){field(INP,\"@d\")}
record(fanout,\"f\"){field(LNK1,\"a\") field(LNK2,\"p\")}
",
        later: &[b"d"],
        places: None,
        steps: &[
            Makes(PutNotify(b"f.VAL", b"1"), FIRST),
            Makes(PutNotify(b"p.VAL", b"7"), SECOND),
            Ends(Complete(b"p", 1, 5), PLAIN, &[1]),
            Makes(Get(b"p.VAL"), Shows(b"7")),
            Ends(Complete(b"p", 2, 8), PLAIN, &[2]),
            Makes(Get(b"p.VAL"), Shows(b"8")),
            Makes(Cancel(2), STALE),
        ],
        end: &[
            AtEnd::Sets(1),
            AtEnd::Records(3),
            AtEnd::Active(0),
            AtEnd::Counts(4, 2, 2),
        ],
    },
    // A put with notification that is refused isn't live, and changes nothing.
    Session {
        name: "refused puts with notification",
        text: b"record(longin,\"a\"){}\n",
        later: &[],
        places: None,
        steps: &[
            Makes(PutNotify(b"a.PACT", b"1"), Fails(IocError::NoMod)),
            Makes(PutNotify(b"a.VAL", b"1x"), BAD_VALUE),
            Makes(Put(b"a.DISP", b"1"), PLAIN),
            Makes(PutNotify(b"a.VAL", b"1"), PUT_DISABLED),
            Makes(Call::Live(1), IS_OVER),
            Makes(Get(b"a.VAL"), Shows(b"0")),
        ],
        end: &[AtEnd::Sets(1), AtEnd::Records(1), AtEnd::Counts(0, 0, 0)],
    },
];

// Puts with notification whose records come to other sets.
static PUTS_OVER_LINK_CHANGES: [Session; 4] = [
    Session {
        name: "joined while a put is live",
        text: NOTIFIED,
        later: &[b"d"],
        places: None,
        steps: &[
            Makes(PutNotify(b"p.VAL", b"3"), FIRST),
            Makes(SetLink(b"a.INP", b"p"), PLAIN),
            Ends(Complete(b"p", 1, 4), PLAIN, &[1]),
            Parts(&[&[b"p", b"a"]]),
        ],
        end: &[
            AtEnd::Sets(1),
            AtEnd::Devices(1),
            AtEnd::Active(0),
            AtEnd::Counts(1, 1, 1),
        ],
    },
    // Two records of two sets are part of the put, which ends when both are done.
    Session {
        name: "a put in two sets",
        text: FANNED,
        later: &[b"d", b"e"],
        places: None,
        steps: &[
            Makes(PutNotify(b"f.VAL", b"1"), FIRST),
            Parts(&[&[b"f", b"a", b"b"]]),
            Makes(SetLink(b"f.LNK1", b""), Moves(1)),
            Parts(&[&[b"f", b"b"], &[b"a"]]),
            Makes(Call::Live(1), IS_LIVE),
            Makes(Complete(b"a", 1, 4), PLAIN),
            Makes(Call::Live(1), IS_LIVE),
            Ends(Complete(b"b", 1, 5), PLAIN, &[1]),
            Makes(Call::Live(1), IS_OVER),
            Makes(Get(b"a.VAL"), Shows(b"4")),
            Makes(Get(b"b.VAL"), Shows(b"5")),
        ],
        end: &[
            AtEnd::Sets(2),
            AtEnd::Devices(2),
            AtEnd::Active(0),
            AtEnd::Counts(3, 2, 2),
        ],
    },
    // The put is given up in both sets, and doesn't end.
    Session {
        name: "canceled in two sets",
        text: FANNED,
        later: &[b"d", b"e"],
        places: None,
        steps: &[
            Makes(PutNotify(b"f.VAL", b"1"), FIRST),
            Makes(SetLink(b"f.LNK1", b""), Moves(1)),
            Makes(Cancel(1), PLAIN),
            Makes(Call::Live(1), IS_OVER),
            Makes(Complete(b"a", 1, 4), PLAIN),
            Makes(Complete(b"b", 1, 5), PLAIN),
            Makes(Cancel(1), STALE),
        ],
        end: &[
            AtEnd::Sets(2),
            AtEnd::Devices(2),
            AtEnd::Active(0),
            AtEnd::Counts(3, 2, 2),
        ],
    },
    // The second record becomes part of the put when the first one is done, and stays so when they
    // are parted. The first one isn't part of it any more.
    Session {
        name: "a put that goes along a forward link",
        text: b"record(longin,\"a\"){field(INP,\"@d\") field(FLNK,\"b\")}
record(longin,\"b\"){field(INP,\"@e\")}
",
        later: &[b"d", b"e"],
        places: None,
        steps: &[
            Makes(PutNotify(b"a.VAL", b"3"), FIRST),
            Makes(Complete(b"a", 1, 4), PLAIN),
            Makes(SetLink(b"a.FLNK", b""), Moves(1)),
            Parts(&[&[b"a"], &[b"b"]]),
            Makes(Process(b"a"), PROCESSED),
            Makes(Complete(b"a", 2, 6), PLAIN),
            Makes(Call::Live(1), IS_LIVE),
            Ends(Complete(b"b", 1, 5), PLAIN, &[1]),
            Makes(Call::Live(1), IS_OVER),
        ],
        end: &[
            AtEnd::Sets(2),
            AtEnd::Devices(2),
            AtEnd::Active(0),
            AtEnd::Counts(3, 3, 3),
        ],
    },
];

// More of them, and a stop while a put with notification is live.
static MORE_PUTS_OVER_LINK_CHANGES: [Session; 3] = [
    // The record that the first one reads is processed for the put too. Both await their devices
    // when they are parted.
    Session {
        name: "a put that goes along a link that is read",
        text: b"record(longin,\"a\"){field(INP,\"@d\") field(SDIS,\"b PP\")}
record(longin,\"b\"){field(INP,\"@e\")}
",
        later: &[b"d", b"e"],
        places: None,
        steps: &[
            Makes(PutNotify(b"a.VAL", b"3"), FIRST),
            Makes(SetLink(b"a.SDIS", b""), Moves(1)),
            Parts(&[&[b"a"], &[b"b"]]),
            Makes(Complete(b"b", 1, 5), PLAIN),
            Makes(Call::Live(1), IS_LIVE),
            Ends(Complete(b"a", 1, 4), PLAIN, &[1]),
            Makes(Call::Live(1), IS_OVER),
        ],
        end: &[
            AtEnd::Sets(2),
            AtEnd::Devices(2),
            AtEnd::Active(0),
            AtEnd::Counts(2, 2, 2),
        ],
    },
    // A put that waits goes with its record to another set and back.
    Session {
        name: "a waiting put in another set",
        text: NOTIFIED,
        later: &[b"d"],
        places: None,
        steps: &[
            Makes(PutNotify(b"p.VAL", b"3"), FIRST),
            Makes(PutNotify(b"p.VAL", b"7"), SECOND),
            Makes(SetLink(b"a.INP", b"p"), Moves(1)),
            Parts(&[&[b"p", b"a"]]),
            Ends(Complete(b"p", 1, 4), PLAIN, &[1]),
            Makes(Get(b"p.VAL"), Shows(b"7")),
            Makes(SetLink(b"a.INP", b""), Moves(1)),
            Makes(Call::Live(2), IS_LIVE),
            Ends(Complete(b"p", 2, 8), PLAIN, &[2]),
            Makes(Get(b"p.VAL"), Shows(b"8")),
        ],
        end: &[
            AtEnd::Sets(2),
            AtEnd::Devices(1),
            AtEnd::Active(0),
            AtEnd::Counts(2, 2, 2),
        ],
    },
    // A record awaits its device, and a put with notification is live, when the engine is stopped.
    Session {
        name: "stopped while a record awaits its device",
        text: b"record(longin,\"p\"){field(INP,\"@d\")}
record(longin,\"q\"){field(INP,\"@e\")}
",
        later: &[b"d", b"e"],
        places: None,
        steps: &[
            Makes(Process(b"p"), PROCESSED),
            Makes(Complete(b"p", 1, 7), PLAIN),
            Makes(PutNotify(b"q.VAL", b"3"), FIRST),
            Makes(Call::Live(1), IS_LIVE),
        ],
        end: &[
            AtEnd::Sets(2),
            AtEnd::Records(2),
            AtEnd::Devices(2),
            AtEnd::Active(1),
            AtEnd::Counts(2, 2, 1),
        ],
    },
];

/// Returns all sessions.
pub fn sessions() -> [&'static [Session]; 8] {
    [
        &CALLS,
        &CHECKPOINTS,
        &LINK_CHANGES,
        &PUTS,
        &PUTS_OVER_LINK_CHANGES,
        &MORE_PUTS_OVER_LINK_CHANGES,
        &SCANS,
        &WATCHED,
    ]
}
