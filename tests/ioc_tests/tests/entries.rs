//! The lines of a journal: each entry and each part of a base has its line, which reads back as it.
use ioc_dbcommon::{FieldAddress, Lead, LinkField};
use ioc_device::Answer;
use ioc_events::{Call, Event, Reply};
use ioc_fields::{FieldNo, FieldSlot, OwnField};
use ioc_journal_file::{
    BaseItem, HiddenState, LineError, Mark, NextFile, Part, add_item, add_next, item_of, next_of,
    parse, print, print_entry,
};
use ioc_ledger::Outcome;
use ioc_links::{Flags, Link, Mode, Target};
use ioc_names::RecordNo;
use ioc_notify::NotifyId;
use ioc_values::{Double, Finished, Input, IocError, Short, Value};
use std::alloc::{AllocError, Global};
use std::test::*;

const VAL: FieldNo = FieldNo::Own(OwnField::Val);

// Returns whether the entry has this line, and the line reads back as an entry with the same line.
fn has_line(
    alloc: Global,
    call: &Call,
    answers: &[Answer],
    wanted: &[u8],
) -> Result<bool, LineError> {
    let mark = Mark {
        place: 7,
        desk: 2,
        call: 3,
        moment: 1_700_000_000_000_000_000,
    };
    let mut out = Vec::new(alloc);
    print_entry(&mark, call, answers, &mut out)?;
    let read = parse(out.as_slice(), alloc)?;
    let mut again = Vec::new(alloc);
    print(&read, &mut again)?;
    Ok(out.as_slice() == wanted && again.as_slice() == wanted && read.mark == mark)
}

#[test]
fn events(rt: HostRuntime) -> Result<(), LineError> {
    let put = Event::Put {
        record: RecordNo::new(5),
        field: VAL,
        value: Input::Value(Value::Long(-12)),
    };
    assert!(rt;
        has_line(
            rt.alloc(),
            &Call::Event(put, Reply::Outcome(Outcome::Processed)),
            &[Answer::Done(Value::Int64(-3)), Answer::Fault, Answer::Later],
            b"7\t2\t3\t1700000000000000000\tput\t5\tVAL\tlong\t-12\tprocessed\t3\tint64\t-3\tfault\tlater\n",
        )?
    );
    let notify = Event::Notify {
        record: RecordNo::new(0),
        notification: NotifyId::new(9),
        field: FieldNo::Own(OwnField::StateText(FieldSlot::N3)),
        value: Input::LongText(Short::cut(b"a \"b\"\\\t\n")),
    };
    assert!(rt;
        has_line(
            rt.alloc(),
            &Call::Event(notify, Reply::Notify(NotifyId::new(9))),
            &[],
            b"7\t2\t3\t1700000000000000000\tnotify\t0\t9\tTHST\tlongtext\t\"a \\22b\\22\\5c\\09\\0a\"\tnotify\t9\t0\n",
        )?
    );
    let complete = Event::Complete {
        record: RecordNo::new(1),
        wait: 4,
        finished: Finished::Fault,
    };
    assert!(rt;
        has_line(
            rt.alloc(),
            &Call::Event(complete, Reply::Refused(IocError::Stale)),
            &[],
            b"7\t2\t3\t1700000000000000000\tcomplete\t1\t4\tfault\tE8 Stale\t0\n",
        )?
    );
    Ok(())
}

#[test]
fn other_calls(rt: HostRuntime) -> Result<(), LineError> {
    assert!(rt;
        has_line(
            rt.alloc(),
            &Call::Get(RecordNo::new(1), VAL, Ok(Short::cut(b"12"))),
            &[],
            b"7\t2\t3\t1700000000000000000\tget\t1\tVAL\t\"12\"\t0\n",
        )?
    );
    assert!(rt;
        has_line(
            rt.alloc(),
            &Call::IsLive(NotifyId::new(1), true),
            &[],
            b"7\t2\t3\t1700000000000000000\tlive\t1\tyes\t0\n",
        )?
    );
    let link = LinkField {
        link: Link::Database(
            Target {
                record_name: Short::cut(b"b"),
                field: Short::cut(b"VAL"),
            },
            Flags {
                process_passive: true,
                mode: Mode::Mss,
            },
        ),
        lead: Lead::Field(FieldAddress {
            number: RecordNo::new(2),
            field: VAL,
        }),
    };
    assert!(rt;
        has_line(
            rt.alloc(),
            &Call::Link(RecordNo::new(1), FieldNo::Own(OwnField::Inp), link, Ok(())),
            &[],
            b"7\t2\t3\t1700000000000000000\tlink\t1\tINP\tdatabase\t\"b\"\t\"VAL\"\tPP\tMSS\tto\t2\tVAL\tdone\t0\n",
        )?
    );
    Ok(())
}

#[test]
fn doubles(rt: HostRuntime) -> Result<(), LineError> {
    let doubles = [
        (0x4004_0000_0000_0000, "4004000000000000"),
        (0x8000_0000_0000_0000, "8000000000000000"),
        (0xfff0_0000_0000_0000, "fff0000000000000"),
        (0x0000_0000_0000_0001, "0000000000000001"),
        (0xfff8_0000_0000_00ab, "7ff8000000000000"),
        (0x3fb9_9999_9999_999a, "3fb999999999999a"),
    ];
    for (bits, digits) in doubles {
        let complete = Event::Complete {
            record: RecordNo::new(1),
            wait: 4,
            finished: Finished::Done(Value::Double(Double::from_bits(bits))),
        };
        let mut wanted = Vec::new(rt.alloc());
        wanted.extend_from_slice(b"7\t2\t3\t1700000000000000000\tcomplete\t1\t4\tdouble\t")?;
        wanted.extend_from_slice(digits.as_bytes())?;
        wanted.extend_from_slice(b"\tdone\t0\n")?;
        assert!(rt;
            has_line(
                rt.alloc(),
                &Call::Event(complete, Reply::Plain),
                &[],
                wanted.as_slice(),
            )?
        );
    }
    Ok(())
}

#[test]
fn real_constants(rt: HostRuntime) -> Result<(), LineError> {
    let link = LinkField {
        link: Link::Real(Short::cut(b"-.5E-3")),
        lead: Lead::Nowhere,
    };
    assert!(rt;
        has_line(
            rt.alloc(),
            &Call::Link(RecordNo::new(1), FieldNo::Own(OwnField::Inp), link, Ok(())),
            &[],
            b"7\t2\t3\t1700000000000000000\tlink\t1\tINP\treal\t\"-.5E-3\"\tnowhere\tdone\t0\n",
        )?
    );
    Ok(())
}

#[test]
fn calls_without_records(rt: HostRuntime) -> Result<(), LineError> {
    assert!(rt;
        has_line(
            rt.alloc(),
            &Call::Post(Short::cut(b"end of fill"), 3),
            &[],
            b"7\t2\t3\t1700000000000000000\tpost\t\"end of fill\"\t3\t0\n",
        )?
    );
    assert!(rt;
        has_line(
            rt.alloc(),
            &Call::Interrupt(Short::cut(b"card 1"), 0),
            &[],
            b"7\t2\t3\t1700000000000000000\tinterrupt\t\"card 1\"\t0\t0\n",
        )?
    );
    Ok(())
}

#[test]
fn no_lines(rt: HostRuntime) {
    for line in [
        b"".as_slice(),
        b"\n",
        b"7\t2\t3\t17\tlive\t1\tyes\t0",
        b"7\t2\t3\t17\tlive\t1\tyes\t0\n\n",
        b"07\t2\t3\t17\tlive\t1\tyes\t0\n",
        b"7\t2\t3\t17\tlive\t1\tmaybe\t0\n",
        b"7\t2\t3\t17\tlive\t1\tyes\t1\n",
        b"7\t2\t3\t17\tget\t1\tVAL\t\"12\t0\n",
        b"7\t2\t3\t17\tcomplete\t1\t4\tdouble\t7FF8000000000000\tdone\t0\n",
        b"7\t2\t3\t17\tcomplete\t1\t4\tdouble\t7ff8000000000001\tdone\t0\n",
        b"7\t2\t3\t17\tcomplete\t1\t4\tdouble\t400400000000000\tdone\t0\n",
    ] {
        assert!(rt; matches!(parse(line, rt.alloc()), Err(LineError::NotALine)));
    }
}

// Whether this part of a base has this line, which reads back as it.
fn has_item_line(alloc: Global, item: &BaseItem, line: &[u8]) -> Result<bool, AllocError> {
    let mut text = Vec::new(alloc);
    add_item(&mut text, item)?;
    let read = item_of(alloc, line)?;
    Ok(text.as_slice() == line && read == Some(*item))
}

#[test]
fn lines_of_bases(rt: HostRuntime) -> Result<(), AllocError> {
    let value = Part::Value(Value::Double(Double::from_bits(4_609_434_218_613_702_656)));
    let field = BaseItem::Field(RecordNo::new(5), FieldNo::Own(OwnField::High), value);
    assert!(rt;
        has_item_line(
            rt.alloc(),
            &field,
            b"base\t5\tHIGH\tdouble\t3ff8000000000000\n"
        )?
    );
    let link = Part::Link(LinkField {
        link: Link::Constant(-3),
        lead: Lead::Nowhere,
    });
    let field = BaseItem::Field(RecordNo::new(0), FieldNo::Own(OwnField::Inp), link);
    assert!(rt; has_item_line(rt.alloc(), &field, b"base\t0\tINP\tconstant\t-3\tnowhere\n")?);
    let state = HiddenState {
        time: 17,
        pending: Some(4),
        last_pending: 4,
        last_change: 0,
        notification: None,
    };
    let item = BaseItem::State(RecordNo::new(5), state);
    assert!(rt; has_item_line(rt.alloc(), &item, b"state\t5\t17\t4\t4\t0\tnone\n")?);
    assert!(rt; has_item_line(rt.alloc(), &BaseItem::Desk(2, 9), b"desk\t2\t9\n")?);
    Ok(())
}

#[test]
fn lines_of_next_files(rt: HostRuntime) -> Result<(), AllocError> {
    let next = NextFile {
        name: Short::cut(b"a\tb.journal.2"),
        place: 4096,
    };
    let mut line = Vec::new(rt.alloc());
    add_next(&mut line, &next)?;
    assert!(rt; line.as_slice() == b"next\t\"a\\09b.journal.2\"\t4096\n".as_slice());
    let read = next_of(rt.alloc(), line.as_slice())?;
    assert!(rt;
        matches!(&read, Some(read) if read.place == 4096 && read.name.as_slice() == next.name.as_slice())
    );
    assert!(rt; next_of(rt.alloc(), b"next\ta.2\t4096\n")?.is_none());
    Ok(())
}
