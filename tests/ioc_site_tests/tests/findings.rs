//! What is found in records, lock sets and pictures of them.
use ioc_site::{Entry, EntryKind, Place, Reading, RecordText, Severity, Statement, Word};
use ioc_site_rules::{add_picture, add_sets, check, put_in_order};
use std::alloc::{AllocError, Global};
use std::fmt::Write;
use std::test::*;

/// A record as it is written: its type, its name, and its fields with their values.
type Written = (
    &'static str,
    &'static str,
    &'static [(&'static str, &'static str)],
);

// Returns a quoted word.
fn word(alloc: Global, text: &str, line: u32, column: u32) -> Result<Word, AllocError> {
    Ok(Word {
        text: text.as_bytes().to_vec(alloc)?,
        place: Place {
            file: 0,
            line,
            column,
        },
        quoted: true,
    })
}

// Returns a record on a line of its own. The names of its fields are in columns 30, 50 and so on.
fn record(alloc: Global, written: &Written, line: u32) -> Result<RecordText, AllocError> {
    let (record_type, name, fields) = *written;
    let mut entries = Vec::new(alloc);
    let mut column = 30u32;
    for (field, value) in fields {
        entries.push(Entry {
            kind: EntryKind::Field,
            name: word(alloc, field, line, column)?,
            value: word(alloc, value, line, column.saturating_add(10))?,
        })?;
        column = column.saturating_add(20);
    }
    Ok(RecordText {
        place: Place {
            file: 0,
            line,
            column: 1,
        },
        record_type: word(alloc, record_type, line, 8)?,
        name: word(alloc, name, line, 16)?,
        entries,
        aliases: Vec::new(alloc),
        lacks_entries: false,
    })
}

// Returns what is read of a file with these records, one a line.
fn reading(alloc: Global, records: &[Written]) -> Result<Reading, AllocError> {
    let mut statements = Vec::new(alloc);
    let mut line = 0u32;
    for written in records {
        line = line.saturating_add(1);
        statements.push(Statement::Record(record(alloc, written, line)?))?;
    }
    let mut files = Vec::new(alloc);
    files.push(b"x.db".to_vec(alloc)?)?;
    Ok(Reading {
        files,
        texts: Vec::new(alloc),
        statements,
        findings: Vec::new(alloc),
        first_loss: None,
    })
}

// Returns what is found in these records, one finding a line.
fn found(alloc: Global, records: &[Written]) -> Result<String, AllocError> {
    let reading = reading(alloc, records)?;
    let mut findings = check(alloc, &reading)?;
    put_in_order(alloc, &mut findings)?;
    let mut text = String::new(alloc);
    for finding in findings.iter() {
        let severity = match finding.severity {
            Severity::Error => "error",
            Severity::Warning => "warning",
        };
        let said = String::from_utf8_lossy(alloc, finding.text.as_slice())?;
        let (line, column) = (finding.place.line, finding.place.column);
        writeln!(text, "{line}:{column} {severity}: {said}")?;
    }
    Ok(text)
}

static VALVE: [Written; 4] = [
    (
        "longin",
        "level",
        &[("INP", "@gauge"), ("SCAN", "1 second"), ("FLNK", "copy")],
    ),
    ("longin", "copy", &[("INP", "level MS")]),
    ("bo", "valve", &[("OUT", "@valve"), ("SDIS", "level.SEVR")]),
    ("stringin", "note", &[("VAL", "a \"note\"")]),
];

static MISTAKES: [Written; 5] = [
    ("longinn", "a", &[]),
    (
        "longin",
        "b",
        &[("VALL", "1"), ("SCAN", "1 secnd"), ("VAL", "1.5")],
    ),
    ("longin", "c", &[("INP", "b CP"), ("FLNK", "d")]),
    ("longin", "d", &[("FLNK", "e"), ("VAL", "1"), ("VAL", "2")]),
    ("longin", "e", &[("FLNK", "d"), ("SDIS", "levell")]),
];

#[test]
fn finds_nothing(rt: HostRuntime) -> Result<(), AllocError> {
    assert_eq!(rt; found(rt.alloc(), &VALVE)?.as_str(), "");
    Ok(())
}

#[test]
fn finds_mistakes(rt: HostRuntime) -> Result<(), AllocError> {
    let wanted = "\
1:8 error: record type 'longinn' is unknown; did you mean longin?
2:30 error: record b (longin) has no field VALL; did you mean VAL?
2:60 error: SCAN of record b has no choice '1 secnd'; did you mean 1 second?
2:80 error: VAL of record b takes a whole number, and '1.5' is none
3:40 error: INP of record c: 'b CP' has the word CP, which is left out here; name this record in FLNK of that one, or give it a SCAN
4:40 warning: records process each other in a cycle: d -> e -> d
4:70 warning: field VAL of record d is set on line 4 too, and this value stands
5:60 warning: SDIS of record e names levell, and there is no such record
";
    assert_eq!(rt; found(rt.alloc(), &MISTAKES)?.as_str(), wanted);
    Ok(())
}

#[test]
fn shows_lock_sets(rt: HostRuntime) -> Result<(), AllocError> {
    let alloc = rt.alloc();
    let mut out = Vec::new(alloc);
    add_sets(alloc, &reading(alloc, &VALVE)?, &mut out)?;
    let wanted = b"3 records: level copy valve\n1 record: note\n";
    assert!(rt; out.as_slice() == wanted.as_slice());
    Ok(())
}

#[test]
fn draws_a_picture(rt: HostRuntime) -> Result<(), AllocError> {
    let alloc = rt.alloc();
    let mut text = String::new(alloc);
    let two = [VALVE[0], VALVE[1]];
    add_picture(alloc, &reading(alloc, &two)?, &mut text)?;
    let wanted = "\
digraph site {
  rankdir=LR;
  node [shape=box, style=filled];
  subgraph cluster_0 {
    \"level\" [label=\"level\\nlongin\", fillcolor=\"#cfe2f3\"];
    \"copy\" [label=\"copy\\nlongin\", fillcolor=\"#cfe2f3\"];
  }
  \"level\" -> \"copy\" [label=\"FLNK\", style=bold];
  \"copy\" -> \"level\" [label=\"INP\", style=dashed, dir=back, color=red];
}
";
    assert_eq!(rt; text.as_str(), wanted);
    Ok(())
}
