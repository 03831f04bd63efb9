//! What is written of statements.
use ioc_site::{Entry, EntryKind, Finding, Place, RecordText, Statement, Word};
use ioc_site_writer::write_database;
use std::alloc::{AllocError, Global};
use std::test::Fail;

const PLACE: Place = Place {
    file: 0,
    line: 1,
    column: 1,
};

fn word(alloc: Global, text: &str) -> Result<Word, AllocError> {
    Ok(Word {
        text: text.as_bytes().to_vec(alloc)?,
        place: PLACE,
        quoted: true,
    })
}

/// Returns a record with fields and an alias.
fn record(
    alloc: Global,
    record_type: &str,
    name: &str,
    fields: &[(&str, &str)],
    alias: &str,
) -> Result<Statement, AllocError> {
    let mut entries = Vec::new(alloc);
    for (name, value) in fields {
        let kind = EntryKind::Field;
        let name = word(alloc, name)?;
        let value = word(alloc, value)?;
        entries.push(Entry { kind, name, value })?;
    }
    let mut aliases = Vec::new(alloc);
    if !alias.is_empty() {
        aliases.push(word(alloc, alias)?)?;
    }
    Ok(Statement::Record(RecordText {
        place: PLACE,
        record_type: word(alloc, record_type)?,
        name: word(alloc, name)?,
        entries,
        aliases,
        lacks_entries: false,
    }))
}

/// Returns `alias(RECORD, ALIAS)`.
fn alias(alloc: Global, record: &str, alias: &str) -> Result<Statement, AllocError> {
    Ok(Statement::Alias {
        record: word(alloc, record)?,
        alias: word(alloc, alias)?,
    })
}

/// Returns the texts of findings, each on a line.
fn texts_of(alloc: Global, findings: &[Finding]) -> Result<String, AllocError> {
    let mut lines = Vec::new(alloc);
    for finding in findings {
        lines.extend_from_slice(finding.text.as_slice())?;
        lines.push(b'\n')?;
    }
    String::from_utf8_lossy(alloc, lines.as_slice())
}

#[test]
fn writes_what_load_takes(rt: HostRuntime) -> Result<(), Fail> {
    let alloc = rt.alloc();
    let fields = [
        ("VAL", "0x1F"),
        ("EGU", "a\"\\b\n"),
        ("NONE", "1"),
        ("HIGH", ""),
        ("HIHI", "x"),
        ("DESC", "$(P)"),
        ("INP", " 0x10 "),
    ];
    let mut statements = Vec::new(alloc);
    statements.push(record(alloc, "longin", "a", &fields, "b")?)?;
    statements.push(record(alloc, "waveform", "w", &[], "v")?)?;
    statements.push(record(alloc, "longout", "a", &[], "")?)?;
    statements.push(record(alloc, "*", "a", &[("LOW", "+1")], "a")?)?;
    statements.push(record(alloc, "*", "none", &[], "")?)?;
    statements.push(record(alloc, "longin", "a.b", &[], "")?)?;
    statements.push(alias(alloc, "b", "c")?)?;
    statements.push(alias(alloc, "none", "d")?)?;
    let written = write_database(alloc, statements.as_slice()).map_err(|_| Fail::from("refused"))?;
    let expected =
        "record(longin, \"a\") {\n  field(\"VAL\", \"31\")\n  field(\"EGU\", \"a\\\"\\\\b\\n\")\n\
            \x20 field(\"HIGH\", \"0\")\n  field(\"INP\", \"16\")\n  alias(\"b\")\n}\n\
            record(\"*\", \"a\") {\n  field(\"LOW\", \"1\")\n}\nalias(\"b\", \"c\")\n";
    let text = String::from_utf8_lossy(alloc, written.text.as_slice())?;
    assert_eq!(rt; text.as_str(), expected);
    let expected = "dropped field(DESC): its text begins a macro\ndropped record(w): unknown type\n\
            dropped record(none): no record\ndropped record(a.b): bad name\n\
            dropped field(NONE): unknown field\ndropped field(HIHI): bad value\n\
            dropped record(a): duplicate\ndropped alias(a): duplicate\ndropped alias(d): no record\n";
    let dropped = texts_of(alloc, written.dropped.as_slice())?;
    assert_eq!(rt; dropped.as_str(), expected);
    Ok(())
}
