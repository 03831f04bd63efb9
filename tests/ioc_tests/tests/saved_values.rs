//! Files of saved values, lines of a request file, and the blocks of a database that set saved values.
use ioc_saved::{
    RequestLine, SavedFault, SavedText, SavedValue, add_block, add_saved, begin_saved, end_saved,
    has_block, parse_saved, request_line, saved_in,
};
use ioc_values::{FieldName, Name};
use std::alloc::Global;
use std::test::*;

fn saved(record: &[u8], field: &[u8], value: &[u8]) -> SavedValue {
    SavedValue {
        record_name: Name::cut(record),
        field: FieldName::cut(field),
        value: SavedText::cut(value),
    }
}

#[test]
fn a_file_of_two_values(rt: HostRuntime) -> Result<(), SavedFault> {
    let mut out = Vec::new(rt.alloc());
    begin_saved(&mut out, 1207)?;
    add_saved(&mut out, &saved(b"plant:level", b"HIGH", b"40"))?;
    add_saved(&mut out, &saved(b"plant:unit", b"VAL", b""))?;
    end_saved(&mut out)?;
    let head = b"# Saved values of channels, as of the place 1207 of the journal\n".as_slice();
    let rest = b"plant:level.HIGH 40\nplant:unit.VAL \n<END>\n".as_slice();
    assert!(rt; out.as_slice().starts_with(head));
    assert!(rt; out.as_slice().ends_with(rest));
    assert!(rt; out.len() == head.len() + rest.len());
    let read = parse_saved(rt.alloc(), out.as_slice())?;
    assert!(rt; read.len() == 2);
    assert!(rt; read[0].record_name.as_slice() == b"plant:level".as_slice());
    assert!(rt; read[0].field.as_slice() == b"HIGH".as_slice());
    assert!(rt; read[0].value.as_slice() == b"40".as_slice());
    assert!(rt; read[1].value.as_slice() == b"".as_slice());
    Ok(())
}

#[test]
fn a_value_with_escapes(rt: HostRuntime) -> Result<(), SavedFault> {
    let value = b"a b\n\r\t\\\x1b\x7f".as_slice();
    let mut out = Vec::new(rt.alloc());
    let note = saved(b"plant:note", b"VAL", value);
    assert!(rt; note.is_saveable());
    add_saved(&mut out, &note)?;
    end_saved(&mut out)?;
    let wanted = b"plant:note.VAL a b\\n\\r\\t\\\\\\x1b\\x7f\n<END>\n".as_slice();
    assert!(rt; out.as_slice() == wanted);
    let read = parse_saved(rt.alloc(), out.as_slice())?;
    assert!(rt; read.len() == 1);
    assert!(rt; read[0].value.as_slice() == value);
    Ok(())
}

fn fault(alloc: Global, text: &[u8]) -> Option<SavedFault> {
    match parse_saved(alloc, text) {
        Ok(_) => None,
        Err(fault) => Some(fault),
    }
}

#[test]
fn files_that_are_not_taken(rt: HostRuntime) {
    let alloc = rt.alloc();
    assert!(rt; fault(alloc, b"! from autosave\n\n# a\nA.B \\x4A\n<END>\n").is_none());
    assert!(rt; fault(alloc, b"") == Some(SavedFault::NoEnd));
    assert!(rt; fault(alloc, b"A.B 1\n<END>") == Some(SavedFault::NoEnd));
    assert!(rt; fault(alloc, b"A.B 1\n<EN") == Some(SavedFault::NoEnd));
    assert!(rt; fault(alloc, b"<END>\nA.B 1\n") == Some(SavedFault::NoEnd));
    assert!(rt; fault(alloc, b"<END>\nA.B 1\n<END>\n") == Some(SavedFault::BadLine(1)));
    assert!(rt; fault(alloc, b"A.B 1\n\nAB 1\n<END>\n") == Some(SavedFault::BadLine(3)));
    assert!(rt; fault(alloc, b"A.B \\q\n<END>\n") == Some(SavedFault::BadLine(1)));
    assert!(rt; fault(alloc, b".B 1\n<END>\n") == Some(SavedFault::BadLine(1)));
    assert!(rt; fault(alloc, b"A.ABCDEFGHI 1\n<END>\n") == Some(SavedFault::BadLine(1)));
}

fn asks_for(line: &[u8], record: &[u8], field: &[u8]) -> bool {
    match request_line(line) {
        RequestLine::Channel(name, of) => name.as_slice() == record && of.as_slice() == field,
        _ => false,
    }
}

#[test]
fn lines_of_a_request_file(rt: HostRuntime) {
    assert!(rt; asks_for(b"plant:level.HIGH\r", b"plant:level", b"HIGH"));
    assert!(rt; asks_for(b"\tplant:level  # the tank", b"plant:level", b"VAL"));
    assert!(rt; matches!(request_line(b" # pumps"), RequestLine::Nothing));
    assert!(rt; matches!(request_line(b""), RequestLine::Nothing));
    assert!(rt; matches!(request_line(b"file"), RequestLine::Bad));
    assert!(rt; matches!(request_line(b"a.VAL b"), RequestLine::Bad));
    assert!(rt; matches!(request_line(b".VAL"), RequestLine::Bad));
    assert!(rt;
        match request_line(b"file pump.req P=a:, N=1") {
            RequestLine::File(name, macros) => name == b"pump.req".as_slice()
                && macros == b"P=a:, N=1".as_slice(),
            _ => false,
        }
    );
}

#[test]
fn lines_of_saved_values(rt: HostRuntime) -> Result<(), SavedFault> {
    let mut line = Vec::new(rt.alloc());
    add_saved(&mut line, &saved(b"plant:note", b"DESC", b"a\nb"))?;
    let read = saved_in(line.as_slice());
    assert!(rt;
        match &read {
            Some(read) => read.record_name.as_slice() == b"plant:note".as_slice()
                && read.field.as_slice() == b"DESC".as_slice()
                && read.value.as_slice() == b"a\nb".as_slice(),
            None => false,
        }
    );
    assert!(rt; saved_in(b"plant:note a").is_none());
    Ok(())
}

#[test]
fn blocks_of_saved_values(rt: HostRuntime) -> Result<(), SavedFault> {
    let mut out = Vec::new(rt.alloc());
    add_block(&mut out, b"longin", &saved(b"plant:level", b"HIGH", b"40"))?;
    let value = b"a \"b\" \\ # $x\x07\x08\t\n\x0b\x0c\r\x01".as_slice();
    add_block(&mut out, b"stringin", &saved(b"a\\b", b"VAL", value))?;
    add_block(&mut out, b"bi", &saved(b"c", b"OSV", b""))?;
    let wanted = b"record(longin,\"plant:level\"){field(HIGH,\"40\")}\n\
record(stringin,\"a\\\\b\"){field(VAL,\"a \\\"b\\\" \\\\ # $x\\a\\b\\t\\n\\v\\f\\r\x01\")}\n\
record(bi,\"c\"){field(OSV,\"\")}\n";
    assert!(rt; out.as_slice() == wanted.as_slice());
    Ok(())
}

#[test]
fn values_that_have_a_block(rt: HostRuntime) {
    assert!(rt; has_block(&saved(b"plant:level", b"HIGH", b"")));
    assert!(rt; has_block(&saved(b"a", b"B2", b"$ \"$\" $a\\$\x7f\xff")));
    assert!(rt; !has_block(&saved(b"a", b"B", b"1 $(P)")));
    assert!(rt; !has_block(&saved(b"a", b"B", b"${P")));
    assert!(rt; !has_block(&saved(b"a", b"B", b"$$(")));
    assert!(rt; !has_block(&saved(b"a\"", b"B", b"1")));
    assert!(rt; !has_block(&saved(b"$(P)a", b"B", b"1")));
    assert!(rt; !has_block(&saved(b"a b", b"B", b"1")));
    assert!(rt; !has_block(&saved(b"a", b"b", b"1")));
    assert!(rt; !has_block(&saved(b"a", b"B,", b"1")));
    assert!(rt; !has_block(&saved(b"", b"B", b"1")));
    assert!(rt; !has_block(&saved(b"a", b"", b"1")));
}
