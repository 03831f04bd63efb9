//! Scripts with readers and writers of one byte per call.
use crate::tests::streams::{OneByteReader, OneByteWriter};
use ioc_command_line::Reason;
use ioc_dbfile::Macros;
use ioc_main::{RunFault, run};
use std::alloc::Global;

const DB: &[u8] = b"record(longin,\"a\"){field(VAL,\"3\")}";

const SCRIPT: &[u8] = b"get a.VAL\n# nothing\n\nhello\nprocess a";

const WANTED: &[u8] = b"= 3\nbad\nok processed\n";

// Returns whether a writer that takes this many bytes has them at the end, and the run succeeds if
// these are all.
fn is_written(alloc: Global, left: usize) -> bool {
    let mut out = OneByteWriter {
        held: Vec::new(alloc),
        left,
    };
    let ended = run(alloc, DB, &Macros::new(alloc), SCRIPT, &mut out);
    let wanted = if left < WANTED.len() {
        Err(RunFault::Write)
    } else {
        Ok(())
    };
    ended == wanted && out.held.as_slice() == &WANTED[..left.min(WANTED.len())]
}

#[test]
fn a_writer_of_one_byte(rt: HostRuntime) {
    for left in 0..22 {
        assert!(rt; is_written(rt.alloc(), left), "at {left}");
    }
}

// Returns whether a run whose reader returns this many bytes has the expected result and output.
fn is_read(alloc: Global, left: usize, wanted: Result<(), RunFault>, printed: &[u8]) -> bool {
    let script = OneByteReader { rest: SCRIPT, left };
    let mut out = Vec::new(alloc);
    let ended = run(alloc, DB, &Macros::new(alloc), script, &mut out);
    ended == wanted && out.as_slice() == printed
}

#[test]
fn a_reader_of_one_byte(rt: HostRuntime) {
    let is_whole = is_read(rt.alloc(), 1000, Ok(()), WANTED);
    assert!(rt; is_whole && is_read(rt.alloc(), 12, Err(RunFault::Read(Reason::Other)), b"= 3\n"));
}
