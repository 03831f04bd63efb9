//! The arguments of the program, and how it ends.
use ioc_command_line::{
    Ending, FileRole, Program, Reason, Stage, Stop, Stream, TwoFiles, given, unreadable,
};
use ioc_main::{RunFault, whole_run};
use ioc_values::{BadDbKind, DbFault};
use std::alloc::{AllocError, Global};
use std::io;
use std::test::Fail;

// A program that takes a database text and a script.
static PROGRAM: Program<'static> = Program {
    name: "ioc-replay",
    version: "0.1.0",
    about: "Runs a script.",
    notes: "Notes.",
};

// Valid words, the files that they name, and the value of the macro A.
static WORDS: [(&[&str], &str, &str, Option<&str>); 12] = [
    (
        &["ioc-replay", "a.db", "b.script"],
        "a.db",
        "b.script",
        None,
    ),
    (&["ioc-replay", "a", "b", "A=1"], "a", "b", Some("1")),
    (
        &["ioc-replay", "a", "b", "A=", "B_2=x=y", "A=1=2"],
        "a",
        "b",
        Some("1=2"),
    ),
    (&["ioc-replay", "a", "b", "A="], "a", "b", Some("")),
    (&["ioc-replay", "a", "b", "B_2=--help"], "a", "b", None),
    (&["ioc-replay", "a", "-", "B=1,A=2"], "a", "-", Some("2")),
    (&["ioc-replay", "a", "b", "A=1,B=2"], "a", "b", Some("1")),
    // A comma that no NAME= follows belongs to the value.
    (
        &["ioc-replay", "a", "b", "A=1,2,c d=e"],
        "a",
        "b",
        Some("1,2,c d=e"),
    ),
    (
        &["ioc-replay", "-m", "A=1,B=2", "a", "b"],
        "a",
        "b",
        Some("1"),
    ),
    (
        &["ioc-replay", "a", "-mA=1", "b", "-m", "A=2"],
        "a",
        "b",
        Some("2"),
    ),
    (
        &["ioc-replay", "a", "b", "A=3", "-m", "A=2"],
        "a",
        "b",
        Some("3"),
    ),
    (&["ioc-replay", "a", "b", "--", "A=1"], "a", "b", Some("1")),
];

// Words that are not taken, the exit status that this gives, and how what is told begins.
static REFUSED: [(&[&str], u8, &str); 19] = [
    (&[], 2, "error: "),
    (&["ioc-replay"], 2, "error: "),
    (&["ioc-replay", "a.db"], 2, "error: "),
    (
        &["ioc-replay", "a.db", "b.script", "c"],
        2,
        "ioc-replay: 'c' is no NAME=VALUE (",
    ),
    (
        &["ioc-replay", "a", "b", "A=1", "d c"],
        2,
        "ioc-replay: 'd c' is no NAME=VALUE (",
    ),
    (
        &["ioc-replay", "a", "b", "=1"],
        2,
        "ioc-replay: '=1' is no NAME=VALUE (",
    ),
    (
        &["ioc-replay", "a", "b", "A-B=1"],
        2,
        "ioc-replay: 'A-B=1' is no NAME=VALUE (",
    ),
    (
        &["ioc-replay", "a", "b", ",A=1"],
        2,
        "ioc-replay: ',A=1' is no NAME=VALUE (",
    ),
    (
        &["ioc-replay", "a", "b", "-m", "A"],
        2,
        "ioc-replay: 'A' is no NAME=VALUE (",
    ),
    (&["ioc-replay", "a", "b", "-m"], 2, "error: "),
    (&["ioc-replay", "a", "b", "-n"], 2, "error: "),
    (&["ioc-replay", "a", "b", "--helpful"], 2, "error: "),
    (&["ioc-replay", "--helpful", "--help"], 2, "error: "),
    (&["ioc-replay", "--help"], 0, "Runs a script.\n"),
    (&["ioc-replay", "-h", "x"], 0, "Runs a script.\n"),
    (&["ioc-replay", "a", "--version"], 0, "ioc-replay 0.1.0\n"),
    (&["ioc-replay", "-V"], 0, "ioc-replay 0.1.0\n"),
    (
        &["ioc-replay", "a", "b", "A=1", "--help"],
        0,
        "Runs a script.\n",
    ),
    // Help is told before definitions are looked at.
    (
        &["ioc-replay", "a", "b", "c", "--help"],
        0,
        "Runs a script.\n",
    ),
];

fn strings(alloc: Global, words: &[&str]) -> Result<Vec<String>, AllocError> {
    let mut all = Vec::new(alloc);
    for word in words {
        all.push(String::from_str(alloc, word)?)?;
    }
    Ok(all)
}

// Are the words taken, and is this what they say?
fn are_taken(
    alloc: Global,
    words: &[&str],
    db: &str,
    script: &str,
    value: Option<&str>,
) -> Result<bool, AllocError> {
    let given = strings(alloc, words)?;
    Ok(
        match TwoFiles::from_words(alloc, &PROGRAM, "SCRIPT", "a script", given.as_slice()) {
            Ok(files) => {
                files.database == db
                    && files.other == script
                    && files.macros.value_of(b"A") == value.map(|value| value.as_bytes())
            }
            Err(_) => false,
        },
    )
}

#[test]
fn words_that_are_taken(rt: HostRuntime) -> Result<(), Fail> {
    for (words, db, script, value) in &WORDS {
        assert!(rt;
            are_taken(rt.alloc(), words, db, script, *value)?,
            "{words:?}"
        );
    }
    Ok(())
}

// Does the program that comes to this end with this status, and begin so with what it tells?
fn begins(alloc: Global, stop: Stop, status: u8, told: &str) -> Result<bool, AllocError> {
    let ending = Ending::of(PROGRAM.name, Err(stop));
    let text = ending.to_string(alloc)?;
    Ok(ending.status == status && text.as_str().starts_with(told))
}

fn are_refused(alloc: Global, words: &[&str], status: u8, told: &str) -> Result<bool, AllocError> {
    let given = strings(alloc, words)?;
    match TwoFiles::from_words(alloc, &PROGRAM, "SCRIPT", "a script", given.as_slice()) {
        Ok(_) => Ok(false),
        Err(stop) => begins(alloc, stop, status, told),
    }
}

#[test]
fn words_that_are_refused(rt: HostRuntime) -> Result<(), Fail> {
    for (words, status, told) in &REFUSED {
        assert!(rt; are_refused(rt.alloc(), words, *status, told)?, "{words:?}");
    }
    Ok(())
}

fn stops(alloc: Global, kind: io::ErrorKind, status: u8, told: &str) -> Result<bool, AllocError> {
    match given(alloc, Err(io::Error::from(kind))) {
        Ok(_) => Ok(false),
        Err(stop) => begins(alloc, stop, status, told),
    }
}

#[test]
fn words_that_could_not_be_had(rt: HostRuntime) -> Result<(), Fail> {
    let kind = io::ErrorKind::OutOfMemory;
    assert!(rt;
        stops(
            rt.alloc(),
            kind,
            4,
            "ioc-replay: out of memory while loading\n"
        )?
    );
    let kind = io::ErrorKind::InvalidData;
    assert!(rt; stops(rt.alloc(), kind, 2, "ioc-replay: a word is no UTF-8 (")?);
    Ok(())
}

// Does the program that comes to this end with this status, and tell just this there?
fn tells(
    alloc: Global,
    ended: Result<(), Stop>,
    status: u8,
    stream: Stream,
    told: &str,
) -> Result<bool, AllocError> {
    let ending = Ending::of(PROGRAM.name, ended);
    let text = ending.to_string(alloc)?;
    Ok(ending.status == status && ending.stream == stream && text.as_str() == told)
}

fn tells_fault(alloc: Global, stop: Stop, status: u8, told: &str) -> Result<bool, AllocError> {
    tells(alloc, Err(stop), status, Stream::Error, told)
}

#[test]
fn endings(rt: HostRuntime) -> Result<(), Fail> {
    let alloc = rt.alloc();
    assert!(rt; tells(alloc, Ok(()), 0, Stream::Error, "")?);
    let shown = Stop::Shown(String::from_str(alloc, "ioc-replay 0.1.0\n")?);
    assert!(rt; tells(alloc, Err(shown), 0, Stream::Output, "ioc-replay 0.1.0\n")?);
    let refused = Stop::BadDb(DbFault {
        line: 2,
        kind: BadDbKind::Unclosed,
    });
    assert!(rt; tells_fault(alloc, refused, 1, "E13 BadDb line 2: text not closed\n")?);
    let full = Stop::Write(Reason::StorageFull);
    let told = "ioc-replay: cannot write the replies: No space left on device\n";
    assert!(rt; tells_fault(alloc, full, 3, told)?);
    assert!(rt; tells_fault(alloc, Stop::Write(Reason::BrokenPipe), 3, "")?);
    let told = "ioc-replay: out of memory in a line of the script\n";
    assert!(rt; tells_fault(alloc, Stop::Memory(Stage::Line), 4, told)?);
    Ok(())
}

// Files that can't be opened or read, by the kind of the error, and what is told.
static UNREADABLE: [(FileRole, io::ErrorKind, u8, &str); 6] = [
    (
        FileRole::Journal,
        io::ErrorKind::NotADirectory,
        3,
        "ioc-replay: cannot read journal 'x.y': Not a directory\n",
    ),
    (
        FileRole::Database,
        io::ErrorKind::NotFound,
        3,
        "ioc-replay: cannot read database 'x.y': No such file or directory\n",
    ),
    (
        FileRole::Script,
        io::ErrorKind::PermissionDenied,
        3,
        "ioc-replay: cannot read script 'x.y': Permission denied\n",
    ),
    (
        FileRole::Database,
        io::ErrorKind::IsADirectory,
        3,
        "ioc-replay: cannot read database 'x.y': Is a directory\n",
    ),
    (
        FileRole::Script,
        io::ErrorKind::Uncategorized,
        3,
        "ioc-replay: cannot read script 'x.y': Input/output error\n",
    ),
    (
        FileRole::Database,
        io::ErrorKind::OutOfMemory,
        4,
        "ioc-replay: out of memory while loading\n",
    ),
];

// Returns the end of the program because the file x.y can't be read.
fn unread(alloc: Global, role: FileRole, kind: io::ErrorKind) -> Result<Stop, AllocError> {
    let path = String::from_str(alloc, "x.y")?;
    Ok(unreadable(role, path, &io::Error::from(kind)))
}

#[test]
fn files_that_cannot_be_read(rt: HostRuntime) -> Result<(), Fail> {
    for (role, kind, status, told) in &UNREADABLE {
        let stop = unread(rt.alloc(), *role, *kind)?;
        assert!(rt; tells_fault(rt.alloc(), stop, *status, told)?, "{told}");
    }
    Ok(())
}

// A run and its flush, which fails for a full disk where that is said, and what is told.
static FLUSHES: [(Result<(), RunFault>, bool, u8, &str); 6] = [
    (Ok(()), false, 0, ""),
    (
        Ok(()),
        true,
        3,
        "ioc-replay: cannot write the replies: No space left on device\n",
    ),
    (
        Err(RunFault::Write),
        true,
        3,
        "ioc-replay: cannot write the replies: No space left on device\n",
    ),
    (
        Err(RunFault::Write),
        false,
        3,
        "ioc-replay: cannot write the replies: Input/output error\n",
    ),
    (
        Err(RunFault::Read(Reason::IsADirectory)),
        true,
        3,
        "ioc-replay: cannot read script 'b.script': Is a directory\n",
    ),
    (
        Err(RunFault::Memory(Stage::Line)),
        true,
        4,
        "ioc-replay: out of memory in a line of the script\n",
    ),
];

fn flushed(fails: bool) -> io::Result<()> {
    if fails {
        Err(io::Error::from(io::ErrorKind::StorageFull))
    } else {
        Ok(())
    }
}

// Returns the end of the program after this run and its flush.
fn end_of(
    alloc: Global,
    ran: Result<(), RunFault>,
    fails: bool,
) -> Result<Result<(), Stop>, AllocError> {
    let script = String::from_str(alloc, "b.script")?;
    Ok(whole_run(ran, flushed(fails), script))
}

#[test]
fn a_flush_that_fails(rt: HostRuntime) -> Result<(), Fail> {
    for (ran, fails, status, told) in &FLUSHES {
        let ended = end_of(rt.alloc(), *ran, *fails)?;
        assert!(rt;
            tells(rt.alloc(), ended, *status, Stream::Error, told)?,
            "{told}"
        );
    }
    Ok(())
}
