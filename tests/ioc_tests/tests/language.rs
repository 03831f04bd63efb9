//! Whole programs on databases with macros, aliases and records in pieces, and on a text that isn't
//! closed.
use crate::tests::facts::{Definition, defined};
use ioc_dbfile::Macros;
use ioc_main::{RunFault, run};
use ioc_values::{BadDbKind, DbFault, IocError};
use std::alloc::Global;

// A run, with its expected output.
struct Run {
    macros: &'static [Definition<'static>],
    db: &'static [u8],
    script: &'static [u8],
    printed: &'static [u8],
}

static RUNS: [Run; 2] = [
    Run {
        macros: &[],
        db: b"record(longin,\"a\"){alias(\"b\")} record(*,\"a\"){field(VAL,3)} alias(\"a\",\"c\") record(fanout,\"f\"){field(LNK0,\"c\") field(DESC,\"${X=none}\")}",
        script: b"get b.VAL\nget f.LNK0\nget f.DESC\n",
        printed: b"= 3\n= c.VAL NPP NMS\n= none\n",
    },
    Run {
        macros: &[(b"P", b"k")],
        db: b"record(longin,\"$(P)x\"){field(INP,\"$(V=3)\")}",
        script: b"get kx.VAL\n",
        printed: b"= 3\n",
    },
];

// Returns whether the run has the expected output.
fn prints(alloc: Global, wanted: &Run) -> Result<bool, IocError> {
    let macros = defined(alloc, wanted.macros)?;
    let mut out = Vec::new(alloc);
    let ended = run(alloc, wanted.db, &macros, wanted.script, &mut out);
    Ok(ended.is_ok() && out.as_slice() == wanted.printed)
}

#[test]
fn runs_with_macros_and_aliases(rt: HostRuntime) {
    for wanted in &RUNS {
        assert!(rt; prints(rt.alloc(), wanted) == Ok(true));
    }
}

// Databases that are refused, with a script, and the line and the kind of the fault.
static REFUSED: [(&[u8], &[u8], u64, BadDbKind); 4] = [
    (
        b"record(longin,\"a\"){alias(\"a\")}",
        b"get a.VAL\n",
        1,
        BadDbKind::Duplicate,
    ),
    (
        b"record(stringin,\"a\"){}\nrecord(longin,\"a\"){}",
        b"get a.VAL\n",
        2,
        BadDbKind::Duplicate,
    ),
    (
        b"record(longin,\"$(P)x\"){field(INP,\"$(V=3)\")}",
        b"get kx.VAL\n",
        1,
        BadDbKind::Macro,
    ),
    (
        b"record(longin,\"a\") {\n field(VAL, \"1",
        b"get a.VAL\nhello\n",
        2,
        BadDbKind::Unclosed,
    ),
];

// Returns whether the run of a script has this fault of the database, and prints nothing.
fn is_refused(alloc: Global, db: &[u8], script: &[u8], fault: DbFault) -> bool {
    let mut out = Vec::new(alloc);
    let ended = run(alloc, db, &Macros::new(alloc), script, &mut out);
    ended == Err(RunFault::BadDb(fault)) && out.is_empty()
}

#[test]
fn runs_on_refused_databases(rt: HostRuntime) {
    for (db, script, line, kind) in &REFUSED {
        let fault = DbFault {
            line: *line,
            kind: *kind,
        };
        assert!(rt; is_refused(rt.alloc(), db, script, fault), "{fault:?}");
    }
}
