//! Texts of the maximal size, and larger ones.
use crate::tests::facts::Fact::{self, Counts, Named, Shows};
use crate::tests::facts::{Made, makes};
use crate::tests::parts::Piece::{self, Here, Words};
use crate::tests::parts::{Part, text};
use ioc_values::BadDbKind;
use std::alloc::{AllocError, Global};
use std::test::Fail;

/// The value of the macro A, if there is one, a text, and the expected result of its load.
struct Large {
    name: &'static str,
    value: Option<&'static [Part]>,
    text: &'static [Part],
    made: Made,
}

// 16 MiB, the longest text.
const LONGEST: usize = 16_777_216;

const MOST_RECORDS: usize = 131_072;

const MEBIBYTE: usize = 1_048_576;

const BLANK: &[Piece] = &[Words(" ")];

// The maximal number of records, one per line, each with an alias.
const ALL_RECORDS: Part = (
    0,
    MOST_RECORDS,
    &[
        Words("record(longin,r"),
        Here,
        Words("){alias(a"),
        Here,
        Words(")}\n"),
    ],
);

static LARGE: [Large; 11] = [
    Large {
        name: "the longest text of macros",
        value: Some(&[]),
        text: &[(0, LONGEST / 4, &[Words("$(A)")])],
        made: Made::Facts(&[Counts(0)]),
    },
    Large {
        name: "the longest text of macros, and a wrong one",
        value: Some(&[(0, 1, &[Words("?")])]),
        text: &[(0, LONGEST / 4, &[Words("$(A)")])],
        made: Made::Fault(1, BadDbKind::Syntax),
    },
    Large {
        name: "a value of a mebibyte",
        value: Some(&[(0, MEBIBYTE, &[Words("x")])]),
        text: &[(0, 1, &[Words("record(longin,a){field(EGU,\"$(A)\")}")])],
        made: Made::Facts(&[Shows(0, "EGU", b"xxxxxxxxxxxxxxxxxxxxxxxxxxxxxxxxxxxxxxx")]),
    },
    Large {
        name: "a mebibyte of blanks",
        value: Some(&[(0, MEBIBYTE, BLANK)]),
        text: &[(0, 1, &[Words("record(longin,a)$(A){field(VAL,7)}")])],
        made: Made::Facts(&[Shows(0, "VAL", b"7")]),
    },
    Large {
        name: "most records and aliases",
        value: Some(&[]),
        text: &[
            ALL_RECORDS,
            (
                0,
                1,
                &[Words("alias(r0,x)record(longin,r1){field(VAL,4)}\n")],
            ),
        ],
        made: Made::Facts(&[
            Counts(MOST_RECORDS),
            Named(b"r131071", 131_071),
            Named(b"a131071", 131_071),
            Named(b"x", 0),
            Shows(1, "VAL", b"4"),
        ]),
    },
    Large {
        name: "one record too many",
        value: Some(&[]),
        text: &[ALL_RECORDS, (0, 1, &[Words("record(longin,\nx)\n")])],
        made: Made::Fault(131_073, BadDbKind::TooMany),
    },
    Large {
        name: "the longest text of blanks",
        value: None,
        text: &[(0, LONGEST, BLANK)],
        made: Made::Facts(&[Counts(0)]),
    },
    Large {
        name: "a byte more",
        value: None,
        text: &[(0, LONGEST, BLANK), (0, 1, &[Words("?")])],
        made: Made::Fault(1, BadDbKind::TooMany),
    },
    Large {
        name: "a line feed more",
        value: None,
        text: &[(0, LONGEST - 2, BLANK), (0, 1, &[Words("\n\n\n")])],
        made: Made::Fault(3, BadDbKind::TooMany),
    },
    Large {
        name: "a macro behind a wrong sign, past the limit",
        value: None,
        text: &[(0, LONGEST - 1, BLANK), (0, 1, &[Words("? $(A)")])],
        made: Made::Fault(1, BadDbKind::Macro),
    },
    Large {
        name: "a comment past the limit",
        value: None,
        text: &[(0, LONGEST - 1, BLANK), (0, 1, &[Words("#\n\n\n")])],
        made: Made::Fault(1, BadDbKind::TooMany),
    },
];

fn is_made(alloc: Global, large: &Large) -> Result<bool, AllocError> {
    let whole = text(alloc, large.text)?;
    let Some(parts) = large.value else {
        return Ok(makes(alloc, &[], whole.as_bytes(), large.made));
    };
    let value = text(alloc, parts)?;
    let macros = [(b"A".as_slice(), value.as_bytes())];
    Ok(makes(alloc, &macros, whole.as_bytes(), large.made))
}

#[test]
fn large_texts(rt: HostRuntime) -> Result<(), Fail> {
    for large in &LARGE {
        assert!(rt; is_made(rt.alloc(), large)?, "{}", large.name);
    }
    Ok(())
}

static TEXT: [u8; 42] = *b"record(longin, \"a\") {\n  field(VAL, \"1\")\n}\n";

// A number of first bytes of the text, and the facts of the database that they make.
static CUTS: [(usize, &[Fact]); 5] = [
    (0, &[Counts(0)]),
    (19, &[Counts(1), Named(b"a", 0), Shows(0, "VAL", b"0")]),
    (20, &[Counts(1), Named(b"a", 0), Shows(0, "VAL", b"0")]),
    (41, &[Counts(1), Named(b"a", 0), Shows(0, "VAL", b"1")]),
    (42, &[Counts(1), Named(b"a", 0), Shows(0, "VAL", b"1")]),
];

#[test]
fn cuts_that_are_databases(rt: HostRuntime) {
    for (count, facts) in &CUTS {
        let text = &TEXT[..(*count).min(42)];
        assert!(rt;
            makes(rt.alloc(), &[(b"A", b"")], text, Made::Facts(*facts)),
            "{count}"
        );
    }
}
