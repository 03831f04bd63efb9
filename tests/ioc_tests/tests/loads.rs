//! Whole loads of database texts.
use crate::tests::facts::Fact::{
    self, Counts, Leads, LeadsHome, LeadsNowhere, Named, Shows, Unnamed,
};
use crate::tests::facts::{Made, Refused, first_unrefused, makes, makes_own};
use ioc_calc::LeftOut;
use ioc_dbfile::Macros;
use ioc_fields::{CommonField, FieldNo, FieldSlot, OwnField};
use ioc_main::{RunFault, run};
use ioc_values::BadDbKind;
use std::alloc::Global;

const VAL: FieldNo = FieldNo::Own(OwnField::Val);

const INP: FieldNo = FieldNo::Own(OwnField::Inp);

const FLNK: FieldNo = FieldNo::Common(CommonField::Flnk);

static LOADS: [(&[u8], &[Fact]); 17] = [
    (
        b"record(longin,\"c\"){field(INP,\"5\")}\nrecord(longin,d){field(VAL,-7) field(VAL,\" +0x10 \")}\nrecord(longin,e){field(UDFS,MINOR)}\nrecord(bo,f){field(DOL,9)field(ONAM,on)}\nrecord(fanout,g){field(SELL,3)}",
        &[
            Shows(0, "VAL", b"5"),
            Shows(0, "UDF", b"0"),
            Shows(0, "STAT", b"UDF"),
            Shows(0, "SEVR", b"INVALID"),
            Shows(1, "VAL", b"16"),
            Shows(1, "UDF", b"0"),
            Shows(1, "STAT", b"UDF"),
            Shows(1, "SEVR", b"NO_ALARM"),
            Shows(2, "VAL", b"0"),
            Shows(2, "UDF", b"1"),
            Shows(2, "SEVR", b"MINOR"),
            Shows(3, "VAL", b"on"),
            Shows(3, "UDF", b"0"),
            Shows(3, "LALM", b"1"),
            Shows(4, "UDF", b"1"),
            Shows(4, "SELN", b"3"),
            Counts(5),
            Named(b"d", 1),
            Unnamed(b"h"),
        ],
    ),
    // A link leads nowhere if there is no such record or field, or if the field is a link. Only the
    // device link of the first record that names a device leads to it.
    (
        b"record(longin,a){field(INP,\"b.UDF PP\") field(FLNK,c)}\nrecord(bo,b){field(OUT,a)field(DOL,\"a.NOPE\")field(FLNK,\"c.OUT\")}\nrecord(longin,c){field(INP,nowhere)field(FLNK,\"b.OUT\")}\nrecord(fanout,d){field(LNK3,\"b.ZNAM\")field(SELL,a)}\nrecord(longin,e){field(INP,\"@card\")}record(longin,f){field(INP,\"@card\")}record(longin,g){field(INP,\"@card 1\")}",
        &[
            Leads(0, INP, 1, FieldNo::Common(CommonField::Udf)),
            Leads(0, FLNK, 2, VAL),
            Leads(1, FieldNo::Own(OwnField::Out), 0, VAL),
            LeadsNowhere(1, FieldNo::Own(OwnField::Dol)),
            LeadsNowhere(1, FLNK),
            LeadsNowhere(2, INP),
            LeadsNowhere(2, FLNK),
            Leads(
                3,
                FieldNo::Own(OwnField::Lnk(FieldSlot::N3)),
                1,
                FieldNo::Own(OwnField::Znam),
            ),
            Leads(3, FieldNo::Own(OwnField::Sell), 0, VAL),
            LeadsHome(4, INP),
            LeadsNowhere(5, INP),
            LeadsHome(6, INP),
        ],
    ),
    // The text of the value that was set last.
    (
        b"record(longin,a){field(EGU,1)field(EGU,2)}",
        &[Shows(0, "EGU", b"2")],
    ),
    (
        b"record(longin,a) {\r\n field(EGU,\"7\")\r\n}\r\n",
        &[Shows(0, "EGU", b"7")],
    ),
    (
        b"record(longin,\"a\"){field(EGU,\"x # y\") # z\n}",
        &[Shows(0, "EGU", b"x # y")],
    ),
    (
        b"record(longin,a){field(EGU,\"\xff$\")}",
        &[Shows(0, "EGU", b"\xff$")],
    ),
    (
        b"record(longin,a){field(EGU,\"\\\"\\\\\\'\\n\\q\")}",
        &[Shows(0, "EGU", b"\"\\'\n\\q")],
    ),
    (
        b"record(longin,a){field(EGU,\"\\a\\b\\t\\v\\f\\r\")}",
        &[Shows(0, "EGU", b"\x07\x08\x09\x0b\x0c\x0d")],
    ),
    (b"record(longin,a){}", &[Shows(0, "EGU", b"")]),
    // In a name, only a quote and a backslash are escaped. A name has at most 60 bytes.
    (b"record(longin,\"a\\\\\\n\"){}", &[Named(b"a\\\\n", 0)]),
    (
        b"record(longin,a12345678901234567890123456789012345678901234567890123456789){field(VAL,\"\")}",
        &[Shows(0, "VAL", b"0"), Shows(0, "UDF", b"0")],
    ),
    // Aliases, and records in pieces.
    (
        b"record(longin,\"a\"){alias(\"b\")} record(*,\"a\"){field(VAL,3)} alias(\"a\",\"c\") record(fanout,\"f\"){field(LNK0,\"c\")}",
        &[
            Counts(2),
            Named(b"b", 0),
            Named(b"c", 0),
            Shows(0, "NAME", b"a"),
            Shows(0, "VAL", b"3"),
            Shows(1, "LNK0", b"c.VAL NPP NMS"),
            Leads(1, FieldNo::Own(OwnField::Lnk(FieldSlot::N0)), 0, VAL),
        ],
    ),
    (
        b"grecord(longin,a){field(VAL,1)field(EGU,w)}record(\"*\",\"a\"){field(VAL,2)}\nrecord(longin,a){field(EGU,x)}",
        &[Counts(1), Shows(0, "VAL", b"2"), Shows(0, "EGU", b"x")],
    ),
    (
        b"record(longin,a) record(longin,b)\nrecord(*,a)",
        &[Counts(2), Named(b"b", 1)],
    ),
    (
        b"record(longin,a){alias(b)}record(longin,b){field(VAL,4)}record(*,b){field(EGU,q)}alias(b,c)record(longin,d)",
        &[
            Counts(2),
            Shows(0, "VAL", b"4"),
            Shows(0, "EGU", b"q"),
            Named(b"c", 0),
            Named(b"d", 1),
        ],
    ),
    (
        b"record(longin,a){info(autosaveFields,\"VAL \\q\")info(\"k\",v)field(VAL,1)}",
        &[Counts(1), Shows(0, "VAL", b"1")],
    ),
    // A link that precedes the record that it leads to by an alias.
    (
        b"record(longin,a){field(FLNK,c)}record(longin,b){alias(c)}",
        &[Leads(0, FLNK, 1, VAL)],
    ),
];

#[test]
fn loaded_texts(rt: HostRuntime) {
    for (text, facts) in &LOADS {
        assert!(rt;
            makes(rt.alloc(), &[], text, Made::Facts(*facts)),
            "{text:?}"
        );
    }
}

static TWO_OF_A_DEVICE: [u8; 126] =
    *b"record(bo,a){field(OUT,\"@card\")field(FLNK,c)}record(bi,b){field(INP,\"@card\")}record(longin,c){field(INP,\"b.VAL\")field(FLNK,x)}";

// Each record has a device of its own, and every other link leads where it did.
static OWN_FACTS: [Fact; 5] = [
    LeadsHome(0, FieldNo::Own(OwnField::Out)),
    Leads(0, FLNK, 2, VAL),
    LeadsHome(1, INP),
    Leads(2, INP, 1, VAL),
    LeadsNowhere(2, FLNK),
];

static FIRST_FACTS: [Fact; 1] = [LeadsNowhere(1, INP)];

#[test]
fn devices_of_their_own(rt: HostRuntime) {
    let text = &TWO_OF_A_DEVICE;
    assert!(rt; makes(rt.alloc(), &[], text, Made::Facts(&FIRST_FACTS)));
    assert!(rt; makes_own(rt.alloc(), text, &OWN_FACTS));
    assert!(rt; !makes_own(rt.alloc(), text, &FIRST_FACTS));
}

// Texts that are refused, by the kind of the first fault.
static REFUSED: [Refused; 16] = [
    (
        BadDbKind::BadType,
        &[(1, b"record(waveform,a){}"), (1, b"record(waveform,\na){}")],
    ),
    (
        BadDbKind::BadName,
        &[
            (2, b"record(longin,\n\"a.b\"){}"),
            (1, b"record(longin,\"\"){}"),
            (
                1,
                b"record(longin,a1234567890123456789012345678901234567890123456789012345678901){}",
            ),
            (2, b"record(longin,a)alias(a,\n\"b.c\")"),
            (1, b"record(longin,a)alias(\"a.b\",c)"),
            (1, b"record(*,\"a.b\"){}"),
        ],
    ),
    (
        BadDbKind::Duplicate,
        &[
            (3, b"record(longin,a){}\nrecord(bo,\na){}"),
            (1, b"record(longin,a){alias(a)}"),
            (2, b"record(longin,a){alias(b)alias(\nb)}"),
            (2, b"record(stringin,\"a\"){}\nrecord(longin,\"a\"){}"),
            (2, b"record(longin,a){alias(b)}\nrecord(bo,b){}"),
        ],
    ),
    (
        BadDbKind::BadField,
        &[
            (1, b"record(longin,a){field(ZNAM,1)}"),
            (1, b"record(calcout,\"c\"){field(ODLY,1)}"),
        ],
    ),
    (
        BadDbKind::NoMod,
        &[
            (1, b"record(longin,a){field(PACT,1)}"),
            (1, b"record(longin,a){field(NAME,b)}"),
            (2, b"record(longin,a){\nfield(STAT\n,1)}"),
            (1, b"record(bo,a){field(LALM,1)}"),
            (1, b"record(ai,a){field(INIT,0)}"),
            (1, b"record(ao,a){field(OVAL,1)}"),
            (1, b"record(sel,\"s\"){field(VAL,1)}"),
        ],
    ),
    (
        BadDbKind::BadValue,
        &[
            (2, b"record(longin,a){field(VAL,\n2147483648)}"),
            (1, b"record(longin,a){field(VAL,\" \")}"),
            (1, b"record(longin,a){field(UDFS,SOME)}"),
            (1, b"record(longin,a){field(INP,-2147483649)}"),
            (1, b"record(bo,a){field(DOL,65536)}"),
            (1, b"record(bo,a){field(VAL,2)}"),
            (1, b"record(fanout,a){field(SELL,-1)}"),
            (1, b"record(longin,l){field(INP,\"2.5\")}"),
            (1, b"record(longin,l){field(SDIS,\"1.\")}"),
            (1, b"record(longout,l){field(DOL,\"2.0\")}"),
            (1, b"record(int64in,l){field(INP,\"1e2\")}"),
            (1, b"record(int64out,l){field(DOL,\".5\")}"),
            (1, b"record(bi,l){field(INP,\"1.\")}"),
            (1, b"record(mbbi,l){field(INP,\"1.\")}"),
            (1, b"record(mbbo,l){field(DOL,\"1.\")}"),
            (1, b"record(fanout,l){field(SELL,\"1.\")}"),
            (1, b"record(ai,a){field(INP,\"1e999\")}"),
            (1, b"record(ao,a){field(DOL,\"-1.e999\")}"),
            (1, b"record(ai,a){field(PREC,16)}"),
            (1, b"record(ai,a){field(LINR,typeKdegC)}"),
            (1, b"record(ao,a){field(VAL,\"1.5 mm\")}"),
            (2, b"record(longin,a){field(VAL,\nbad\n"),
        ],
    ),
    (
        BadDbKind::BadLink,
        &[
            (1, b"record(longin,a){field(INP,\"b CPP\")}"),
            (1, b"record(longin,a){field(FLNK,\"@card\")}"),
            (
                1,
                b"record(stringin,a){field(INP,\"0.12345678901234567890123456789012345678\")}",
            ),
        ],
    ),
    (
        BadDbKind::Unclosed,
        &[
            (2, b"record(longin, \"a\") {\n  field(VAL, \"1\n}\n"),
            (1, b"record(longin \"abc"),
        ],
    ),
    (
        BadDbKind::Syntax,
        &[
            (2, b"\n\xff"),
            (1, b"?"),
            (1, b"? \"abc"),
            (1, b"record(longin,a){}\r"),
            (1, b"\"menu\""),
            (1, b"record(longin,a){menu}"),
            (1, b"record(longin,a){info(k)}"),
            (1, b"record(longin,a){info(*,v)}"),
            (1, b"record(longin,a){record(longin,b)}"),
            (1, b"record(longin,a)}"),
            (1, b"\"record\"(longin,a)"),
        ],
    ),
    (
        BadDbKind::Macro,
        &[
            (3, b"\n# $(A)\n$(A)"),
            (1, b"? ${A}"),
            (1, b"record(longin,\"$(A)\"){}"),
        ],
    ),
    (BadDbKind::LeftOut, &[(1, b"menu(x) {}"), (2, b"\nlink(x)")]),
    (
        BadDbKind::BadCalc,
        &[(1, b"record(calc,\"c\"){field(CALC,\"A+\")}")],
    ),
    (
        BadDbKind::CalcLeftOut(LeftOut::Exp),
        &[(
            1,
            b"record(calc,\"c\"){field(CALC,\"A>5 ? exp(A) : A^2.5\")}",
        )],
    ),
    (
        BadDbKind::CalcLeftOut(LeftOut::Caret),
        &[(1, b"record(calc,\"c\"){field(CALC,\"10^(A-1)\")}")],
    ),
    (
        BadDbKind::NoRecord,
        &[
            (1, b"alias(a,\n\"b.c\")"),
            (1, b"record(*,a){}"),
            (1, b"record(\"*\",a){}"),
            (1, b"alias(a\n"),
        ],
    ),
    (BadDbKind::OpenBody, &[(1, b"record(longin,a){info(k,v\n")]),
];

#[test]
fn refused_texts(rt: HostRuntime) {
    assert_eq!(rt; first_unrefused(rt.alloc(), &[], &REFUSED), None);
}

static TEXT: [u8; 42] = *b"record(longin, \"a\") {\n  field(VAL, \"1\")\n}\n";

// Returns the expected result of the first `n` bytes.
fn cut_makes(n: usize) -> Made {
    match n {
        0 => Made::Facts(&[Counts(0)]),
        1..=5 => Made::Fault(1, BadDbKind::Syntax),
        6 | 7 | 13..=15 | 18 | 21 | 22 => Made::Fault(1, BadDbKind::OpenBody),
        8..=12 => Made::Fault(1, BadDbKind::BadType),
        16 | 17 => Made::Fault(1, BadDbKind::Unclosed),
        25..=28 => Made::Fault(2, BadDbKind::Syntax),
        31 | 32 => Made::Fault(2, BadDbKind::BadField),
        36 | 37 => Made::Fault(2, BadDbKind::Unclosed),
        19 | 20 | 41 | 42 => Made::Facts(&[Counts(1)]),
        _ => Made::Fault(2, BadDbKind::OpenBody),
    }
}

// Returns whether the run of a text prints nothing and has the expected result.
fn runs_silently(alloc: Global, text: &[u8], wanted: Made) -> bool {
    let mut out = Vec::new(alloc);
    let ended = run(alloc, text, &Macros::new(alloc), b"".as_slice(), &mut out);
    let is_met = match (ended, wanted) {
        (Ok(()), Made::Facts(_)) => true,
        (Err(RunFault::BadDb(fault)), Made::Fault(line, kind)) => {
            fault.line == line && fault.kind == kind
        }
        _ => false,
    };
    is_met && out.is_empty()
}

#[test]
fn cut_texts(rt: HostRuntime) {
    for n in 0..=42 {
        let text = &TEXT[..n];
        let wanted = cut_makes(n);
        assert!(rt;
            makes(rt.alloc(), &[], text, wanted) && runs_silently(rt.alloc(), text, wanted),
            "at {n}"
        );
    }
}
