//! Loads of database texts with macros.
use crate::tests::facts::Fact::{self, Named, Shows};
use crate::tests::facts::{Definition, Made, Refused, defined, first_unrefused, makes};
use ioc_values::{BadDbKind, IocError};
use std::alloc::Global;

// Macros, a text that uses them, and the facts of its records.
static MACROS: [(&[Definition<'static>], &[u8], &[Fact]); 6] = [
    (
        &[(b"P", b"k")],
        b"record(longin,\"$(P)x\"){field(INP,\"$(V=3)\")}",
        &[Named(b"kx", 0), Shows(0, "VAL", b"3")],
    ),
    // The last value of a name is used, and a default only if there is no value.
    (
        &[(b"N", b"1"), (b"M", b""), (b"N", b"2")],
        b"record(longin,a){field(VAL,\"$(N=5)\")field(EGU,\"${M=x}${O=}y\")}",
        &[Shows(0, "VAL", b"2"), Shows(0, "EGU", b"y")],
    ),
    // Values aren't expanded again, and may contain signs, quotes and comments.
    (
        &[
            (b"A", b"$(B)"),
            (b"B", b"7"),
            (b"Q", b"\") field(DESC,\"d\") # c"),
        ],
        b"record(longin,a){field(EGU,\"$(A)\")}record(longin,b){field(EGU,\"$(B)\")}",
        &[Shows(0, "EGU", b"$(B)"), Shows(1, "EGU", b"7")],
    ),
    (
        &[(b"TYPE", b"longin"), (b"S", b"{field(VAL,9)}")],
        b"record($(TYPE),a)$(S)",
        &[Shows(0, "VAL", b"9")],
    ),
    // Comments are removed before macros are expanded.
    (
        &[],
        b"record(longin,a){field(VAL,1)} # $(NONE) $(",
        &[Shows(0, "VAL", b"1")],
    ),
    (
        &[(b"A", b"#")],
        b"record(longin,a){field(EGU,\"$$(A)$x\")}",
        &[Shows(0, "EGU", b"$#$x")],
    ),
];

#[test]
fn texts_with_macros(rt: HostRuntime) {
    for (definitions, text, facts) in &MACROS {
        assert!(rt;
            makes(rt.alloc(), definitions, text, Made::Facts(*facts)),
            "{text:?}"
        );
    }
}

// Texts whose macros are wrong, if only A is defined.
static BAD_MACROS: [Refused; 2] = [
    (
        BadDbKind::Macro,
        &[
            (1, b"record(longin,\"$(P)x\")"),
            (1, b"? $(P)"),
            (2, b"\n$()"),
            (1, b"$(=1)"),
            (1, b"$( A )"),
            (1, b"$(A-B=1)"),
            (1, b"$(A"),
            (1, b"$(A\n)"),
            (1, b"${A)"),
            (1, b"$(B=$(A))"),
            (1, b"$(A=$)"),
            (1, b"$($(A))"),
            (1, b"$(A=#)"),
            (2, b"\n$(A"),
        ],
    ),
    // A number sign from a macro begins no comment.
    (BadDbKind::Syntax, &[(1, b"record(longin,a)$(A)")]),
];

#[test]
fn macros_that_cannot_be_replaced(rt: HostRuntime) {
    let definitions = [(b"A".as_slice(), b"#".as_slice())];
    assert_eq!(rt;
        first_unrefused(rt.alloc(), &definitions, &BAD_MACROS),
        None
    );
}

static BAD_NAMES: [&[u8]; 5] = [b"", b"A-B", b" A", b"A$", b"\xc3\xa4"];

// Returns whether a macro with this name is refused, beside another macro.
fn is_refused(alloc: Global, name: &[u8]) -> Result<bool, IocError> {
    let mut macros = defined(alloc, &[(b"A", b"1")])?;
    Ok(macros.define(alloc, name, b"2") == Err(IocError::BadValue))
}

#[test]
fn names_of_macros(rt: HostRuntime) {
    for name in &BAD_NAMES {
        assert!(rt; is_refused(rt.alloc(), name) == Ok(true), "{name:?}");
    }
}
