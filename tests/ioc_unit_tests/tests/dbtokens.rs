//! Tokens and their lines, by examples of the database grammar.
use ioc_dblex::{Macros, TokenKind, Tokens, expand, unescaped};
use ioc_values::BadDbKind;
use std::alloc::Global;

// A token: its line, its kind and its text.
type Wanted = (u64, TokenKind, &'static [u8]);

// Returns whether the next token is this one. A sign is taken only if it is next.
fn is_next(tokens: &mut Tokens<'_>, wanted: &Wanted) -> bool {
    if tokens.take_sign(b';') {
        return false;
    }
    let Some(token) = tokens.next() else {
        return false;
    };
    let (line, kind, said) = *wanted;
    token.line == line && token.kind == kind && token.text == said
}

// Returns whether these are all the tokens.
fn are_next(tokens: &mut Tokens<'_>, table: &[Wanted]) -> bool {
    for wanted in table {
        if !is_next(tokens, wanted) {
            return false;
        }
    }
    tokens.next().is_none()
}

// Returns whether these are the tokens of the text.
fn are_tokens(alloc: Global, text: &[u8], table: &[Wanted]) -> bool {
    match expand(alloc, &Macros::new(alloc), text) {
        Ok(texts) => are_next(&mut Tokens::new(&texts), table),
        Err(_) => false,
    }
}

static TEXTS: [(&[u8], &[Wanted]); 4] = [
    (
        b"\n a.b-1(\"x\\\"y\"\t,*)\n\n{\"\"} # c\n\"open\nrest",
        &[
            (2, TokenKind::Word, b"a.b-1"),
            (2, TokenKind::Sign(b'('), b""),
            (2, TokenKind::Quoted, b"x\\\"y"),
            (2, TokenKind::Sign(b','), b""),
            (2, TokenKind::Sign(b'*'), b""),
            (2, TokenKind::Sign(b')'), b""),
            (4, TokenKind::Sign(b'{'), b""),
            (4, TokenKind::Quoted, b""),
            (4, TokenKind::Sign(b'}'), b""),
            (5, TokenKind::Fault(BadDbKind::Unclosed), b""),
        ],
    ),
    (
        b"\n\n ? a",
        &[(3, TokenKind::Fault(BadDbKind::Syntax), b"")],
    ),
    (
        b"\"a\\\"",
        &[(1, TokenKind::Fault(BadDbKind::Unclosed), b"")],
    ),
    (
        b"\n# $(A)\n$(A)",
        &[(3, TokenKind::Fault(BadDbKind::Macro), b"")],
    ),
];

// Whether the bytes between quotes are a value, these bytes, and what they mean there.
static ESCAPES: [(bool, &[u8], &[u8]); 8] = [
    (true, b"a b", b"a b"),
    (false, b"a b", b"a b"),
    (true, b"\\\"\\\\", b"\"\\"),
    (false, b"\\\"\\\\", b"\"\\"),
    (true, b"\\n\\t\\q", b"\n\t\\q"),
    (false, b"\\n\\t\\q", b"\\n\\t\\q"),
    (true, b"a\\", b"a\\"),
    (false, b"a\\", b"a\\"),
];

fn is_unescaped(alloc: Global, in_value: bool, bytes: &[u8], wanted: &[u8]) -> bool {
    match unescaped(alloc, in_value, bytes) {
        Ok(found) => found.as_slice() == wanted,
        Err(_) => false,
    }
}

// A fault is the last token.
#[test]
fn tokens_and_escapes(rt: HostRuntime) {
    for (row, (text, wanted)) in TEXTS.iter().enumerate() {
        assert!(rt; are_tokens(rt.alloc(), text, wanted), "text {row}");
    }
    for (row, (in_value, bytes, wanted)) in ESCAPES.iter().enumerate() {
        let is_right = is_unescaped(rt.alloc(), *in_value, bytes, wanted);
        assert!(rt; is_right, "escape {row}");
    }
}
