//! Lines and their texts, by examples of the database grammar.
use ioc_dblex::{End, Macros, expand};
use std::alloc::Global;

static LINES: [(&[u8], Option<&[u8]>); 11] = [
    (b"a b\n", Some(b"a b")),
    (b"a\r\n", Some(b"a")),
    (b"a\r", Some(b"a\r")),
    (b"a\rb\r\r\n", Some(b"a\rb\r")),
    (b"a # b\n", Some(b"a ")),
    (b"\"a # b\" # c\n", Some(b"\"a # b\" ")),
    (b"\"a\\\" # b\n", Some(b"\"a\\\" # b")),
    (b"a\\\"b # c\"", Some(b"a\\\"b # c\"")),
    (b"$ $A \"$(A)\"", None),
    (b"${A}\n", None),
    (b"$ (A) $A # $(A)\n", Some(b"$ (A) $A ")),
];

/// A text, with the bytes and lengths of its lines' texts, and how they end.
struct Expansion {
    text: &'static [u8],
    bytes: &'static [u8],
    lengths: &'static [usize],
    end: End,
}

static EXPANSIONS: [Expansion; 5] = [
    Expansion {
        text: b"",
        bytes: b"",
        lengths: &[],
        end: End::Whole,
    },
    Expansion {
        text: b"ab # c\r\n\n d",
        bytes: b"ab  d",
        lengths: &[3, 0, 2],
        end: End::Whole,
    },
    Expansion {
        text: b"a\n",
        bytes: b"a",
        lengths: &[1],
        end: End::Whole,
    },
    Expansion {
        text: b"a\n$(B)\nc",
        bytes: b"a",
        lengths: &[1],
        end: End::BadMacro,
    },
    Expansion {
        text: b"\n\n",
        bytes: b"",
        lengths: &[0, 0],
        end: End::Whole,
    },
];

// Returns whether these are the bytes and lengths of the text's lines, and their end.
fn is_expanded(alloc: Global, text: &[u8], bytes: &[u8], lengths: &[usize], end: End) -> bool {
    match expand(alloc, &Macros::new(alloc), text) {
        Ok(texts) => {
            texts.bytes.as_slice() == bytes
                && texts.lengths.as_slice() == lengths
                && texts.end == end
        }
        Err(_) => false,
    }
}

fn is_told(alloc: Global, wanted: &Expansion) -> bool {
    is_expanded(alloc, wanted.text, wanted.bytes, wanted.lengths, wanted.end)
}

// Returns whether this is the text of the line, or, for `None`, whether its macro is refused.
fn is_text(alloc: Global, line: &[u8], wanted: Option<&[u8]>) -> bool {
    match wanted {
        Some(text) => is_expanded(alloc, line, text, &[text.len()], End::Whole),
        None => is_expanded(alloc, line, b"", &[], End::BadMacro),
    }
}

#[test]
fn texts_of_lines(rt: HostRuntime) {
    for (row, (line, wanted)) in LINES.iter().enumerate() {
        assert!(rt; is_text(rt.alloc(), line, *wanted), "line {row}");
    }
    for (row, wanted) in EXPANSIONS.iter().enumerate() {
        assert!(rt; is_told(rt.alloc(), wanted), "text {row}");
    }
}
