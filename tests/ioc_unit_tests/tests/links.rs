//! Link texts, each printed and parsed again, and texts that aren't links.
use ioc_links::{LinkKind, is_record_name, parse, print};

const REFUSED: &[u8] = b"?";

// Numbers of 39 and of 40 bytes.
const LONGEST_REAL: &[u8] = b"0.1234567890123456789012345678901234567";

const LONG_REAL: &[u8] = b"0.12345678901234567890123456789012345678";

// Returns whether the link of the text is printed as expected. A text that isn't a link is refused.
fn is_printed(text: &[u8], wanted: &[u8]) -> bool {
    match parse(LinkKind::WithDevice, text) {
        Ok(link) => print(&link).as_slice() == wanted,
        Err(_) => wanted == REFUSED,
    }
}

// Returns whether the link is printed as expected, and again after that text is parsed.
fn is_spelled(text: &[u8], wanted: &[u8]) -> bool {
    is_printed(text, wanted) && (wanted == REFUSED || is_printed(wanted, wanted))
}

static LINKS: [(&[u8], &[u8]); 33] = [
    (b"a PP MSS NPP", b"a.VAL NPP MSS"),
    (b"a PP MSS MS MSI", b"a.VAL PP MSI"),
    (b"a MSS MS", b"a.VAL NPP MSS"),
    (b"a MSS NMS MS", b"a.VAL NPP NMS"),
    (b"-0x10", b"-16"),
    (b"123 PP", b"123.VAL PP NMS"),
    (b"1.", b"1."),
    (b"@", b"?"),
    (b"a.val", b"?"),
    (b"{}", b"?"),
    (b"a CPP", b"?"),
    (b"9223372036854775808", b"?"),
    (b"-9223372036854775808", b"-9223372036854775808"),
    (b"0xFFFFFFFFFFFFFFFFFF", b"?"),
    (b" \t ", b""),
    (b"@ card 3 ", b"@card 3"),
    (b"1e5", b"1e5"),
    (b"1e5 MS", b"1e5.VAL NPP MS"),
    (b".5", b".5"),
    (b" \t-.5E-3 ", b"-.5E-3"),
    (b"+1.50", b"+1.50"),
    (b"1e", b"1e.VAL NPP NMS"),
    (b"1.5 MS", b"1.5 NPP MS"),
    (b"nan", b"nan.VAL NPP NMS"),
    (b"1.e5", b"1.e5"),
    (b"1.5e+", b"?"),
    (LONGEST_REAL, LONGEST_REAL),
    (LONG_REAL, b"?"),
    (b"inf", b"inf.VAL NPP NMS"),
    (b"a.", b"?"),
    (b"\tq.LNKA\tMS MSI", b"q.LNKA NPP MSI"),
    (b"a CP", b"?"),
    (b"a.LONGFIELD", b"?"),
];

#[test]
fn link_texts(rt: HostRuntime) {
    for (row, (text, wanted)) in LINKS.iter().enumerate() {
        assert!(rt; is_spelled(text, wanted), "row {row}");
    }
}

static LONG: [u8; 121] = [b' '; 121];

static NAME: [u8; 61] = [b'n'; 61];

#[test]
fn long_texts_and_devices(rt: HostRuntime) {
    let held = [
        parse(LinkKind::WithDevice, &LONG).is_err(),
        parse(LinkKind::WithDevice, &LONG[..120]).is_ok(),
        parse(LinkKind::NoDevice, b"@d").is_err(),
        is_record_name(&NAME[..60]),
        !is_record_name(&NAME),
        !is_record_name(b""),
        !is_record_name(b"a.b"),
        is_record_name(b"!{@}~"),
    ];
    assert!(rt; held == [true; 8]);
}
