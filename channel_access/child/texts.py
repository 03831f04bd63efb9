"""Texts as the lines for programs have them: no byte of a text ends its line or its place in it."""
import re

_ESCAPES = {b"n": b"\n", b"r": b"\r", b"t": b"\t", b"\\": b"\\"}
_ESCAPE = re.compile(rb"\\(x[0-9a-fA-F]{2}|.)", re.DOTALL)
_SPECIAL = re.compile(rb"[\x00-\x1f\x7f\\]")


def unescaped(text: bytes) -> bytes:
    """Returns the text that a line shows with escapes."""
    if b"\\" not in text:
        return text
    return _ESCAPE.sub(lambda found: bytes([int(found[1][1:], 16)]) if found[1][:1] == b"x" else _ESCAPES[found[1]], text)


def escaped(text: bytes) -> bytes:
    """Returns a text with escapes, which `unescaped` reads again."""
    return _SPECIAL.sub(lambda found: b"\\\\" if found[0] == b"\\" else b"\\x%02x" % found[0][0], text)
