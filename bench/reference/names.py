"""Names: folding of letters, the written form with escapes and back."""

PLAIN = frozenset(
    b"abcdefghijklmnopqrstuvwxyzABCDEFGHIJKLMNOPQRSTUVWXYZ0123456789_./[]<>#:!-"
)
HEX = b"0123456789abcdefABCDEF"


class BadEscape(Exception):
    """A backslash in a name that begins no known escape."""


def folded(name):
    """Small letters become capitals; all other bytes stay."""
    return name.upper()


def escape(name):
    """The written form of a name."""
    out = bytearray()
    for byte in name:
        if byte in PLAIN:
            out.append(byte)
        elif 33 <= byte <= 126:
            out += b"\\" + bytes([byte])
        else:
            out += b"\\x%02X" % byte
    return bytes(out)


def unescape(text):
    """The name that a written form stands for."""
    out = bytearray()
    place = 0
    while place < len(text):
        byte = text[place]
        if byte != 0x5C:
            out.append(byte)
            place += 1
            continue
        follow = text[place + 1:place + 2]
        if follow in (b"x", b"X"):
            digits = text[place + 2:place + 4]
            if len(digits) < 2 or any(d not in HEX for d in digits):
                raise BadEscape()
            out.append(int(digits, 16))
            place += 4
        elif follow and 33 <= follow[0] <= 126:
            out += follow
            place += 2
        else:
            raise BadEscape()
    return bytes(out)
