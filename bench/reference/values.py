"""Exact numbers: eight-byte reals, lengths in SPICE texts, lengths in micrometres."""

import re
import sys
from fractions import Fraction

sys.set_int_max_str_digits(0)

NOT_NUMBER, TOO_FINE, TOO_LARGE = 1, 2, 3
LIMIT_EXPONENT = 18         # lengths end at 10^18 femtometres
AREA_EXPONENT = 30          # areas end at 10^30 square picometres

SUFFIXES = {b"F": -15, b"P": -12, b"N": -9, b"U": -6, b"M": -3,
            b"K": 3, b"MEG": 6, b"G": 9, b"T": 12}
NUMBER = re.compile(rb"(\d*)(?:\.(\d*))?(?:E([+-]?\d+))?([A-Z]*)")


class ValueFault(Exception):
    """A SPICE value that isn't accepted; `number` says why."""

    def __init__(self, number):
        super().__init__(number)
        self.number = number


def real8(data):
    """The value of an eight-byte excess-64 real as a fraction."""
    sign = -1 if data[0] & 0x80 else 1
    exponent = data[0] & 0x7F
    mantissa = int.from_bytes(data[1:8], "big")
    return sign * mantissa * Fraction(16) ** (exponent - 78)


def unit_picometres(data):
    """The unit as a whole number of picometres, halves upwards, or None."""
    twice = 2 * real8(data) * 10 ** 12
    number = (twice + 1) / 2
    whole = number.numerator // number.denominator
    return whole if 1 <= whole <= 1000000 else None


def quarter(data):
    """The number of quarter turns of an angle in degrees, or None."""
    value = real8(data)
    if value.denominator != 1 or value % 90 != 0 or abs(value) > 360:
        return None
    return int(value) // 90 % 4


def _scaled(text, power, limit_exponent):
    """The whole number text * 10^power, or the fault."""
    found = NUMBER.fullmatch(text.upper())
    if not found:
        raise ValueFault(NOT_NUMBER)
    whole, part, exponent, letters = found.groups()
    part = part or b""
    if not whole and not part:
        raise ValueFault(NOT_NUMBER)
    shift = 0
    if letters:
        if letters.startswith(b"MIL"):
            raise ValueFault(NOT_NUMBER)
        if letters.startswith(b"MEG"):
            shift = SUFFIXES[b"MEG"]
        elif letters[:1] in SUFFIXES:
            shift = SUFFIXES[letters[:1]]
        else:
            raise ValueFault(NOT_NUMBER)
    digits = (whole + part).lstrip(b"0")
    if not digits:
        return 0
    shift += power - len(part) + int(exponent or b"0")
    # digits * 10^shift has len(digits) + shift digits before its point
    if len(digits) + shift > limit_exponent + 1:
        raise ValueFault(TOO_LARGE)
    if len(digits) + shift < 0:
        raise ValueFault(TOO_FINE)
    value = int(digits) * Fraction(10) ** shift
    if value > 10 ** limit_exponent:
        raise ValueFault(TOO_LARGE)
    if value.denominator != 1:
        raise ValueFault(TOO_FINE)
    return int(value)


def parse_length(text):
    """A length in femtometres."""
    return _scaled(text, 15, LIMIT_EXPONENT)


def parse_area(text):
    """An area in square picometres."""
    return _scaled(text, 24, AREA_EXPONENT)


def _decimal(number, places):
    whole, rest = divmod(number, 10 ** places)
    part = str(rest).zfill(places).rstrip("0") if rest else ""
    return (str(whole) + ("." + part if part else "")).encode()


def micron_text(femto):
    """A length in micrometres, in decimal."""
    return _decimal(femto, 9)


def area_text(square_pico):
    """An area in square micrometres, in decimal."""
    return _decimal(square_pico, 12)
