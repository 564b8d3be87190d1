"""Scales of the sidebands as they are typed: which are numbers of single precision, and which the program vector takes as they are."""

import re
import struct
from fractions import Fraction

from .outcomes import Misused

FORM = re.compile(r"[0-9]{1,3}(?:\.[0-9]{1,24})?", re.ASCII)
PROGRAM_DIGITS = 16
"""Digits behind the point that the program vector takes, and the power of two that its scales are multiples of."""


def single(value: Fraction) -> Fraction:
    """The number of single precision that is nearest to a value."""
    return Fraction(struct.unpack("<f", struct.pack("<f", float(value)))[0])


def decimal(value: Fraction) -> str:
    """A fraction whose denominator is a power of two, in decimal digits, exactly."""
    places = value.denominator.bit_length() - 1
    digits = str(value.numerator * 5**places).rjust(places + 1, "0")
    whole, behind = digits[: len(digits) - places], digits[len(digits) - places :]
    return f"{whole}.{behind}".rstrip("0").rstrip(".") if behind else whole


def scale_of(word: str) -> Fraction:
    """A scale as it is typed, which must be a number of single precision exactly: then nothing is rounded."""
    if not FORM.fullmatch(word):
        raise Misused(f"a scale is one to three digits, then perhaps a point and one to 24 digits, not {word!r}")
    value = Fraction(word)
    near = single(value)
    if near != value:
        raise Misused(f"the scale {word} is no number of single precision, and a part would be rounded; the nearest is {decimal(near)}")
    return value


def is_taken(value: Fraction) -> bool:
    """Whether the program takes a scale as it is: a multiple of 2^-16."""
    scaled: Fraction = value * 2**PROGRAM_DIGITS
    return scaled.denominator == 1
