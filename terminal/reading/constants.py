"""The bits of floating constants, rounded exactly as IEEE 754 says: to nearest, ties to even."""
import re
from fractions import Fraction
from typing import NamedTuple

HEXADECIMAL = re.compile(r"0x([0-9a-f]*)\.?([0-9a-f]*)(?:p([+-]?[0-9]+))?")
DECIMAL = re.compile(r"([0-9]*)\.?([0-9]*)(?:e([+-]?[0-9]+))?")
# So many digits decide a rounding; of those behind them only whether one isn't zero counts.
MOST_DIGITS = 1000
MOST_POWER = 1 << 20


class Format(NamedTuple):
    """A binary format: the bits of its significand, the leading one included, and of its exponent."""

    precision: int
    exponent_bits: int

    @property
    def bias(self) -> int:
        return (1 << self.exponent_bits - 1) - 1

    @property
    def infinity(self) -> int:
        return (1 << self.exponent_bits) - 1 << self.precision - 1

    @property
    def sign(self) -> int:
        return 1 << self.precision - 1 + self.exponent_bits


FORMATS = {"s": Format(24, 8), "d": Format(53, 11)}


def rounded(numerator: int, denominator: int, target: Format) -> int:
    """The bits of the value of a format that is nearest to a fraction that isn't negative."""
    if numerator == 0:
        return 0
    # The exponent of the last place: that of the value's own leading bit, or the format's least.
    exponent = numerator.bit_length() - denominator.bit_length()
    if numerator << max(-exponent, 0) < denominator << max(exponent, 0):
        exponent -= 1
    place = max(exponent, 1 - target.bias) - (target.precision - 1)
    quotient, rest = divmod(numerator << max(-place, 0), denominator << max(place, 0))
    twice, whole = 2 * rest, denominator << max(place, 0)
    if twice > whole or twice == whole and quotient & 1:
        quotient += 1
    # The leading bit of a normal value adds one to the field of the exponent, and a carry goes there too.
    field = place + target.precision - 1 + target.bias - 1
    return min((field << target.precision - 1) + quotient, target.infinity)


def shortened(digits: str, base: int) -> tuple[int, int]:
    """Digits as a number, and how many were left out after it: it ends in a 1 if any of these isn't zero."""
    digits = digits.lstrip("0") or "0"
    front, rest = digits[:MOST_DIGITS], digits[MOST_DIGITS:]
    if not rest.strip("0"):
        return int(front, base), len(rest)
    return int(front + "1", base), len(rest) - 1


def power_of(text: str | None) -> int:
    """An exponent; one that is far out of range stays so."""
    digits = (text or "0").lstrip("+-").lstrip("0")
    power = int(digits or "0") if len(digits) < 10 else MOST_POWER
    return -min(power, MOST_POWER) if text and text[0] == "-" else min(power, MOST_POWER)


def decimal_fraction(whole: str, part: str, power: int) -> Fraction:
    """A decimal; one that is far out of range stays so, without its thousands of digits."""
    number, left_out = shortened(whole + part, 10)
    power += left_out - len(part)
    length = len(str(number)) + power
    if number == 0 or length < -MOST_DIGITS:
        return Fraction(0)
    return Fraction(number) * Fraction(10) ** power if length < MOST_DIGITS else Fraction(1 << 2000)


def hexadecimal_fraction(whole: str, part: str, power: int) -> Fraction:
    number, left_out = shortened(whole + part, 16)
    power += 4 * (left_out - len(part))
    length = number.bit_length() + power
    if number == 0 or length < -2000:
        return Fraction(0)
    return Fraction(number) * Fraction(2) ** power if length < 2000 else Fraction(1 << 2000)


def constant_bits(text: str) -> int:
    """The bits of a constant as `s_1.5`, `d_-0x1p3`, `d_inf`, as scanf of C reads the number."""
    target, body = FORMATS[text[0]], text[2:].lower()
    sign = target.sign if body.startswith("-") else 0
    body = body.lstrip("+-")
    if body.startswith("inf"):
        return sign | target.infinity
    if body.startswith("nan"):
        return sign | target.infinity | 1 << target.precision - 2
    match, fraction_of = HEXADECIMAL.fullmatch(body), hexadecimal_fraction
    if not match:
        match, fraction_of = DECIMAL.fullmatch(body), decimal_fraction
    assert match is not None
    whole, part, power = match.groups()
    value = fraction_of(whole, part, power_of(power))
    return sign | rounded(value.numerator, value.denominator, target)
