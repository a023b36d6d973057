"""The mathematical library of C: each result is the double or single nearest to the true value.

The true values come from Python's decimals, by the definitions below: 130 digits, and some 500 where a large angle is
reduced. They are rounded once, as fractions. What C says of infinities, NaN, zeros and poles is in tables. The C
library of the machine must be within a few units of the same values, so that a fault in both is unlikely. In each
batch a wrong record is planted for each function, which must be reported, and no other may be.
"""
import ctypes
import math
import random
import re
import struct
from collections.abc import Callable, Iterator
from decimal import Context, Decimal, localcontext
from fractions import Fraction
from typing import NamedTuple

from lowering.runtime import FOLDER

from .floats import bits_of, single_of, string_of
from .running import Results, Running, Skipped, differ

DIGITS, ANGLE_DIGITS = 130, 500
ARGUMENTS = 260
LIMB = 1 << 28
NAN = {"d": 0x7FF8000000000000, "s": 0x7FC00000}


class Record(NamedTuple):
    """The arguments of a call and the bits of its result."""

    arguments: tuple[float, ...]
    result: int


# True values.

def arc_tangent_of_inverse(whole: int, digits: int) -> int:
    """atan(1/whole) * 10^digits."""
    term = 10 ** digits // whole
    total, divisor, sign = 0, 1, 1
    while term:
        total, divisor, sign = total + sign * (term // divisor), divisor + 2, -sign
        term //= whole * whole
    return total


PI = Decimal(16 * arc_tangent_of_inverse(5, 520) - 4 * arc_tangent_of_inverse(239, 520)).scaleb(-520, Context(prec=530))
SMALL = Decimal("1e-25")


def alternating(first: Decimal, square: Decimal, divisor: int) -> Decimal:
    """The series of the sine (divisor 1) and of the cosine (0), and for less the square that of their sisters."""
    total, term = Decimal(0), first
    while term and abs(term) > abs(first) * Decimal("1e-135"):
        total += term
        term = -term * square / ((divisor + 1) * (divisor + 2))
        divisor += 2
    return total


def turned(x: Decimal) -> tuple[Decimal, int]:
    """What an angle is from a multiple of pi/2, and which."""
    with localcontext(Context(prec=ANGLE_DIGITS)):
        multiple = (x / (PI / 2)).to_integral_value()
        return x - multiple * PI / 2, int(multiple) % 4


def sine(x: Decimal, more: int = 0) -> Decimal:
    part, quarters = turned(x)
    part, quarters = +part, (quarters + more) % 4
    value = alternating(Decimal(1), part * part, 0) if quarters & 1 else alternating(part, part * part, 1)
    return -value if quarters & 2 else value


def cosine(x: Decimal) -> Decimal:
    return sine(x, 1)


def arc_tangent(x: Decimal) -> Decimal:
    """Halved until its series is short."""
    doublings = 0
    while abs(x) > Decimal("0.01"):
        x, doublings = x / (1 + (1 + x * x).sqrt()), doublings + 1
    total, term, divisor = Decimal(0), x, 1
    while term and abs(term) > abs(x) * Decimal("1e-135"):
        total, divisor = total + term / divisor, divisor + 2
        term = -term * x * x
    return total * (1 << doublings)


def arc_sine(x: Decimal) -> Decimal:
    return (PI / 2).copy_sign(x) if abs(x) == 1 else arc_tangent(x / ((1 - x) * (1 + x)).sqrt())


def arc_cosine(x: Decimal) -> Decimal:
    return +PI if x == -1 else 2 * arc_tangent(((1 - x) / (1 + x)).sqrt())


def angle(y: Decimal, x: Decimal) -> Decimal:
    value = arc_tangent(y / x) if abs(y) <= abs(x) else (PI / 2).copy_sign(y / x) - arc_tangent(x / y)
    return value if x > 0 else value + PI.copy_sign(y)


def more_than_one(x: Decimal) -> Decimal:
    """ln(1 + x)."""
    return x - x * x / 2 + x ** 3 / 3 - x ** 4 / 4 if abs(x) < SMALL else (1 + x).ln()


def less_one(x: Decimal) -> Decimal:
    """e^x - 1."""
    return x + x * x / 2 + x ** 3 / 6 + x ** 4 / 24 if abs(x) < SMALL else x.exp() - 1


def hyperbolic_sine(x: Decimal) -> Decimal:
    return alternating(x, -x * x, 1) if abs(x) < 1 else (x.exp() - (-x).exp()) / 2


def hyperbolic_cosine(x: Decimal) -> Decimal:
    return (x.exp() + (-x).exp()) / 2


def hyperbolic_tangent(x: Decimal) -> Decimal:
    if abs(x) > 400:
        return Decimal(1).copy_sign(x)
    return hyperbolic_sine(x) / hyperbolic_cosine(x)


def inverse_of_hyperbolic_sine(x: Decimal) -> Decimal:
    if abs(x) < SMALL:
        return x - x ** 3 / 6 + 3 * x ** 5 / 40
    return (abs(x) + (x * x + 1).sqrt()).ln().copy_sign(x)


def inverse_of_hyperbolic_cosine(x: Decimal) -> Decimal:
    return (x + (x * x - 1).sqrt()).ln()


def inverse_of_hyperbolic_tangent(x: Decimal) -> Decimal:
    return x + x ** 3 / 3 + x ** 5 / 5 if abs(x) < SMALL else ((1 + x) / (1 - x)).ln() / 2


def cube_root(x: Decimal) -> Decimal:
    return (abs(x).ln() / 3).exp().copy_sign(x)


def bernoulli(count: int) -> list[Fraction]:
    """Bernoulli's numbers."""
    found = [Fraction(1)]
    for number in range(1, count):
        found.append(-sum((math.comb(number + 1, k) * found[k] for k in range(number)), Fraction(0)) / (number + 1))
    return found


# B(2k) / (2k (2k - 1)), from k = 1 on: the coefficients of Stirling's series.
STIRLING = [number / (2 * k * (2 * k - 1)) for k, number in enumerate(bernoulli(141)[::2]) if k]


def gamma_logarithm(x: Decimal) -> tuple[Decimal, bool]:
    """The logarithm of the gamma function's magnitude, and whether the function is below 0: by Stirling's series from
    100 on."""
    product = Decimal(1)
    while x < 100:
        product, x = product * x, x + 1
    value = (x - Decimal("0.5")) * x.ln() - x + (2 * PI).ln() / 2
    for k, factor in enumerate(STIRLING):
        value += Decimal(factor.numerator) / factor.denominator / x ** (2 * k + 1)
    return value - abs(product).ln(), product < 0


def gamma(x: Decimal) -> Decimal:
    logarithm, is_negative = gamma_logarithm(x)
    return -logarithm.exp() if is_negative else logarithm.exp()


# From here on the function is 1 for all doubles, and its rest is 0.
FAR = 28


def error_function(x: Decimal, digits: int = DIGITS) -> Decimal:
    """erf, by a series whose terms have one sign."""
    if abs(x) > FAR:
        return Decimal(1).copy_sign(x)
    with localcontext(Context(prec=digits, Emax=99999999, Emin=-99999999)):
        square = x * x
        term = 2 * x / PI.sqrt() * (-square).exp()
        total, divisor = Decimal(0), 1
        while abs(term) > abs(total).scaleb(-digits):
            total += term
            divisor += 2
            term = term * 2 * square / divisor
        return total


def rest_of_error_function(x: Decimal) -> Decimal:
    """erfc, with as many more digits as it loses."""
    if x > FAR:
        return Decimal("1e-400")
    with localcontext(Context(prec=DIGITS + 370, Emax=99999999, Emin=-99999999)):
        return 1 - error_function(x, DIGITS + 370)


ONE: dict[str, Callable[[Decimal], Decimal]] = {
    "exp": Decimal.exp, "exp2": lambda x: (x * Decimal(2).ln()).exp(), "expm1": less_one, "log": Decimal.ln,
    "log2": lambda x: x.ln() / Decimal(2).ln(), "log10": Decimal.log10, "log1p": more_than_one, "sin": sine,
    "cos": cosine, "tan": lambda x: sine(x) / cosine(x), "asin": arc_sine, "acos": arc_cosine, "atan": arc_tangent,
    "sinh": hyperbolic_sine, "cosh": hyperbolic_cosine, "tanh": hyperbolic_tangent,
    "asinh": inverse_of_hyperbolic_sine, "acosh": inverse_of_hyperbolic_cosine,
    "atanh": inverse_of_hyperbolic_tangent, "cbrt": cube_root, "tgamma": gamma,
    "lgamma": lambda x: gamma_logarithm(x)[0], "erf": error_function, "erfc": rest_of_error_function,
}


def power(x: float, y: float) -> Fraction:
    """A power of a number that isn't 0, 1 or -1; exactly where it has at most 60 bits."""
    if abs(y) * abs(math.log2(abs(x))) > 1200:
        return Fraction(2) ** (1200 if (y > 0) == (abs(x) > 1) else -1200) * (-1 if x < 0 and y % 2 == 1 else 1)
    value = Fraction((Decimal(y) * abs(Decimal(x)).ln()).exp())
    fourths = y * 4
    if fourths == int(fourths) and abs(fourths) < 300:
        scale = Fraction(2) ** (60 - math.frexp(value)[1])
        close = round(value * scale) / scale
        value = close if close ** 4 == abs(Fraction(x)) ** int(fourths) else value
    return -value if x < 0 and y % 2 == 1 else value


def hypotenuse(x: float, y: float) -> Fraction:
    """The root of whole numbers; a half is added where it isn't whole, far below what rounding looks at."""
    scale = Fraction(2) ** 1400
    squares = int((Fraction(x) ** 2 + Fraction(y) ** 2) * scale * scale)
    root = math.isqrt(squares)
    return (root + Fraction(1 if root * root != squares else 0, 2)) / scale


def true_value(name: str, given: tuple[float, ...]) -> Fraction:
    with localcontext(Context(prec=DIGITS, Emax=99999999, Emin=-99999999)):
        if name == "pow":
            return power(*given)
        if name == "hypot":
            return hypotenuse(*given)
        if name == "fma":
            return Fraction(given[0]) * Fraction(given[1]) + Fraction(given[2])
        if name == "atan2":
            return Fraction(angle(Decimal(given[0]), Decimal(given[1])))
        if name == "tgamma" and given[0] > 200:
            return Fraction(2) ** 1500
        if name in ("exp", "exp2", "expm1", "sinh", "cosh") and abs(given[0]) > 1500:
            far = Fraction(2) ** 1500
            if name == "sinh":
                return far if given[0] > 0 else -far
            if given[0] < 0 and name != "cosh":
                return 1 / far - (1 if name == "expm1" else 0)
            return far
        return Fraction(ONE[name](Decimal(given[0])))


def nearest(value: Fraction, cls: str) -> int:
    """The bits of the nearest double or single, ties to even."""
    sign = value < 0
    if cls == "s":
        return sign << 31 | single_of(abs(value.numerator), 0, value.denominator)
    try:
        return bits_of(float(value))
    except OverflowError:
        return bits_of(-math.inf if sign else math.inf)


# What isn't a number, or is given exactly.

SPECIAL = {
    "exp": "0 1, -0 1, inf inf, -inf 0, nan nan", "exp2": "0 1, -0 1, inf inf, -inf 0, nan nan",
    "expm1": "0 0, -0 -0, inf inf, -inf -1, nan nan", "log": "0 -inf, -0 -inf, 1 0, -1 nan, -inf nan, inf inf, nan nan",
    "log2": "0 -inf, -0 -inf, 1 0, -1 nan, -inf nan, inf inf, nan nan, 8 3, 5e-324 -1074",
    "log10": "0 -inf, -0 -inf, 1 0, -1 nan, -inf nan, inf inf, nan nan, 1000 3, 1e22 22",
    "log1p": "0 0, -0 -0, -1 -inf, -2 nan, -inf nan, inf inf, nan nan", "sin": "0 0, -0 -0, inf nan, -inf nan, nan nan",
    "cos": "0 1, -0 1, inf nan, -inf nan, nan nan", "tan": "0 0, -0 -0, inf nan, -inf nan, nan nan",
    "asin": "0 0, -0 -0, 1.5 nan, -inf nan, nan nan", "acos": "1 0, 1.5 nan, -1.5 nan, inf nan, nan nan",
    "atan": "0 0, -0 -0, nan nan", "sinh": "0 0, -0 -0, inf inf, -inf -inf, nan nan",
    "cosh": "0 1, -0 1, inf inf, -inf inf, nan nan", "tanh": "0 0, -0 -0, inf 1, -inf -1, nan nan",
    "asinh": "0 0, -0 -0, inf inf, -inf -inf, nan nan", "acosh": "1 0, 0.5 nan, -1 nan, -inf nan, inf inf, nan nan",
    "atanh": "0 0, -0 -0, 1 inf, -1 -inf, 2 nan, -2 nan, inf nan, nan nan",
    "cbrt": "0 0, -0 -0, inf inf, -inf -inf, nan nan, 27 3, -8 -2",
    "tgamma": "0 inf, -0 -inf, -1 nan, -3 nan, -1e300 nan, -inf nan, inf inf, nan nan, 1 1, 2 1, 5 24, -200.5 -0, "
              "-201.5 0, 23 1124000727777607680000, 5e-324 inf",
    "erf": "0 0, -0 -0, inf 1, -inf -1, nan nan, 30 1, -1e300 -1, 6 1",
    "erfc": "0 1, -0 1, inf 0, -inf 2, nan nan, 30 0, -30 2, 1e300 0, 1e-300 1",
    "lgamma": "1 0, 2 0, 0 inf, -0 inf, -1 inf, -5 inf, -1e300 inf, -inf inf, inf inf, nan nan",
    "pow": "0 -1 inf, -0 -1 -inf, 0 -2 inf, -0 -2 inf, 0 -0.5 inf, -0 -0.5 inf, 0 -inf inf, -0 -inf inf, 0 3 0, "
           "-0 3 -0, 0 2 0, -0 2 0, -0 0.5 0, -1 inf 1, -1 -inf 1, 1 nan 1, 1 inf 1, 1 -3.5 1, nan 0 1, nan -0 1, "
           "inf 0 1, -3 -0 1, -2 0.5 nan, -1 0.5 nan, -1 3 -1, -1 4 1, 0.5 -inf inf, -0.5 -inf inf, 2 -inf 0, "
           "-2 -inf 0, 0.5 inf 0, "
           "-0.5 inf 0, 2 inf inf, -2 inf inf, -inf -3 -0, -inf -2 0, -inf -0.5 0, -inf 3 -inf, -inf 2 inf, "
           "-inf 0.5 inf, inf -1 0, inf 1 inf, nan 1 nan, 1.5 nan nan, nan nan nan, -2 1e300 inf, -2 -1e300 0",
    "atan2": "0 1 0, -0 1 -0, 0 0 0, -0 0 -0, 1 inf 0, -1 inf -0, 0 inf 0, nan 1 nan, 1 nan nan, inf nan nan",
    "hypot": "0 0 0, -0 -0 0, 3 -4 5, inf nan inf, nan -inf inf, -inf 1 inf, nan 1 nan, 1 nan nan, -0 -2 2",
    "fma": "0 0 0 0, 0 -0 -0 -0, 0 0 -0 0, 1 -1 1 0, -1 -0 0 0, inf 0 1 nan, 1 0 nan nan, inf 1 -inf nan, "
           "inf 2 -5 inf, 2 3 -inf -inf, nan 0 0 nan, 2 3 0 6, 2 -3 -0 -6, -2 0 5 5, 1e300 1e300 -inf -inf",
}
# Quarters of pi: the arguments, and how many.
QUARTERS = {
    "asin": "1 2, -1 -2", "acos": "-1 4, 0 2, -0 2", "atan": "inf 2, -inf -2, 1 1, -1 -1",
    "atan2": "0 -1 4, -0 -1 -4, 0 -0 4, -0 -0 -4, 1 0 2, -1 0 -2, 1 -0 2, -1 -0 -2, 1 -inf 4, -1 -inf -4, inf 1 2, "
             "-inf -1 -2, inf inf 1, -inf inf -1, inf -inf 3, -inf -inf -3, 5 5 1, 7 -7 3",
}
# Arguments whose images are very close to the middle between two doubles or to a double, published by those who looked
# for them; the double next to a multiple of pi/2 among all; powers in the middle exactly, and angles just below one.
HARD = {
    "exp": ("0x1.9e9cbbfd6080bp-31", "-0x1p-54", "0x1p-53", "0x1.62e42fefa39efp+9", "0x1.62e42fefa39f0p+9",
            "-0x1.74910d52d3051p+9", "-0x1.74910d52d3052p+9", "0x1.fffffffffffffp-54"),
    "exp2": ("0x1.e4596526bf94dp-10", "1023.9999999999999", "1024", "-1074", "-1075", "-0x1.0cc0000000001p+10",
             "-1074.5"),
    "log": ("0x1.62a88613629b6p+678", "0x1.fffffffffffffp-1", "0x1.0000000000001p+0", "5e-324"),
    "sin": ("0x1.e0000000001c2p-20", "0x1.6ac5b262ca1ffp+849", "1e22", "0x1.921fb54442d18p+1", "0x1p-1074"),
    "cos": ("0x1.8000000000009p-23", "0x1.6ac5b262ca1ffp+849", "1e22", "0x1.921fb54442d18p+0", "0x1p-27"),
    "tan": ("0x1.dfffffffffff1p-22", "0x1.6ac5b262ca1ffp+849", "0x1.921fb54442d18p+0", "0x1.921fb54442d18p-1"),
    "asin": ("0x1.dffffffffff1fp-22", "0x1.fffffffffffffp-1"),
    "acos": ("0x1.fffffffffffffp-1", "-0x1.fffffffffffffp-1"),
    "sinh": ("0x1.dfffffffffe3ep-20", "0x1.633ce8fb9f87dp+9", "0x1.633ce8fb9f87ep+9"),
    "log1p": ("0x1p-53", "-0x1p-53", "0x1p-54", "-0x1.fffffffffffffp-1"), "expm1": ("0x1p-53", "-0x1p-54", "-37.5"),
    "tgamma": ("171.6243769563027", "171.62437695630274", "0x1.0000000000001p+0", "-183.5", "-184.5", "1e-308"),
    "lgamma": ("0x1.0000000000001p+0", "0x1.fffffffffffffp-1", "0x1.0000000000001p+1", "0x1.fffffffffffffp+0",
               "-2.4570247382208006", "-2.7476826467274127", "2.5e305", "2.6e305", "1e-320"),
    "erf": ("0.5", "0x1.fffffffffffffp-2", "5.921587195794507", "5.9215871957945066", "0x1p-1074", "0x1p-1022"),
    "erfc": ("0.5", "-0x1.fffffffffffffp-2", "27.226017111108362", "27.226017111108366", "27.9", "26.543258454250985",
             "0x1p-54", "-0x1p-53", "-5.9"),
    "cosh": ("0x1.633ce8fb9f87dp+9", "0x1p-27"), "acosh": ("0x1.0000000000001p+0",),
}
HARD_PAIRS = {
    "pow": ((0x20000000000001 * 1.0, 2.0), (134217727.0, 2.0), (134217729.0, 2.0), (94906267.0, 2.0), (9.0, 1.5),
            (27.0, 17.0), (3.0, 34.0), (3.0, 33.0), (5.0, 23.0), (6007199254740993.0 ** 2, 0.5), (2.0, -1074.0),
            (2.0, -1075.0), (2.0, -1074.5), (3.0, -676.0), (1 + 2.0 ** -52, 2.0 ** 52), (1 - 2.0 ** -53, -2.0 ** 62),
            (-3.0, 33.0), (2.0, 1023.5), (0.5, 1074.0), (1.5 * 2.0 ** -537, 2.0), (1.25, 23.0), (7.0, 19.0)),
    "atan2": ((3 * 5e-324, 2.0), (5 * 5e-324, 2.0), (5e-324, 2.0), (-3 * 5e-324, 2.0), (5e-324, -2.0),
              (3 * 2.0 ** -149, 2.0), (1e-300, 1e300),
              (1e300, 1e-300), (2.0 ** -1022, 1 + 2.0 ** -52)),
    "hypot": ((5e-324, 5e-324), (1e308, 1e308), (1.5e308, 1e308), (3e200, 4e200), (2.0 ** 53 - 1, 2.0 ** 26),
              (1.0, 2.0 ** -27), (4503599627370497.0, 94906266.0)),
}
# The legs of triangles whose third side, m^2 + n^2, is odd and has 54 bits: in the middle between two doubles.
MIDDLES = [(float(m * m - n * n), float(2 * m * n))
           for m, n in ((80000000, 60000001), (90000000, 40000001), (70000002, 70000001))]


def rows(text: str, cls: str) -> Iterator[Record]:
    for row in text.split(","):
        *given, result = map(float, row.split())
        yield Record(tuple(given), encoded(result, cls))


def encoded(value: float, cls: str) -> int:
    if math.isnan(value):
        return NAN[cls]
    return bits_of(value) if cls == "d" else int(struct.unpack("<I", struct.pack("<f", value))[0])


# Arguments.

def any_double(choice: random.Random) -> float:
    return float(struct.unpack("<d", struct.pack("<Q", choice.getrandbits(64)))[0])


def between(choice: random.Random, low: float, high: float) -> float:
    """A number of either sign, whose logarithm is drawn."""
    return choice.choice((-1, 1)) * math.pow(2, choice.uniform(low, high))


def beside_one(choice: random.Random) -> float:
    return 1 + choice.choice((-0.5, 1)) * 2.0 ** choice.randrange(-52, 0) * choice.choice((1.0, choice.random()))


def argument(name: str, choice: random.Random) -> float:
    kind = choice.random()
    if name in ("log", "log2", "log10"):
        return abs(any_double(choice)) if kind < 0.4 else beside_one(choice) if kind < 0.7 else \
            abs(between(choice, -9, 9))
    if name in ("tgamma", "lgamma"):
        return choice.uniform(-195, 180) if kind < 0.4 else choice.uniform(-5, 5) if kind < 0.7 else \
            between(choice, -1030, 5) if name == "tgamma" or kind < 0.85 else abs(between(choice, 0, 1020))
    if name == "log1p":
        return between(choice, -60, 0) if kind < 0.6 else abs(between(choice, -1070, 1020))
    if name in ("exp", "exp2", "expm1", "sinh", "cosh", "tanh"):
        return between(choice, -60, 10.2) if kind < 0.5 else choice.uniform(-1100, 1100) if kind < 0.8 else \
            between(choice, -1070, 5)
    if name in ("asin", "acos", "atanh"):
        return between(choice, -60, 0) if kind < 0.5 else choice.choice((-1, 1)) * min(beside_one(choice), 0.999) \
            if kind < 0.7 else choice.uniform(-1, 1)
    if name in ("erf", "erfc"):
        return choice.uniform(-7, 28) if kind < 0.5 else choice.uniform(-6, 6) if kind < 0.7 else \
            between(choice, -60, 1) if kind < 0.9 else between(choice, -1074, 5)
    if name == "acosh":
        return 1 + abs(between(choice, -52, 0)) if kind < 0.5 else abs(between(choice, 0, 1020))
    return any_double(choice) if kind < 0.3 else between(choice, -60, 5) if kind < 0.7 else choice.uniform(-100, 100)


def pair(name: str, choice: random.Random) -> tuple[float, float]:
    kind = choice.random()
    if name == "pow":
        if kind < 0.3:
            return float(choice.randrange(-90, 90) or 3), float(choice.randrange(-40, 60))
        if kind < 0.4:
            return float(choice.randrange(2, 60000) ** choice.choice((2, 4))), choice.randrange(-30, 60) / 4
        if kind < 0.6:
            return beside_one(choice), between(choice, 0, 60)
        return abs(any_double(choice)), between(choice, -10, 3)
    if kind < 0.1:
        return any_double(choice), any_double(choice)
    first = between(choice, -1070, 1000) if kind < 0.4 else between(choice, -5, 5)
    return first, first * between(choice, -40, 20)


def triple(choice: random.Random) -> tuple[float, float, float]:
    kind = choice.random()
    x, y = (between(choice, -537, -500), between(choice, -537, -500)) if kind < 0.2 else \
        (between(choice, -30, 30), between(choice, -30, 30))
    if kind < 0.3:
        return x, y, between(choice, -1074, -1020)
    if kind < 0.4:
        return any_double(choice), any_double(choice), any_double(choice)
    return x, y, -x * y * (1 + choice.choice((0, 1, -1, 2)) * 2.0 ** -choice.randrange(60))


def is_plain(name: str, given: tuple[float, ...]) -> bool:
    """Whether the definitions above have a value there."""
    if any(not math.isfinite(value) or value == 0 for value in given):
        return False
    x = given[0]
    if name in ("log", "log2", "log10"):
        return 0 < x != 1
    if name == "log1p":
        return x > -1
    if name in ("asin", "atanh", "acos"):
        return abs(x) < 1
    if name == "acosh":
        return x > 1
    if name in ("tgamma", "lgamma"):
        return x > 0 and x not in (1, 2) or -300 < x != int(x)
    if name == "pow":
        return abs(x) != 1 and (x > 0 or given[1] == int(given[1]))
    return True


def as_single(value: float) -> float:
    try:
        return float(struct.unpack("<f", struct.pack("<f", value))[0])
    except OverflowError:
        return math.copysign(math.inf, value)


def given_to(name: str, cls: str) -> list[tuple[float, ...]]:
    """The arguments that are tried beside those of the tables."""
    choice = random.Random(f"{name} {cls}")
    found: list[tuple[float, ...]] = [(float.fromhex(text) if "x" in text else float(text),)
                                      for text in HARD.get(name, ())]
    found += HARD_PAIRS.get(name, ())
    found += MIDDLES if name == "hypot" else []
    while len(found) < ARGUMENTS:
        found.append((argument(name, choice),) if name in ONE else triple(choice) if name == "fma" else
                     pair(name, choice))
    if cls == "s":
        found = [tuple(map(as_single, given)) for given in found]
    return [given for given in found if is_plain(name, given)]


def quarters(name: str, cls: str) -> Iterator[Record]:
    for row in QUARTERS.get(name, "").split(",") if name in QUARTERS else ():
        *given, count = map(float, row.split())
        with localcontext(Context(prec=DIGITS)):
            yield Record(tuple(given), nearest(Fraction(PI / 4 * int(count)), cls))


def result_of(name: str, cls: str, given: tuple[float, ...]) -> int:
    value = true_value(name, given)
    if name == "atan2" and given[1] > 0 and abs(given[0] / given[1]) < 2.0 ** -1000:
        # The quotient may be in a middle, and the angle is less than it.
        value = Fraction(given[0]) / Fraction(given[1]) * (1 - Fraction(1, 1 << 2000))
    bits = nearest(value, cls)
    if value and not bits << 1 & 0xFFFFFFFFFFFFFFFF:
        return (value < 0) << (63 if cls == "d" else 31)
    return bits


def records_of(name: str, cls: str) -> list[Record]:
    found = [Record(given, result_of(name, cls, given)) for given in given_to(name, cls)]
    special = SPECIAL[name]
    if cls == "s":
        special = ",".join(row for row in special.split(",") if "e" not in row)
    return [*found, *rows(special, cls), *quarters(name, cls)]


# The program.

CHECK = """
function $check.NAME() {
@start
	%at =l copy $records.NAME
	%number =w copy 0
@loop
	%is =w cultw %number, COUNT
	jnz %is, @call, @end
@call
LOADS
	%result =T call $FUNCTION(ARGUMENTS)
	%bits =I cast %result
	%is.nan =w cuoT %result, %result
	jnz %is.nan, @nan, @compare
@nan
	%bits =I copy NANBITS
@compare
	%wanted =I loadI %at
	%at =l add %at, SIZE
	%differs =w cneI %bits, %wanted
	jnz %differs, @differs, @next
@differs
	%written =w call $printf(l $format, ..., l $name.NAME, w %number)
@next
	%number =w add %number, 1
	jmp @loop
@end
	ret
}
data $name.NAME = { b "NAME\\0" }
"""


def check_of(name: str, cls: str, records: list[Record]) -> str:
    """A function that makes the calls of a name and prints the numbers of those with another result."""
    carried, size, letter = {"s": ("w", 4, "I"), "d": ("l", 8, "Q")}[cls]
    count = len(records[0].arguments)
    loads = "\n".join(f"\t%a{index} ={cls} load{cls} %at\n\t%at =l add %at, {size}" for index in range(count))
    text = CHECK.replace("LOADS", loads).replace("ARGUMENTS", ", ".join(f"{cls} %a{index}" for index in range(count)))
    for word, put in (("COUNT", str(len(records))), ("FUNCTION", name + ("f" if cls == "s" else "")),
                      ("NANBITS", str(NAN[cls])), ("SIZE", str(size)), ("=T", f"={cls}"), ("=I", f"={carried}"),
                      ("loadI", f"load{carried}"), ("cneI", f"cne{carried}"), ("cuoT", f"cuo{cls}"), ("NAME", name)):
        text = text.replace(word, put)
    floating = "f" if cls == "s" else "d"
    packed = b"".join(struct.pack(f"<{floating * count}{letter}", *each.arguments, each.result) for each in records)
    return text + f"data $records.{name} = align 8 {{ b {string_of(packed)} }}\n"


def program_of(cls: str, tried: dict[str, list[Record]]) -> str:
    calls = "".join(f"\tcall $check.{name}()\n" for name in tried)
    return "export function w $main() {\n@start\n" + calls + "\tret 0\n}\ndata $format = { b \"%s %d\\n\\0\" }\n" + \
        "".join(check_of(name, cls, records) for name, records in tried.items())


def batch_fault(running: Running, cls: str, tried: dict[str, list[Record]]) -> str | None:
    """What is wrong in a batch: of each function only the planted record may and must be reported."""
    planted = {name: records + [records[0]._replace(result=records[0].result ^ 1)] for name, records in tried.items()}
    lowered = running.lower_here(program_of(cls, planted))
    if isinstance(lowered, str) or lowered.overflows:
        return lowered if isinstance(lowered, str) else lowered.overflows[0]
    run = running.run(lowered.text)
    wanted = [f"{name} {len(records)}" for name, records in tried.items()]
    told = run.output.split("\n")[:-1]
    wrong = [line for line in told if line not in wanted]
    if wrong:
        name, number = wrong[0].split()
        given = ", ".join(value.hex() for value in planted[name][int(number)].arguments)
        return f"{len(wrong)} results, the first {name}({given}), which isn't {planted[name][int(number)].result:x}"
    return differ("end", "done 0", run.end) or differ("records that were planted", wanted, told)


# How many bits are right before a result is rounded.

RIGHT_BITS = 176
TRIED_BITS = 80
# In the place of the function that rounds: it writes the number that is to be rounded.
TOLD = """
function l $wide.rounded(l %a, l %sign, l %is.single) {
@start
	%at =l copy %a
	%end =l add %a, 64
@loop
	%byte =w loadub %at
	%written =w call $putchar(w %byte)
	%at =l add %at, 1
	%is.end =w ceql %at, %end
	jnz %is.end, @end, @loop
@end
	ret 0
}
"""


def is_rounded(name: str, given: tuple[float, ...], value: Fraction) -> bool:
    """Whether a result is neither beyond doubles nor one of those that are known without looking closer."""
    if name == "hypot":
        return 2.0 ** -27 < abs(given[0] / given[1]) < 2.0 ** 27
    return Fraction(1, 2) ** 1100 < value < 2 ** 1100 and (name != "tanh" or abs(given[0]) < 1000) and \
        (name not in ("erf", "erfc") or abs(given[0]) < FAR)


def bits_fault(running: Running, name: str) -> str | None:
    """What is rounded must be right in many more bits than rounding looks at."""
    tried: list[tuple[tuple[float, ...], Fraction]] = []
    for given in given_to(name, "d"):
        value = true_value(name, given)
        if is_rounded(name, given, abs(value)) and len(tried) < TRIED_BITS:
            tried.append((given, abs(value)))
    records = [Record(given, 0) for given, _ in tried]
    printed = f"\t%written =w call $printf(l $format, ..., l $name.{name}, w %number)\n"
    program = f"export function w $main() {{\n@start\n\tcall $check.{name}()\n\tret 0\n}}\n" + \
        check_of(name, "d", records).replace(printed, "")
    lowered = running.lower_here(program)
    if isinstance(lowered, str):
        return lowered
    text = lowered.text.replace("function l $wide.rounded(", "function l $wide.rounded.unused(") + TOLD
    found = list(struct.iter_unpack("<7Qq", running.run(text).output.encode("latin-1")))
    for (given, value), (*limbs, power_of_two) in zip(tried, found, strict=True):
        told = sum(limb * LIMB ** (6 - place) for place, limb in enumerate(limbs)) * Fraction(2) ** (power_of_two - 196)
        # Near its zeros a logarithm of the gamma function has as many bits as elsewhere behind the point.
        scale = max(value, Fraction(1)) if name == "lgamma" else value
        if abs(told - value) >= scale / (1 << RIGHT_BITS):
            return f"{name}({', '.join(x.hex() for x in given)}) is right in {right_bits(told / value - 1)} bits"
    return None


def right_bits(error: Fraction) -> int:
    return error.denominator.bit_length() - abs(error.numerator).bit_length()


# The machine's own library.

# How many units in the last place it may be away, and an angle that it reduces by too few bits.
REDUCED = float.fromhex("0x1.6ac5b262ca1ffp+849")
UNITS = {name: 2 for name in "expm1 log1p sinh cosh tanh asinh acosh atanh tan atan2 log10 log2".split()} | \
    {"cbrt": 4, "tgamma": 12, "lgamma": 12, "erfc": 6}


def native_fault(cls: str, tried: dict[str, list[Record]]) -> str | None:
    library = ctypes.CDLL("libm.so.6")
    kind = ctypes.c_double if cls == "d" else ctypes.c_float
    for name, records in tried.items():
        call = getattr(library, name + ("f" if cls == "s" else ""))
        call.restype, call.argtypes = kind, [kind] * len(records[0].arguments)
        for record in records:
            found = encoded(call(*record.arguments), cls)
            if abs(found - record.result) > UNITS.get(name, 1) and record.arguments[0] != REDUCED:
                given = ", ".join(value.hex() for value in record.arguments)
                return f"{name}({given}) is {found:x} there and {record.result:x} here"
    return None


# The tables of the runtime.

def table(name: str) -> list[int]:
    """The numbers of an object of data in the runtime."""
    for path in FOLDER.glob("*.ssa"):
        found = re.search(rf"^(?:export )?data \${re.escape(name)} = align 8 \{{(.*?)\}}", path.read_text(),
                          re.MULTILINE | re.DOTALL)
        if found:
            return [int(number) for number in re.findall(r"-?\d+", found.group(1))]
    raise KeyError(name)


def vectors(name: str) -> list[int]:
    """The vectors of a table as whole numbers that count 2^-196."""
    numbers = table(name)
    return [sum(limb * LIMB ** (6 - place) for place, limb in enumerate(numbers[at:at + 7]))
            for at in range(0, len(numbers), 7)]


def vectors_fault(name: str, values: list[Decimal]) -> str | None:
    found = vectors(name)
    wanted = [value * LIMB ** 7 for value in values]
    return differ("rows", len(wanted), len(found)) or next(
        (f"row {row}" for row, (one, other) in enumerate(zip(found, wanted)) if abs(one - other) > 1), None)


def scaled_fault(name: str, value: Decimal, row: int = 0) -> str | None:
    *limbs, power_of_two = table(name)[8 * row:8 * row + 8]
    found = sum(limb * LIMB ** (6 - place) for place, limb in enumerate(limbs))
    return differ("limbs", True, 7 == len(limbs) and LIMB // 2 <= limbs[0] < LIMB) or \
        differ("value", True, abs(found - value * LIMB ** 7 / Decimal(2) ** power_of_two) <= 1)


def tables() -> Results:
    with localcontext(Context(prec=DIGITS)):
        two, ten = Decimal(2).ln(), Decimal(10).ln()
        factorial = [Decimal(math.factorial(number)) for number in range(20)]
        wanted: dict[str, list[Decimal]] = {
            "exponential.series": [two ** k / factorial[k] for k in range(14, -1, -1)],
            "exponential.coarse": [(two * k / 32).exp() for k in range(-16, 17)],
            "exponential.fine": [(two * k / 1024).exp() for k in range(-16, 17)],
            "logarithm.series": [Decimal((-1) ** k) / (k + 1) for k in range(17, -1, -1)],
            "logarithm.coarse": [(Decimal(1 << 28) / ((1 << 33) // k)).ln() for k in range(23, 46)],
            "logarithm.fine": [(Decimal(1 << 28) / ((1 << 38) // (1024 + k))).ln() for k in range(-24, 25)],
            "logarithm.of.two": [two],
            "circular.sine.series": [(-1) ** k / factorial[2 * k + 1] for k in range(9, -1, -1)],
            "circular.cosine.series": [(-1) ** k / factorial[2 * k] for k in range(9, -1, -1)],
            "circular.sines": [sine(Decimal(k) / 64) for k in range(51)],
            "circular.cosines": [cosine(Decimal(k) / 64) for k in range(51)],
            "arc.series": [Decimal((-1) ** k) / (2 * k + 1) for k in range(13, -1, -1)],
            "arc.angles": [arc_tangent(Decimal(k) / 64) for k in range(65)],
            "arc.quarter": [PI / 4], "arc.unit": [Decimal(1)],
            "gamma.series": [Decimal(STIRLING[k].numerator) / STIRLING[k].denominator / Decimal(64) ** k
                             for k in range(45, -1, -1)],
            "error.root": [-1 / PI.sqrt()],
            "error.odd.powers": [(-1) ** k * 2 / PI.sqrt() / math.factorial(k) / (2 * k + 1)
                                 for k in range(35, -1, -1)],
        }
        for name, values in wanted.items():
            yield f"mathematics/table {name}", vectors_fault(name, values)
        for name, value in (("exponential.one.by.logarithm", 1 / two), ("logarithm.one.by.that.of.2", 1 / two),
                            ("logarithm.one.by.that.of.10", 1 / ten), ("circular.half.pi", PI / 2),
                            ("wide.one", Decimal(1)), ("gamma.pi", +PI), ("gamma.half", Decimal("0.5")),
                            ("gamma.half.logarithm", (2 * PI).ln() / 2)):
            yield f"mathematics/table {name}", scaled_fault(name, value)
        rows = [(Decimal(k * k) / 16).exp() * rest_of_error_function(Decimal(k) / 4) for k in range(2, 113)]
        yield "mathematics/table error.table", differ("numbers", 8 * len(rows), len(table("error.table"))) or next(
            (fault for row, value in enumerate(rows) if (fault := scaled_fault("error.table", value, row))), None)
    with localcontext(Context(prec=ANGLE_DIGITS)):
        bits = int(2 / PI * LIMB ** 47)
        yield "mathematics/table circular.two.by.pi", differ(
            "limbs", [0, 0, 0] + [bits >> 28 * (46 - place) & LIMB - 1 for place in range(47)],
            table("circular.two.by.pi"))


QUOTIENTS = """
type :words = { w, w }
type :longs = { l, l }
export function w $main() {
@start
	%p =:words call $div(w -17, w 5)
	%a =w loadw %p
	%place =l add %p, 4
	%b =w loadw %place
	%q =:longs call $ldiv(l 100000000000, l -7)
	%c =l loadl %q
	%place =l add %q, 8
	%d =l loadl %place
	%r =:longs call $lldiv(l -9, l 2)
	%e =l loadl %r
	call $div(w 1, w 1)
	%written =w call $printf(l $format, ..., w %a, w %b, l %c, l %d, l %e)
	ret 0
}
data $format = { b "%d %d %ld %ld %ld\\n\\0" }
"""


def middles_fault() -> str | None:
    """The sides are whole numbers that doubles have, but for the longest."""
    sides = [math.isqrt(int(a) ** 2 + int(b) ** 2) for a, b in MIDDLES]
    return differ("squares", [int(a) ** 2 + int(b) ** 2 for a, b in MIDDLES], [side * side for side in sides]) or \
        differ("sides", [True] * len(sides), [side % 2 == 1 and side.bit_length() == 54 for side in sides])


def quotients_fault(running: Running) -> str | None:
    lowered = running.lower_here(QUOTIENTS)
    return lowered if isinstance(lowered, str) else \
        differ("output", "-3 -2 -14285714285 5 -4\n", running.run(lowered.text).output)


def results(running: Running) -> Results:
    yield from tables()
    yield "mathematics/quotients", quotients_fault(running)
    yield "mathematics/middles", middles_fault()
    names = [*ONE, "pow", "atan2", "hypot", "fma"]
    few = {name: [*records_of(name, "d")][:3] for name in names}
    yield "mathematics/no suspicion", running.suspicion(program_of("d", few))
    for name in names[:-1]:
        yield f"mathematics/bits of {name}", bits_fault(running, name)
    for cls in "ds":
        for first in range(0, len(names), 6):
            tried = {name: records_of(name, cls) for name in names[first:first + 6]}
            count = sum(map(len, tried.values()))
            title = f"{'doubles' if cls == 'd' else 'singles'} of {', '.join(tried)} ({count} calls)"
            yield f"mathematics/{title}", batch_fault(running, cls, tried)
            try:
                yield f"mathematics/native {title}", native_fault(cls, tried)
            except OSError:
                yield f"mathematics/native {title}", Skipped("glibc")
