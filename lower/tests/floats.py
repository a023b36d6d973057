"""Floats against the processor: pairs of operands with the bits of their results, compared by a text of QBE in batches.

Python's floats, which are the processor's, give the doubles. Singles are computed exactly, in whole numbers, and
rounded once. A planted record with a wrong result must be reported, and no other may be.
"""
import itertools
import math
import random
import struct
from collections.abc import Callable, Iterable

from .running import Results, Running

PAIRS = 100_000
DOUBLES_AT_ONCE, SINGLES_AT_ONCE = 12_500, 21_000
NAN_DOUBLE, NAN_SINGLE = 0x7FF8000000000000, 0x7FC00000

# A program that goes through records of two operands, four results, and a byte of the eight comparisons.
PAIR_PROGRAM = """
export function w $main() {
@start
	%at =l copy $records
	%index =w copy 0
@loop
	%is.end =w ceqw %index, COUNT
	jnz %is.end, @end, @record
@record
	%a =T loadT %at
	%at =l add %at, SIZE
	%b =T loadT %at
	%at =l add %at, SIZE
	%sum =T add %a, %b
	%at =l call $check(T %sum, l %at, w %index, w 1)
	%difference =T sub %a, %b
	%at =l call $check(T %difference, l %at, w %index, w 2)
	%product =T mul %a, %b
	%at =l call $check(T %product, l %at, w %index, w 3)
	%quotient =T div %a, %b
	%at =l call $check(T %quotient, l %at, w %index, w 4)
	%found =w call $compared(T %a, T %b)
	%wanted =w loadub %at
	%at =l add %at, 1
	%differ =w cnew %found, %wanted
	jnz %differ, @told, @next
@told
	call $tell(w %index, w 5)
@next
	%index =w add %index, 1
	jmp @loop
@end
	ret %index
}

function w $compared(T %a, T %b) {
@start
	%sum =w ceqT %a, %b
COMPARISONS
	ret %sum
}

function l $check(T %value, l %at, w %index, w %number) {
@start
	%found =I cast %value
	%wanted =I loadI %at
	%behind =l add %at, SIZE
	%is.same =w ceqI %found, %wanted
	jnz %is.same, @same, @other
@same
	ret %behind
@other
	%nan =T loadT %at
	%one =w cuoT %nan, %nan
	%two =w cuoT %value, %value
	%both =w and %one, %two
	jnz %both, @same, @told
@told
	call $tell(w %index, w %number)
	ret %behind
}

function $tell(w %index, w %number) {
@start
	%written =w call $printf(l $format, ..., w %index, w %number)
	ret
}

data $format = { b "%d %d\\n\\0" }
"""
COMPARISONS = ("eq", "ne", "lt", "le", "gt", "ge", "o", "uo")


def double(bits: int) -> float:
    return float(struct.unpack("<d", struct.pack("<Q", bits))[0])


def bits_of(value: float) -> int:
    return int(struct.unpack("<Q", struct.pack("<d", value))[0])


def single(bits: int) -> float:
    return float(struct.unpack("<f", struct.pack("<I", bits))[0])


# Singles, exactly.

def single_of(numerator: int, power: int, denominator: int = 1) -> int:
    """The bits of the single nearest to numerator * 2^power / denominator, ties to even; without a sign."""
    if numerator == 0:
        return 0
    place = max(numerator.bit_length() - denominator.bit_length() + power - 24, -149)
    while True:
        shift = power - place
        whole, rest = divmod(numerator << max(shift, 0), denominator << max(-shift, 0))
        if whole < 1 << 24:
            break
        place += 1
    twice, unit = 2 * rest, denominator << max(-shift, 0)
    whole += twice > unit or twice == unit and whole & 1
    if whole == 1 << 24:
        whole, place = whole >> 1, place + 1
    if place > 104:
        return 0x7F800000
    return whole if whole < 1 << 23 else (place + 150 << 23) + whole - (1 << 23)


def parts(bits: int) -> tuple[int, int]:
    """A finite single as a whole number with its sign, and the power of two that it is multiplied by."""
    field, fraction = bits >> 23 & 255, bits & 0x7FFFFF
    whole = fraction | (1 << 23 if field else 0)
    return -whole if bits >> 31 else whole, max(field, 1) - 150


def signed_single(value: int, power: int, denominator: int = 1) -> int:
    return (1 << 31 if value < 0 else 0) | single_of(abs(value), power, denominator)


def single_sum(a: int, b: int) -> int:
    (first, first_power), (second, second_power) = parts(a), parts(b)
    power = min(first_power, second_power)
    value = (first << first_power - power) + (second << second_power - power)
    if value == 0:
        return a & b & 1 << 31
    return signed_single(value, power)


def single_product(a: int, b: int) -> int:
    (first, first_power), (second, second_power) = parts(a), parts(b)
    return (a ^ b) & 1 << 31 | single_of(abs(first * second), first_power + second_power)


def single_quotient(a: int, b: int) -> int:
    (first, first_power), (second, second_power) = parts(a), parts(b)
    return (a ^ b) & 1 << 31 | single_of(abs(first), first_power - second_power, abs(second))


def exact_single(exactly: Callable[[int, int], int],
                 whole: Callable[[float, float], float]) -> Callable[[int, int], int]:
    """The bits of a result of singles: exactly where it is finite, and by the rules for infinities and NaN, which are
    those of doubles, where it isn't."""
    def result(a: int, b: int) -> int:
        if a & 0x7F800000 == 0x7F800000 or b & 0x7F800000 == 0x7F800000 or whole is divided and not b & 0x7FFFFFFF:
            value = whole(single(a), single(b))
            if math.isnan(value):
                return NAN_SINGLE
            return (0x7F800000 if math.isinf(value) else 0) | (1 << 31 if math.copysign(1, value) < 0 else 0)
        return exactly(a, b)
    return result


def divided(a: float, b: float) -> float:
    """Division as IEEE 754 has it; Python refuses to divide by zero."""
    if b != 0 or math.isnan(a):
        return a / b if b != 0 else math.nan
    if a == 0 or math.isnan(b):
        return math.nan
    return math.copysign(math.inf, a) * math.copysign(1, b)


def compared(a: float, b: float) -> int:
    is_ordered = not (math.isnan(a) or math.isnan(b))
    holds = (a == b, a != b, a < b, a <= b, a > b, a >= b, is_ordered, not is_ordered)
    return sum(bit << index for index, bit in enumerate(holds))


def double_record(a: int, b: int) -> bytes:
    x, y = double(a), double(b)
    results = (x + y, x - y, x * y, divided(x, y))
    return struct.pack("<QQ4dB", a, b, *results, compared(x, y))


SINGLE_RESULTS = (
    exact_single(single_sum, lambda a, b: a + b),
    exact_single(lambda a, b: single_sum(a, b ^ 1 << 31), lambda a, b: a - b),
    exact_single(single_product, lambda a, b: a * b),
    exact_single(single_quotient, divided),
)


def single_record(a: int, b: int) -> bytes:
    results = [result(a, b) for result in SINGLE_RESULTS]
    return struct.pack("<II4IB", a, b, *results, compared(single(a), single(b)))


# Operands.

def edges(fraction_bits: int, exponent_bits: int) -> list[int]:
    """Bits at which something begins or ends, of both signs."""
    top, last = (1 << exponent_bits) - 1, (1 << fraction_bits) - 1
    bias = top >> 1
    fields = [0, 1, 2, bias - fraction_bits, bias - 1, bias, bias + 1, bias + fraction_bits, bias + fraction_bits + 1,
              top - 2, top - 1]
    found = [field << fraction_bits | fraction for field in fields for fraction in (0, 1, last >> 1, last - 1, last)]
    found += [top << fraction_bits, top << fraction_bits | 1, top << fraction_bits | last,
              top << fraction_bits | 1 << fraction_bits - 1]
    sign = 1 << fraction_bits + exponent_bits
    return found + [bits | sign for bits in found]


def operands(count: int, fraction_bits: int, exponent_bits: int, seed: int) -> Iterable[tuple[int, int]]:
    """Pairs of all kinds: edges with edges, any bits, near exponents, near values, few bits, small and great
    results."""
    choice = random.Random(seed)
    ends = edges(fraction_bits, exponent_bits)
    yield from itertools.product(ends, ends)
    width, top = fraction_bits + exponent_bits + 1, (1 << exponent_bits) - 1
    bias, fraction = top >> 1, (1 << fraction_bits) - 1

    def value(field: int, bits: int) -> int:
        return choice.getrandbits(1) << width - 1 | min(max(field, 0), top - 1) << fraction_bits | bits & fraction

    for index in range(count - len(ends) ** 2):
        kind, any_bits = index % 8, choice.getrandbits(fraction_bits)
        field = choice.randrange(top)
        if kind == 0:
            yield choice.getrandbits(width), choice.getrandbits(width)
        elif kind == 1:
            yield value(field, any_bits), value(field + choice.randint(-3, 3), choice.getrandbits(fraction_bits))
        elif kind == 2:
            yield value(field, any_bits), value(field, any_bits + choice.randint(-2, 2))
        elif kind == 3:
            few = fraction << choice.randrange(fraction_bits) & fraction
            yield value(field, any_bits & few), value(field + choice.randint(-fraction_bits - 2, 2), any_bits & ~few)
        elif kind == 4:
            yield value(field, any_bits), value(bias - field + choice.randint(bias - 3, bias + 3), any_bits >> 3)
        elif kind == 5:
            low = choice.randrange(fraction_bits + 3)
            yield value(field >> 1, any_bits), value((field >> 1) + bias - low, choice.getrandbits(fraction_bits))
        elif kind == 6:
            yield choice.choice(ends), choice.getrandbits(width)
        else:
            yield value(choice.randrange(3), any_bits), \
                value(bias + choice.randint(-2, 2), choice.getrandbits(fraction_bits))


# Batches.

def string_of(data: bytes) -> str:
    """A string of QBE with these bytes."""
    text = data.decode("latin-1").replace("\\", "\\\\").replace('"', '\\"')
    return '"' + text.replace("\n", "\\n") + '"'


def pair_program(cls: str, records: list[bytes]) -> str:
    carried, size = {"s": ("w", 4), "d": ("l", 8)}[cls]
    lines = []
    for number, comparison in enumerate(COMPARISONS[1:], 1):
        lines += [f"\t%is{number} =w c{comparison}{cls} %a, %b", f"\t%bit{number} =w shl %is{number}, {number}",
                  f"\t%sum =w or %sum, %bit{number}"]
    text = PAIR_PROGRAM.replace("COMPARISONS", "\n".join(lines)).replace("COUNT", str(len(records)))
    for name, put in (("loadT", f"load{cls}"), ("loadI", f"load{carried}"), ("ceqT", f"ceq{cls}"),
                      ("ceqI", f"ceq{carried}"), ("cuoT", f"cuo{cls}"), ("SIZE", str(size))):
        text = text.replace(name, put)
    for letter, put in (("T", cls), ("I", carried)):
        text = text.replace(f"={letter} ", f"={put} ")
        text = text.replace(f"({letter} ", f"({put} ").replace(f", {letter} ", f", {put} ")
    return text + "data $records = align 8 { b " + string_of(b"".join(records)) + " }\n"


def place_for_plant(cls: str, records: list[bytes]) -> int:
    """A record from the middle on whose sum is a number: of a NaN the other bits are free."""
    for index in range(len(records) // 2, len(records)):
        total = struct.unpack_from("<f" if cls == "s" else "<d", records[index], 8 if cls == "s" else 16)[0]
        if not math.isnan(total):
            return index
    raise ValueError("no sum is a number")


def planted(record: bytes, offset: int) -> bytes:
    """A record with a bit of the first result changed."""
    return record[:offset] + bytes([record[offset] ^ 1]) + record[offset + 1:]


def batch_fault(running: Running, cls: str, records: list[bytes]) -> str | None:
    """What is wrong in a batch: only the planted record, in the middle, may and must be reported."""
    middle, first_result = place_for_plant(cls, records), {"s": 8, "d": 16}[cls]
    records = records[:middle] + [planted(records[middle], first_result)] + records[middle:]
    fault, others = running.told_of_batch(pair_program(cls, records), len(records), f"{middle} 1")
    if fault or not others:
        return fault
    return f"{len(others)} records, the first {others[0]}: {records[int(others[0].split()[0])].hex()}"


def batches(running: Running, cls: str, make: Callable[[int, int], bytes], at_once: int,
            pairs: Iterable[tuple[int, int]]) \
        -> Results:
    everything = iter(pairs)
    number = 0
    while records := [make(a, b) for a, b in itertools.islice(everything, at_once)]:
        number += 1
        yield f"floats/{cls}-{number} ({len(records)} pairs)", batch_fault(running, cls, records)


def doubles(running: Running) -> Results:
    yield from batches(running, "d", double_record, DOUBLES_AT_ONCE, operands(PAIRS, 52, 11, 1))


def singles(running: Running) -> Results:
    yield from batches(running, "s", single_record, SINGLES_AT_ONCE, operands(PAIRS, 23, 8, 2))
