"""Conversions of floats and integers against the processor, by records of an operand and all its results.

What doesn't fit an integer gives what Intel's manual calls the indefinite integer, the least of its type, for signed
ones; for unsigned ones the low half of a long word, and for long ones what the sequence of QBE's code for x86-64 gives.
"""
import math
import random
import struct
from typing import NamedTuple

from .floats import NAN_DOUBLE, bits_of, double, edges, signed_single, single, string_of
from .running import Results, Running

AT_ONCE, COUNT = 5_000, 15_000
WORD, LONG = (1 << 32) - 1, (1 << 64) - 1


class Conversion(NamedTuple):
    """An instruction, the class of its operand and that of its result."""

    name: str
    operand: str
    result: str


CONVERSIONS = [Conversion("truncd", "d", "s"), Conversion("exts", "s", "d")]
CONVERSIONS += [Conversion(name, name[0], cls) for name in ("dtosi", "dtoui", "stosi", "stoui") for cls in "wl"]
CONVERSIONS += [Conversion(name, operand, cls) for name, operand in
                (("swtof", "w"), ("uwtof", "w"), ("sltof", "l"), ("ultof", "l")) for cls in "sd"]
SIZES = {"w": 4, "s": 4, "l": 8, "d": 8}
CARRIED = {"w": "w", "s": "w", "l": "l", "d": "l"}


def truncated(value: float) -> int:
    """The bits of a double as a single."""
    if math.isnan(value) or math.isinf(value) or value == 0:
        return int(struct.unpack("<I", struct.pack("<f", value))[0])
    numerator, denominator = value.as_integer_ratio()
    return signed_single(numerator, -(denominator.bit_length() - 1))


def whole(value: float, bits: int) -> int:
    """The signed integer of a number of bits, cut toward zero; the least if it doesn't fit."""
    least = -1 << bits - 1
    if math.isnan(value) or math.isinf(value):
        return least
    number = math.trunc(value)
    return number if least <= number < -least else least


def unsigned(value: float, cls: str) -> int:
    first = whole(value, 64)
    if cls == "w" or first >= 0:
        return first
    # Above 2^63 its bit, and what is left when that is taken away.
    return first | whole(value - 2.0 ** 63, 64)


def of_integer(value: int, cls: str) -> int:
    if cls == "d":
        return bits_of(float(value))
    return signed_single(value, 0)


def wanted(conversion: Conversion, bits: int) -> int:
    name, operand, cls = conversion
    low = bits & WORD
    if name == "truncd":
        return truncated(double(bits))
    if name == "exts":
        value = single(low)
        return NAN_DOUBLE if math.isnan(value) else bits_of(value)
    if name.endswith("si"):
        return whole(double(bits) if operand == "d" else single(low), 32 if cls == "w" else 64)
    if name.endswith("ui"):
        return unsigned(double(bits) if operand == "d" else single(low), cls)
    number = low if operand == "w" else bits
    if name.startswith("s"):
        width = 32 if operand == "w" else 64
        number -= (number >> width - 1) << width
    return of_integer(number, cls)


def record(bits: int) -> bytes:
    made = [struct.pack("<Q", bits)]
    for conversion in CONVERSIONS:
        size = SIZES[conversion.result]
        made.append((wanted(conversion, bits) & (1 << 8 * size) - 1).to_bytes(size, "little"))
    return b"".join(made)


def operands() -> list[int]:
    """Edges of both formats and of the integers, and values about where conversions begin and cease to fit."""
    choice = random.Random(3)
    found = edges(52, 11) + edges(23, 8)
    found += [number + step & LONG for power in range(65) for number in (1 << power, -1 << power)
              for step in (-1, 0, 1)]
    found += [bits_of(math.ldexp(sign * part, power)) + step for power in (0, 23, 24, 31, 32, 52, 53, 62, 63, 64)
              for sign in (1, -1) for part in (0.5, 0.75, 1.0, 1.5) for step in (-1, 0, 1)]
    found += [struct.unpack("<I", struct.pack("<f", math.ldexp(sign, power)))[0] + step
              for power in (-1, 0, 23, 24, 30, 31, 32, 62, 63, 64) for sign in (1, -1) for step in (-1, 0, 1)]
    while len(found) < COUNT:
        number = choice.getrandbits(64) >> choice.randrange(64)
        found += [choice.getrandbits(64), number, -number & LONG,
                  bits_of(choice.uniform(-1, 1) * 2.0 ** choice.randint(-160, 140)),
                  struct.unpack("<I", struct.pack("<f", choice.uniform(-1, 1) * 2.0 ** choice.randint(-30, 70)))[0],
                  choice.randrange(1 << 11) << 52 | choice.getrandbits(24) << 28 | choice.choice((0, 1 << 28, 1 << 27))]
    return found[:COUNT]


def program(records: list[bytes]) -> str:
    """A program that prints the number of each record and each conversion that differs."""
    lines = ["export function w $main() {", "@start", "\t%at =l copy $records", "\t%index =w copy 0", "@loop",
             f"\t%is.end =w ceqw %index, {len(records)}", "\tjnz %is.end, @end, @record", "@record"]
    lines += [f"\t%{cls} ={cls} load{'uw' if cls == 'w' else cls} %at" for cls in "wlsd"]
    lines.append("\t%at =l add %at, 8")
    for number, (name, operand, cls) in enumerate(CONVERSIONS):
        lines.append(f"\t%r{number} ={cls} {name} %{operand}")
        lines.append(f"\t%at =l call $check{cls}({cls} %r{number}, l %at, w %index, w {number})")
    lines += ["\t%index =w add %index, 1", "\tjmp @loop", "@end", "\tret %index", "}"]
    for cls, carried in CARRIED.items():
        lines += [f"function l $check{cls}({cls} %value, l %at, w %index, w %number) {{", "@start",
                  f"\t%found ={carried} {'cast' if cls in 'sd' else 'copy'} %value",
                  f"\t%wanted ={carried} load{'uw' if carried == 'w' else 'l'} %at",
                  f"\t%behind =l add %at, {SIZES[cls]}", f"\t%is.same =w ceq{carried} %found, %wanted",
                  "\tjnz %is.same, @same, @other", "@same", "\tret %behind", "@other"]
        if cls in "sd":
            lines += [f"\t%other ={cls} load{cls} %at", f"\t%one =w cuo{cls} %other, %other",
                      f"\t%two =w cuo{cls} %value, %value", "\t%both =w and %one, %two", "\tjnz %both, @same, @told",
                      "@told"]
        lines += ["\t%written =w call $printf(l $format, ..., w %index, w %number)", "\tret %behind", "}"]
    return "\n".join(lines) + '\ndata $format = { b "%d %d\\n\\0" }\ndata $records = align 8 { b ' + \
        string_of(b"".join(records)) + " }\n"


def batch_fault(running: Running, inputs: list[int]) -> str | None:
    """One record is planted: another result of the last conversion, of integers to doubles."""
    records = [record(bits) for bits in inputs]
    middle, last = len(records) // 2, len(CONVERSIONS) - 1
    records[middle] = records[middle][:-1] + bytes([records[middle][-1] ^ 1])
    fault, others = running.told_of_batch(program(records), len(records), f"{middle} {last}")
    if fault or not others:
        return fault
    index, number = map(int, others[0].split())
    return f"{len(others)} told, the first {CONVERSIONS[number]} of {inputs[index]:#x}"


def results(running: Running) -> Results:
    inputs = operands()
    for begin in range(0, len(inputs), AT_ONCE):
        batch = inputs[begin:begin + AT_ONCE]
        yield f"conversions/{begin // AT_ONCE + 1} ({len(batch)} of each kind)", batch_fault(running, batch)
