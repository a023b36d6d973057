"""Each operation at edge values, with every kind of operand. The expected values are computed here, in whole
numbers."""
from __future__ import annotations

import itertools
import math
from collections.abc import Callable, Iterator
from fractions import Fraction

from harness.running import Case, Running

BITS = {"w": 32, "l": 64}

# How so many bits are read as a number; and what is worked out of two numbers.
View = Callable[[int, int], int]
Operation = Callable[[int, int], int]

# The edges of both classes and their neighbours, amounts of shifts, numbers with bits above the low 32, and long ones.
VALUES = [number % 2**64 for number in (
    0, 1, 2, 7, 31, 32, 33, 63, 64, 65, 128, -1, -2, -7, -8, -33,
    2**31 - 2, 2**31 - 1, 2**31, 2**31 + 1, 2**32 - 2, 2**32 - 1, 2**32, 2**32 + 1, 2**32 + 2**31,
    2**63 - 2, 2**63 - 1, 2**63, 2**63 + 1, 0xffff_ffff_0000_0007, 0x1234_5678_ffff_fffe, 0x8000_0000_7fff_ffff,
    3_141_592_653, 12_345_678_901_234_567_890, 987_654_321_987_654_321)]
# The edges of parts of words.
PARTS = VALUES + [0x7f, 0xff, 0x100, 0x7fff, 0x8000, 0xffff, 0x10000, 0x8080, 0xfedc_ba98_7654_807f]


def unsigned(bits: int, number: int) -> int:
    """The number that the low bits spell."""
    return number % (1 << bits)


def signed(bits: int, number: int) -> int:
    """The same, where the highest of these bits is a sign."""
    low = number % (1 << bits)
    return low - (1 << bits) if low >= 1 << bits - 1 else low


def toward_zero(dividend: int, divisor: int) -> int:
    return math.trunc(Fraction(dividend, divisor))


# How both operands are read, and what comes of them, modulo 2^32 or 2^64.
ARITHMETIC: dict[str, tuple[View, Operation]] = {
    "add": (signed, lambda a, b: a + b), "sub": (signed, lambda a, b: a - b), "mul": (signed, lambda a, b: a * b),
    "div": (signed, toward_zero), "rem": (signed, lambda a, b: a - b * toward_zero(a, b)),
    "udiv": (unsigned, lambda a, b: a // b), "urem": (unsigned, lambda a, b: a % b),
    "and": (unsigned, lambda a, b: a & b), "or": (unsigned, lambda a, b: a | b), "xor": (unsigned, lambda a, b: a ^ b),
}
DIVISIONS = ("div", "rem", "udiv", "urem")
# How the left operand is read, and what comes of it and of the power of two of the amount.
SHIFTS: dict[str, tuple[View, Operation]] = {
    "shl": (unsigned, lambda a, power: a * power), "shr": (unsigned, lambda a, power: a // power),
    "sar": (signed, lambda a, power: a // power),
}
COMPARISONS: dict[str, tuple[View, Callable[[int, int], bool]]] = {
    "eq": (unsigned, lambda a, b: a == b), "ne": (unsigned, lambda a, b: a != b),
    "slt": (signed, lambda a, b: a < b), "sle": (signed, lambda a, b: a <= b),
    "sgt": (signed, lambda a, b: a > b), "sge": (signed, lambda a, b: a >= b),
    "ult": (unsigned, lambda a, b: a < b), "ule": (unsigned, lambda a, b: a <= b),
    "ugt": (unsigned, lambda a, b: a > b), "uge": (unsigned, lambda a, b: a >= b),
}
# The bits of each part of a word, and of a word and a long word, with how they are read.
TYPES: dict[str, tuple[int, View]] = {
    "sb": (8, signed), "ub": (8, unsigned), "sh": (16, signed), "uh": (16, unsigned), "w": (32, unsigned),
    "l": (64, unsigned)}


def fault_of(name: str, bits: int, a: int, b: int) -> str | None:
    """The fault of a division that has no result, or None."""
    if name in DIVISIONS and b % 2**bits == 0:
        return "division by zero"
    if name in ("div", "rem") and signed(bits, a) == -2**(bits - 1) and signed(bits, b) == -1:
        return "division overflow"
    return None


def computed(name: str, bits: int, a: int, b: int) -> int:
    if name in SHIFTS:
        view, what = SHIFTS[name]
        return unsigned(bits, what(view(bits, a), 2**(b % bits)))
    view, what = ARITHMETIC[name]
    return unsigned(bits, what(view(bits, a), view(bits, b)))


def fitted(type_: str, number: int) -> int:
    """The low bits of a type, extended to its class."""
    bits, view = TYPES[type_]
    return view(bits, number) % (1 << BITS[class_of(type_)])


def class_of(type_: str) -> str:
    return "l" if type_ == "l" else "w"


class Text:
    """A program in one block, with a parameter of each class for each value, and the value of each temporary in it."""

    def __init__(self, values: list[int], front: str = "") -> None:
        self.front, self.moves = front, 0
        self.lines: list[str] = []
        self.results: list[tuple[str, int]] = []
        self.arguments = values + values
        self.params = [f"{class_} %{class_}{n}" for class_ in "wl" for n in range(len(values))]
        self.temps = [(f"{class_}{n}", unsigned(BITS[class_], value))
                      for class_ in "wl" for n, value in enumerate(values)]

    def result(self, class_: str, line: str, value: int, moves: int = 1) -> None:
        """An instruction with the value that its temporary takes."""
        name = str(len(self.results))
        self.lines.append(f"%{name} ={class_} {line}\n")
        self.results.append((name, value))
        self.moves += moves

    def effect(self, line: str) -> None:
        """An instruction without a result."""
        self.lines.append(line + "\n")
        self.moves += 1

    def fault(self, running: Running, loaded: str = "1 functions 0 data bytes", script: str = "",
              answers: str = "") -> str | None:
        """What is wrong with the temporaries after the whole text, and with the answers to a script, or None."""
        text = f"{self.front}function $main({','.join(self.params)}) {{\n@s\n{''.join(self.lines)}ret\n}}\n"
        temps = "".join(f"%{name} = {value}\n" for name, value in self.temps + self.results)
        wanted = f"loaded {loaded} ssa yes\n#0 $main @s 0\n#{self.moves} $main @s {len(self.lines)}\n{temps}{answers}"
        words = [str(argument) for argument in self.arguments]
        return running.fault(text.encode(), f"step {self.moves}\ntemps\n{script}".encode(), words, wanted.encode(), 0)


def operands(class_: str, values: list[int]) -> list[tuple[int, str]]:
    """Each way to write a value where one of a class is required: as a number, and as a temporary that may stand
    there."""
    kinds = ("w", "l") if class_ == "w" else ("l",)
    return [(value, written) for number, value in enumerate(values)
            for written in (str(value), *(f"%{kind}{number}" for kind in kinds))]


def of_two(running: Running, name: str, class_: str) -> str | None:
    """All pairs of values that have a result."""
    text = Text(VALUES)
    for (a, left), (b, right) in itertools.product(
            operands(class_, VALUES), operands("w" if name in SHIFTS else class_, VALUES)):
        if fault_of(name, BITS[class_], a, b) is None:
            text.result(class_, f"{name} {left},{right}", computed(name, BITS[class_], a, b))
    return text.fault(running)


def without_result(running: Running, name: str, class_: str) -> str | None:
    """All pairs of values that have none: the step ends in a fault, and goes back."""
    text = f"function $main(l %a, l %b) {{\n@s\n%q ={class_} {name} %a, %b\nret\n}}\n"
    script, wanted = "", "loaded 1 functions 0 data bytes ssa yes\n#0 $main @s 0\n"
    for a, b in itertools.product(VALUES, VALUES):
        fault = fault_of(name, BITS[class_], a, b)
        if fault:
            script += f"set %a {a}\nset %b {b}\nstep\nback 3\n"
            wanted += f"#1 $main @s 0\n#2 $main @s 0\n#3 fault {fault}\n#0 $main @s 0\n"
    return running.fault(text.encode(), script.encode(), ["0", "0"], wanted.encode(), 0)


def of_comparison(running: Running, name: str, class_: str) -> str | None:
    """All pairs of values of the class with which the word ends; what comes of it in both classes."""
    text = Text(VALUES)
    view, holds = COMPARISONS[name]
    pairs = itertools.product(operands(class_, VALUES), operands(class_, VALUES))
    for number, ((a, left), (b, right)) in enumerate(pairs):
        value = int(holds(view(BITS[class_], a), view(BITS[class_], b)))
        text.result("wl"[number % 2], f"c{name}{class_} {left},{right}", value)
    return text.fault(running)


def of_one(running: Running) -> str | None:
    """Copies, negations and extensions of all values."""
    text = Text(PARTS)
    for class_ in "wl":
        for value, written in operands(class_, PARTS):
            text.result(class_, f"copy {written}", unsigned(BITS[class_], value))
            text.result(class_, f"neg {written}", unsigned(BITS[class_], -value))
        for value, written in operands("w", PARTS):
            for part, bits in (("w", 32), ("h", 16), ("b", 8)):
                if (class_, part) != ("w", "w"):
                    text.result(class_, f"exts{part} {written}", unsigned(BITS[class_], signed(bits, value)))
                    text.result(class_, f"extu{part} {written}", unsigned(bits, value))
    return text.fault(running)


STORES = {"b": 1, "h": 2, "w": 4, "l": 8}
LOADS: list[tuple[str, int, View]] = [
    ("sb", 1, signed), ("ub", 1, unsigned), ("sh", 2, signed), ("uh", 2, unsigned), ("sw", 4, signed),
    ("uw", 4, unsigned), ("w", 4, signed)]
PATTERN = bytes(range(0x79, 0x79 + 24))


def of_memory(running: Running, width: str, base: str) -> str | None:
    """All values written by a store, at eight places in turn, and read there by each load; at the end all bytes.

    They lie in the data, or on the stack."""
    text = Text(PARTS, f"data $d = {{ b {' '.join(map(str, PATTERN))} }}\n")
    start = 65_536
    if base == "stack":
        start = 16_777_216
        text.result("l", "alloc4 24", start)
        text.effect(f"blit $d, {start}, 24")
    held = bytearray(PATTERN)
    for number, (value, written) in enumerate(operands("l" if width == "l" else "w", PARTS)):
        place = number % 8
        text.result("l", f"add {start}, {place}", start + place)
        ways = [str(start + place), f"%{text.results[-1][0]}"]
        text.effect(f"store{width} {written}, {ways[number // 8 % 2]}")
        held[place:place + STORES[width]] = unsigned(8 * STORES[width], value).to_bytes(STORES[width], "little")
        for way in ways:
            for class_, (kind, count, view) in itertools.product("wl", LOADS):
                read = int.from_bytes(held[place:place + count], "little")
                text.result(class_, f"load{kind} {way}", unsigned(BITS[class_], view(8 * count, read)))
            text.result("l", f"loadl {way}", int.from_bytes(held[place:place + 8], "little"))
    return text.fault(running, "1 functions 24 data bytes", f"mem {start} 24\n", held.hex(" ") + "\n")


def of_arguments(running: Running) -> str | None:
    """What parameters of the entry take of all values."""
    pairs = [(type_, value) for type_ in TYPES for value in PARTS]
    params = ", ".join(f"{type_} %{number}" for number, (type_, _) in enumerate(pairs))
    temps = "".join(f"%{number} = {fitted(type_, value)}\n" for number, (type_, value) in enumerate(pairs))
    wanted = f"loaded 1 functions 0 data bytes ssa yes\n#0 $main @s 0\n{temps}"
    return running.fault(f"function $main({params}) {{\n@s\nret\n}}\n".encode(), b"temps\n",
                         [str(value) for _, value in pairs], wanted.encode(), 0)


def of_call(running: Running, given: str, named: str) -> str | None:
    """All values as arguments of one type to parameters of each, given back by each type to a result of one."""
    callees = [(taken, returned) for taken in TYPES for returned in TYPES
               if class_of(taken) == class_of(given) and class_of(returned) == class_of(named)
               # A word can't be returned where a long word is wanted.
               and (class_of(taken), class_of(returned)) != ("w", "l")]
    front = "".join(f"function {returned} ${taken}.{returned}({taken} %a) {{\n@s\nret %a\n}}\n"
                    for taken, returned in callees)
    text = Text(PARTS, front)
    for taken, returned in callees:
        for value, written in operands(class_of(given), PARTS):
            passed = fitted(taken, fitted(given, value))
            text.result(named, f"call ${taken}.{returned}({given} {written})", fitted(named, fitted(returned, passed)),
                        2)
    return text.fault(running, f"{len(callees) + 1} functions 0 data bytes")


def cases() -> Iterator[Case]:
    for class_ in "wl":
        for name in (*ARITHMETIC, *SHIFTS):
            yield Case(f"{name} of class {class_}", of_two, (name, class_))
        for name in DIVISIONS:
            yield Case(f"{name} of class {class_} without a result", without_result, (name, class_))
        for name in COMPARISONS:
            yield Case(f"c{name}{class_}", of_comparison, (name, class_))
    yield Case("copies, negations and extensions", of_one)
    for width, base in itertools.product(STORES, ("data", "stack")):
        yield Case(f"store{width} and loads, {base}", of_memory, (width, base))
    yield Case("parameters of the entry", of_arguments)
    for given, named in itertools.product(TYPES, TYPES):
        if (class_of(given), class_of(named)) != ("w", "l"):
            yield Case(f"arguments {given}, results {named}", of_call, (given, named))
