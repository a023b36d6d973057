"""Expressions of numbers, temporaries, names and memory, as in `%i > 3 && w[$table+4*%i] != 0`.

Values are whole numbers without a bound. A temporary or a piece of memory counts as the signed number of its class;
`u(..)` is the unsigned number. Equality compares the bits of the narrower class, so `%x == 4294967295` holds for -1. A
temporary that holds a float counts as a float, and so does memory as `d[$x]` and `s[$x]`. A number compared with a
single is first rounded to a single, so `%x == 0.1` holds where `%x` is shown as 0.1.
"""
from __future__ import annotations

import math
import operator
import re
from dataclasses import dataclass
from functools import cached_property
from typing import Callable, Iterator, Mapping, NamedTuple, Protocol

from .reading.accepted import IN_NAME
from .values import BYTES, FLOAT_BYTES, FLOATS, bits_of, float_of, signed, unsigned

SYMBOLS = ("<<", ">>", "<=", ">=", "==", "!=", "&&", "||", *"+-*/%&|^~!<>()[],")
WORDS = ("depth", "position")
# What is said of how C writes memory and addresses.
POINTED = {"*": "the memory at an address is w[%p]; b, h, l, s and d are other widths",
           "[": "an item of an array is w[$array+4*%i]; b, h, l, s and d are other widths",
           "&": "a name of data or of a function is its address"}
LEVELS = (("||",), ("&&",), ("|",), ("^",), ("&",), ("==", "!="), ("<", "<=", ">", ">="), ("<<", ">>"), ("+", "-"),
          ("*", "/", "%"))
MOST_SHIFT, MOST_BITS = 64, 128
FLOAT = re.compile(r"[0-9]+\.[0-9]*(?:[eE][+-]?[0-9]+)?|[0-9]+[eE][+-]?[0-9]+")
# A character between single quotes, written as in C.
CHARACTER = re.compile(r"'(?:\\([0-7]{1,3}|x[0-9a-fA-F]{1,2}|[abfnrtv\\'\"?])|([^\\']))'")
ESCAPED = dict(zip("abfnrtv\\'\"?", map(ord, "\a\b\f\n\r\t\v\\'\"?")))


class Wrong(Exception):
    """What is wrong with a line, in words for whoever typed it."""


class Missing(Wrong):
    """There is no expression where one was expected."""


class Unknown(Wrong):
    """A word that is none of an expression."""

    def __init__(self, word: str):
        super().__init__(f"{word or 'the end'!r}: a number, %temporary, $name or w[ADDRESS] was expected")
        self.word = word


class Unset(Exception):
    """A value that can't be had in this state: a temporary that is unset or isn't there, or dead bytes."""


class State(Protocol):
    """Where an expression's values come from."""
    def temporary(self, name: str) -> tuple[int, str]: ...
    def bytes(self, address: int, count: int) -> int: ...
    def address(self, name: str) -> int: ...
    def word(self, name: str) -> int: ...


class Value(NamedTuple):
    """A number, and the class whose bits it has, or none for a number that was written or worked out."""
    number: int | float
    width: str = ""


# What an expression counts as, by the state; and the values of conditions.
Meaning = Callable[[State], Value]
TRUTH = (Value(0), Value(1))


@dataclass(frozen=True)
class Node:
    """A part of an expression."""
    kind: str
    text: str = ""
    parts: tuple[Node, ...] = ()

    @cached_property
    def meaning(self) -> Meaning:
        """Its value by the state, worked out once for the many states at which a condition is asked."""
        return meaning_of(self)


def lexed(text: str) -> Iterator[str]:
    """The words and symbols of an expression; `%` begins a temporary where a name follows at once."""
    at = 0
    while at < len(text):
        if text[at].isspace():
            at += 1
            continue
        behind = at + 1
        is_name = text[at] in "$%" and behind < len(text) and text[behind] in IN_NAME and not text[behind].isdigit()
        character = CHARACTER.match(text, at)
        if character:
            behind = character.end()
        elif text[at] == "'":
            raise Wrong(rf"{text[at:]}: a character between quotes was expected, as 'a', '\n' or '\x1b'")
        elif is_name or text[at] in IN_NAME:
            behind = word_end(text, at, is_name)
        else:
            behind = at + max((len(symbol) for symbol in SYMBOLS if text.startswith(symbol, at)), default=0)
            if behind == at:
                raise Wrong(f"{text[at:]!r}: an operator, a number, %temporary or $name was expected")
        yield text[at:behind]
        at = behind


def word_end(text: str, at: int, is_name: bool) -> int:
    """Where a word ends; the sign of a power of ten is a part of its number, as in 1e-5."""
    behind = at + 1
    while behind < len(text) and text[behind] in IN_NAME:
        behind += 1
    is_power = not is_name and text[at].isdigit() and text[behind - 1] in "eE" and text[at + 1:at + 2] not in ("x", "X")
    if is_power and text[behind:behind + 1] in ("+", "-") and text[behind + 1:behind + 2].isdigit():
        behind += 1
        while behind < len(text) and text[behind].isdigit():
            behind += 1
    return behind


class Parser:
    def __init__(self, text: str):
        self.words = [*lexed(text), ""]
        self.at = 0

    def take(self, *wanted: str) -> str:
        """The next word, where it is one of these or these are none; else nothing."""
        word = self.words[self.at]
        if not word or wanted and word not in wanted:
            return ""
        self.at += 1
        return word

    def expect(self, wanted: str) -> None:
        if not self.take(wanted):
            raise Wrong(f"{self.words[self.at] or 'the end'!r}: {wanted} was expected")

    def binary(self, level: int = 0) -> Node:
        if level == len(LEVELS):
            return self.unary()
        node = self.binary(level + 1)
        while word := self.take(*LEVELS[level]):
            node = Node("binary", word, (node, self.binary(level + 1)))
        return node

    def unary(self) -> Node:
        word = self.take("-", "~", "!", "+")
        return Node("unary", word, (self.unary(),)) if word else self.single()

    def single(self) -> Node:
        word = self.take()
        if word in POINTED:
            raise Wrong(f"{word!r}: a number, %temporary, $name or w[ADDRESS] was expected; {POINTED[word]}")
        if word == "(":
            node = self.binary()
            self.expect(")")
            return node
        if word in ("u", "s") and self.take("("):
            node = Node(word, parts=(self.binary(),))
            self.expect(")")
            return node
        if word in {**BYTES, **FLOAT_BYTES} and self.take("["):
            node = Node("memory", word, (self.binary(),))
            self.expect("]")
            return node
        if word[:1] in ("$", "%") and len(word) > 1:
            return Node("global" if word[0] == "$" else "temporary", word)
        if word in WORDS:
            return Node("word", word)
        value = number(word)
        return Node("float" if isinstance(value, float) else "number", repr(value))


def number(word: str) -> int | float:
    """The value of a number: decimal, hexadecimal, octal (0o), binary (0b), a character between single quotes, or a
    float as 0.5, 1e-5, inf and nan."""
    character = CHARACTER.fullmatch(word)
    if character:
        return character_value(character)
    try:
        if word in ("inf", "nan") or FLOAT.fullmatch(word):
            return float(word)
        return int(word) if word.isdigit() else int(word, 0)
    except ValueError:
        raise Unknown(word) from None


def character_value(character: re.Match[str]) -> int:
    escape, plain = character.groups()
    if plain:
        return ord(plain)
    if escape in ESCAPED:
        return ESCAPED[escape]
    return int(escape[1:], 16) if escape[0] == "x" else int(escape, 8) & 0xff


def parse(text: str) -> Node:
    parser = Parser(text)
    node = parser.binary()
    if parser.words[parser.at] == "[":
        raise Wrong(f"'[': {POINTED['[']}")
    if parser.words[parser.at]:
        raise Wrong(f"{parser.words[parser.at]!r}: the end of the expression, or an operator, was expected")
    return node


def divided(a: int, b: int) -> int:
    if b == 0:
        raise Unset("division by zero")
    quotient = abs(a) // abs(b)
    return quotient if (a < 0) == (b < 0) else -quotient


def shifted(call: Callable[[int, int], int]) -> Callable[[int, int], int]:
    def shift(a: int, b: int) -> int:
        if not 0 <= b < MOST_SHIFT:
            raise Unset(f"a shift by {b}")
        return call(a, b)
    return shift


BINARY: dict[str, Callable[[int, int], int]] = {
    "+": operator.add, "-": operator.sub, "*": operator.mul, "/": divided, "%": lambda a, b: a - b * divided(a, b),
    "<<": shifted(operator.lshift), ">>": shifted(operator.rshift), "&": operator.and_, "|": operator.or_,
    "^": operator.xor, "<": operator.lt, "<=": operator.le, ">": operator.gt, ">=": operator.ge,
}
UNARY: dict[str, Callable[[int], int]] = {"-": operator.neg, "~": operator.invert, "+": operator.pos,
                                          "!": lambda a: int(a == 0)}


def is_float(value: Value) -> bool:
    return isinstance(value.number, float)


def beside(value: Value, other: Value) -> float:
    """A number as a float, and as a single where it was written beside one."""
    if other.width == "s" and value.width not in FLOATS:
        return float_of(bits_of(value.number, "s"), "s")
    return float(value.number)


def quotient(a: float, b: float) -> float:
    """A division as processors make it."""
    if b:
        return a / b
    return math.nan if a == 0 or a != a else math.copysign(math.inf, a) * math.copysign(1, b)


FLOAT_BINARY: dict[str, Callable[[float, float], float]] = {
    "+": operator.add, "-": operator.sub, "*": operator.mul, "/": quotient,
    "%": lambda a, b: math.fmod(a, b) if b and math.isfinite(a) else math.nan,
    "<": operator.lt, "<=": operator.le, ">": operator.gt, ">=": operator.ge, "==": operator.eq, "!=": operator.ne,
}


def combined_floats(text: str, first: Value, second: Value) -> Value:
    """The value of an operation with a float operand."""
    if text not in FLOAT_BINARY:
        raise Wrong(f"{text} isn't an operation of floats; u(..) is the bits of one")
    result = FLOAT_BINARY[text](beside(first, second), beside(second, first))
    if isinstance(result, bool):
        return Value(int(result))
    width = "s" if {first.width, second.width} <= {"s", ""} and "s" in (first.width, second.width) else "d"
    return Value(float_of(bits_of(result, width), width), width)


def is_equal(a: Value, b: Value) -> bool:
    """Whether two values have the same bits in the narrower of their classes."""
    if a.width == "w" or b.width == "w":
        return (whole(a) - whole(b)) & 0xffffffff == 0
    if a.width == "l" or b.width == "l":
        return (whole(a) - whole(b)) & 0xffffffffffffffff == 0
    return a.number == b.number


def evaluate(node: Node, state: State) -> Value:
    return node.meaning(state)


def meaning_of(node: Node) -> Meaning:
    text = node.text
    if node.kind in ("number", "float"):
        value = Value(int(text) if node.kind == "number" else float(text))
        return lambda _: value
    if node.kind == "temporary":
        return lambda state: held(*state.temporary(text))
    if node.kind == "global":
        return lambda state: Value(state.address(text), "l")
    if node.kind == "word":
        return lambda state: Value(state.word(text))
    first = node.parts[0].meaning
    if node.kind == "memory":
        return lambda state: in_memory(text, unsigned(whole(first(state)), "l"), state)
    if node.kind in ("u", "s"):
        cut = unsigned if node.kind == "u" else signed
        return lambda state: as_cut(first(state), cut)
    if node.kind == "unary":
        return lambda state: of_one(text, first(state))
    return meaning_of_two(text, first, node.parts[1].meaning)


def meaning_of_two(text: str, first: Meaning, second: Meaning) -> Meaning:
    """The value of a binary operation; && and || look at the second operand where it counts."""
    if text == "&&":
        return lambda state: TRUTH[bool(first(state).number) and bool(second(state).number)]
    if text == "||":
        return lambda state: TRUTH[bool(first(state).number) or bool(second(state).number)]
    if text in ("==", "!="):
        is_wanted = text == "=="
        return lambda state: compared(is_wanted, first(state), second(state))
    return lambda state: combined(text, first(state), second(state))


def held(value: int, width: str) -> Value:
    """What a temporary of a class counts as."""
    return Value(float_of(value, width) if width in FLOATS else signed(value, width), width)


def in_memory(text: str, address: int, state: State) -> Value:
    """What memory of a width counts as."""
    if text in FLOATS:
        return Value(float_of(state.bytes(address, FLOAT_BYTES[text]), text), text)
    return Value(signed(state.bytes(address, BYTES[text]), text), "l" if text == "l" else "w")


def as_cut(value: Value, cut: Callable[[int, str], int]) -> Value:
    bits = bits_of(value.number, value.width or "d") if is_float(value) else whole(value)
    return Value(cut(bits, value.width or "l"))


def of_one(text: str, value: Value) -> Value:
    if is_float(value):
        return of_float(text, value)
    return Value(UNARY[text](whole(value)), value.width if text in "-~" else "")


def of_float(text: str, value: Value) -> Value:
    """An operation of one float."""
    if text == "~":
        raise Wrong("~ isn't an operation of floats; u(..) is the bits of one")
    if text == "!":
        return Value(int(value.number == 0))
    return Value(-value.number if text == "-" else value.number, value.width)


def whole(value: Value) -> int:
    """A whole number, as addresses and counts are."""
    if isinstance(value.number, float):
        raise Wrong(f"{value.number!r} is a float, and a whole number was expected")
    return value.number


def compared(is_wanted: bool, first: Value, second: Value) -> Value:
    """Whether two values are equal, or are not."""
    if is_float(first) or is_float(second):
        return combined_floats("==" if is_wanted else "!=", first, second)
    return TRUTH[is_equal(first, second) == is_wanted]


def combined(text: str, first: Value, second: Value) -> Value:
    """The value of any other binary operation."""
    if is_float(first) or is_float(second):
        return combined_floats(text, first, second)
    result = int(BINARY[text](whole(first), whole(second)))
    if abs(result) >> MOST_BITS:
        raise Unset(f"a value of more than {MOST_BITS} bits")
    return Value(result, max(first.width, second.width, key=len) if text in "+-*/%&|^" else "")


def parts_of(node: Node) -> Iterator[Node]:
    yield node
    for part in node.parts:
        yield from parts_of(part)


def temporaries_of(node: Node) -> list[str]:
    return sorted({part.text for part in parts_of(node) if part.kind == "temporary"})


def is_fixed(node: Node) -> bool:
    """Whether an expression has the same value in each state."""
    return all(part.kind in ("number", "float", "global", "binary", "unary", "u", "s") for part in parts_of(node))


class FixedState:
    """A state of which nothing is known: for expressions that are the same everywhere."""

    def __init__(self, addresses: Mapping[str, int]):
        self.addresses = addresses

    def temporary(self, name: str) -> tuple[int, str]:
        raise Unset(name)

    def bytes(self, address: int, count: int) -> int:
        raise Unset(f"address {address}")

    def word(self, name: str) -> int:
        raise Unset(name)

    def address(self, name: str) -> int:
        return self.addresses[name]


def fixed(node: Node, addresses: Mapping[str, int]) -> int:
    """The address that an expression is in each state."""
    return whole(evaluate(node, FixedState(addresses))) % (1 << 64)


def as_bytes(text: str) -> str:
    """Bytes that are named as their value is, `w[ADDRESS]`, as WIDTH ADDRESS; any other text as it is."""
    found = re.fullmatch(r"([a-z])\[(.*)\]", text.strip())
    return f"{found[1]} {found[2].strip()}" if found and parse(text).kind == "memory" else text
