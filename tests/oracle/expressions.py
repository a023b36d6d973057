"""Expressions of numbers, temporaries, names and memory once more, as at the terminal and in the debug adapter: read by
recursive descent, and evaluated on the way. A part is a function of a scene that gives a value or raises `Missing`."""
from __future__ import annotations

import math
import re
import struct
from typing import NamedTuple, Protocol, Union

WIDTHS = {"b": 1, "h": 2, "w": 4, "l": 8, "s": 4, "d": 8}
TOKEN = re.compile(rb"""\s*(?:
    (?P<name>[%$](?=[A-Za-z._$])[A-Za-z0-9._$]+) | (?P<character>'[\x00-\xff]') | (?P<memory>[A-Za-z0-9._$]+\[) |
    (?P<cast>[A-Za-z0-9._$]+\() | (?P<word>[0-9][A-Za-z0-9._$]*[eE][+-][0-9][A-Za-z0-9._$]*|[A-Za-z0-9._$]+) |
    (?P<symbol><<|>>|<=|>=|==|!=|&&|\|\||[-+*/%&|^<>~!()\]]))""", re.VERBOSE | re.DOTALL)
LEVELS = (("||",), ("&&",), ("|",), ("^",), ("&",), ("==", "!="), ("<", "<=", ">", ">="), ("<<", ">>"),
          ("+", "-"), ("*", "/", "%"))
MOST = 2**127


class NoExpression(Exception):
    """A text that is no expression."""


class Missing(Exception):
    """A value that can't be had in a state, and why."""


class Value(NamedTuple):
    """A number or a float; `w` or `l`, `s` or `d`, or nothing where it was written or worked out."""
    number: Union[int, float]
    size: str = ""

    def whole(self) -> int:
        assert isinstance(self.number, int)
        return self.number


class Scene(Protocol):
    """Where the values of an expression come from."""

    def word(self, name: str) -> int: ...

    def temporary(self, name: str) -> Value: ...

    def address(self, name: str) -> int: ...

    def bytes(self, address: int, count: int) -> int: ...


class Part(Protocol):
    """An expression."""

    def value(self, scene: Scene) -> Value: ...


def signed(bits: int, count: int) -> int:
    bits &= (1 << count) - 1
    return bits - (1 << count) if bits >> (count - 1) else bits


def float_of(bits: int, size: str) -> float:
    number: float = struct.unpack("<d" if size == "d" else "<f", bits.to_bytes(WIDTHS[size], "little"))[0]
    return number


def bits_of(number: float, size: str) -> int:
    try:
        return int.from_bytes(struct.pack("<d" if size == "d" else "<f", number), "little")
    except OverflowError:
        return bits_of(math.copysign(math.inf, number), size)


def single(number: float) -> float:
    return float_of(bits_of(number, "s"), "s")


def is_float(value: Value) -> bool:
    return isinstance(value.number, float)


def counted(number: int, size: str = "") -> Value:
    if not -MOST <= number < MOST:
        raise Missing("a value of more than 127 bits")
    return Value(number, size)


def quotient(a: float, b: float) -> float:
    if b:
        return a / b
    return math.nan if a == 0 or a != a else math.copysign(math.inf, a) * math.copysign(1, b)


def of_floats(symbol: str, a: Value, b: Value) -> Value:
    """An operation with a float operand."""
    one, other = (single(x.number) if y.size == "s" and x.size not in ("s", "d") else float(x.number) for x,
                  y in ((a, b), (b, a)))
    compare = {"==": one == other, "!=": one != other, "<": one < other, "<=": one <= other, ">": one > other,
               ">=": one >= other}
    if symbol in compare:
        return Value(int(compare[symbol]))
    if symbol not in ("+", "-", "*", "/"):
        raise Missing("no operation of floats: u(..) is the bits of one")
    result = {"+": one + other, "-": one - other, "*": one * other}[symbol] if symbol != "/" else quotient(one, other)
    sizes = {a.size, b.size}
    return Value(single(result), "s") if "s" in sizes and sizes <= {"s", ""} else Value(result, "d")


def divided(a: int, b: int) -> int:
    if b == 0:
        raise Missing("division by zero")
    return abs(a) // abs(b) * (1 if (a < 0) == (b < 0) else -1)


def combined(symbol: str, a: Value, b: Value) -> Value:
    if is_float(a) or is_float(b):
        return of_floats(symbol, a, b)
    one, other, size = a.whole(), b.whole(), a.size or b.size
    if symbol in ("==", "!="):
        narrow = "w" if "w" in (a.size, b.size) else size
        mask = {"w": 2**32 - 1, "l": 2**64 - 1}.get(narrow)
        same = one == other if mask is None else one & mask == other & mask
        return Value(int(same == (symbol == "==")))
    if symbol in ("<<", ">>"):
        if not 0 <= other < 64:
            raise Missing("a shift by less than 0 or more than 63")
        return counted(one << other if symbol == "<<" else one >> other)
    if symbol in ("<", "<=", ">", ">="):
        return Value(int({"<": one < other, "<=": one <= other, ">": one > other, ">=": one >= other}[symbol]))
    if symbol in ("/", "%"):
        whole = divided(one, other)
        return counted(whole if symbol == "/" else one - other * whole, size)
    return counted({"+": one + other, "-": one - other, "*": one * other, "&": one & other, "|": one | other,
                    "^": one ^ other}[symbol], size)


def is_true(value: Value) -> bool:
    return value.number != 0


def recast(value: Value, has_sign: bool) -> Value:
    size = value.size if value.size in ("w", "s") else "l"
    count = 8 * WIDTHS[size]
    bits = bits_of(value.number, value.size or "d") if is_float(value) else value.whole()
    if is_float(value):
        count = 32 if value.size == "s" else 64
    return Value(signed(bits, count) if has_sign else bits & ((1 << count) - 1))


def changed(symbol: str, value: Value) -> Value:
    if symbol in ("u", "s"):
        return recast(value, symbol == "s")
    if symbol == "!":
        return Value(int(not is_true(value)))
    if is_float(value):
        if symbol == "~":
            raise Missing("no operation of floats: u(..) is the bits of one")
        return Value(-value.number if symbol == "-" else value.number, value.size)
    if symbol == "-":
        return counted(-value.whole(), value.size)
    return Value(~value.whole(), value.size) if symbol == "~" else Value(value.number)


class Reader:
    """Reads an expression; each part is a function of a scene."""

    def __init__(self, given: Union[str, bytes]) -> None:
        self.tokens: list[tuple[str, str]] = []
        at, text = 0, given.encode() if isinstance(given, str) else given
        while text[at:].strip(b" \t\n\x0c\r"):
            match = TOKEN.match(text, at)
            if not match or not match.group().strip():
                raise NoExpression
            kind = match.lastgroup or ""
            self.tokens.append((kind, match.group(kind).decode("latin-1")))
            at = match.end()
        self.at = 0

    def peek(self, *symbols: str) -> str:
        kind, text = self.tokens[self.at] if self.at < len(self.tokens) else ("", "")
        return text if kind == "symbol" and text in symbols else ""

    def take(self) -> tuple[str, str]:
        if self.at == len(self.tokens):
            raise NoExpression
        self.at += 1
        return self.tokens[self.at - 1]

    def whole(self) -> Part:
        part = self.binary(0)
        if self.at != len(self.tokens):
            raise NoExpression
        return part

    def binary(self, level: int) -> Part:
        if level == len(LEVELS):
            return self.unary()
        part: Part = self.binary(level + 1)
        while symbol := self.peek(*LEVELS[level]):
            self.take()
            part = Binary(symbol, part, self.binary(level + 1))
        return part

    def unary(self) -> Part:
        if symbol := self.peek("-", "+", "~", "!"):
            self.take()
            return Unary(symbol, self.unary())
        return self.single()

    def closed(self, end: str) -> Part:
        part = self.binary(0)
        if self.take() != ("symbol", end):
            raise NoExpression
        return part

    def single(self) -> Part:
        kind, text = self.take()
        if (kind, text) == ("symbol", "("):
            return self.closed(")")
        if kind == "memory" and text[:-1] in WIDTHS:
            return Memory(text[:-1], self.closed("]"))
        if kind == "cast" and text[:-1] in ("u", "s"):
            return Unary(text[:-1], self.closed(")"))
        if kind == "name":
            return Named(text)
        if kind == "character":
            return Number(ord(text[1]))
        if kind == "word" and text in ("depth", "position"):
            return Word(text)
        if kind == "word":
            return Number(number_of(text))
        raise NoExpression


def number_of(word: str) -> Union[int, float]:
    for front, base in (("0x", 16), ("0X", 16), ("0b", 2), ("0o", 8), ("", 10)):
        digits = word.removeprefix(front)
        if word.startswith(front) and re.fullmatch("[0-9a-fA-F]+", digits) \
                and all(int(digit, 16) < base for digit in digits):
            number = int(digits, base)
            if number < 2**64:
                return number
    if word in ("inf", "nan") or re.fullmatch(r"[0-9]+(\.[0-9]*)?([eE][+-]?[0-9]+)?", word):
        return float(word)
    raise NoExpression


class Number(NamedTuple):
    number: Union[int, float]

    def value(self, scene: Scene) -> Value:
        return Value(self.number)


class Word(NamedTuple):
    name: str

    def value(self, scene: Scene) -> Value:
        return Value(scene.word(self.name))


class Named(NamedTuple):
    name: str

    def value(self, scene: Scene) -> Value:
        return scene.temporary(self.name[1:]) if self.name[0] == "%" else Value(scene.address(self.name[1:]), "l")


class Memory(NamedTuple):
    letter: str
    inside: Part

    def value(self, scene: Scene) -> Value:
        address = self.inside.value(scene)
        if is_float(address):
            raise Missing("a float, and a whole number was expected")
        bits = scene.bytes(address.whole() % 2**64, WIDTHS[self.letter])
        if self.letter in "sd":
            return Value(float_of(bits, self.letter), self.letter)
        return Value(signed(bits, 8 * WIDTHS[self.letter]), "l" if self.letter == "l" else "w")


class Unary(NamedTuple):
    symbol: str
    inside: Part

    def value(self, scene: Scene) -> Value:
        return changed(self.symbol, self.inside.value(scene))


class Binary(NamedTuple):
    symbol: str
    one: Part
    other: Part

    def value(self, scene: Scene) -> Value:
        first = self.one.value(scene)
        if self.symbol in ("&&", "||"):
            if is_true(first) == (self.symbol == "||"):
                return Value(int(self.symbol == "||"))
            return Value(int(is_true(self.other.value(scene))))
        return combined(self.symbol, first, self.other.value(scene))


def parse(text: Union[str, bytes]) -> Part:
    """The expression that a text is; `NoExpression` if it is none."""
    return Reader(text).whole()
