"""What a value is made of, and which of its bits are open: the rules by which instructions propagate both.

Each value has a shadow. It says which address went into the value, if any, and which bits nothing has set, with the
move that brought these in. The shadow never changes the value: the run is the same with and without.
"""
from __future__ import annotations

from typing import NamedTuple, Union

MASK = {"w": (1 << 32) - 1, "l": (1 << 64) - 1}
BITS = {"w": 32, "l": 64}
# The bits of a part of a word that are the part.
PART_BITS = {"sb": 8, "ub": 8, "sh": 16, "uh": 16}


class Object:
    """What an address was made from: data, a function, a slot of a frame, or a block of the heap."""

    __slots__ = ("kind", "name", "address", "size", "born", "died", "within", "is_read_only")

    def __init__(self, kind: str, name: str, address: int, size: int, born: int = 0, within: Object | None = None,
                 is_read_only: bool = False):
        self.kind, self.name, self.address, self.size = kind, name, address, size
        self.born, self.within, self.is_read_only = born, within, is_read_only
        self.died: int | None = None

    @property
    def end(self) -> int:
        return self.address + self.size

    @property
    def is_code(self) -> bool:
        return self.kind == "function"

    def contains(self, address: int, count: int) -> bool:
        return self.address <= address and address + count <= self.end

    def with_part(self, first: int) -> Part:
        return Part(self, first)


class Part(NamedTuple):
    """The bytes of an object's address from one on."""

    object: Object
    first: int


class Word(str):
    """What else a value is made of: numbers; an address that 32 bits or a part were taken of; several addresses."""


NUMBER, CUT, MIXED = Word("number"), Word("cut"), Word("mixed")
Made = Union[Word, Object, Part]


class CutByte(NamedTuple):
    """A byte of a cut address that was stored as 64 bits, by its place."""

    place: int


class Origin(NamedTuple):
    """The move that brought open bits in: a load, or a call or a `ret` that passed a part of a word on."""

    position: int
    is_call: bool
    told: str = ""


class Shadow(NamedTuple):
    made: Made
    open: int = 0
    origin: Origin | None = None


SET = Shadow(NUMBER)


def shadow_of(made: Made, bits: int = 0, origin: Origin | None = None) -> Shadow:
    """The shadow of a value: `SET` itself for a set one made of numbers, which is easy to test."""
    if made is NUMBER and not bits:
        return SET
    return Shadow(made, bits, origin if bits else None)


def cut(shadow: Shadow) -> Shadow:
    """The low 32 bits of a value of 64."""
    made, bits, origin = shadow
    if made is NUMBER and not bits:
        return SET
    if isinstance(made, Object):
        made = Part(made, 0)
    elif made is MIXED:
        made = CUT
    return shadow_of(made, bits & MASK["w"], origin)


def plain(made: Made) -> Made:
    """A part counts as cut in arithmetic."""
    return CUT if isinstance(made, Part) else made


# ---- what it is made of

def made_by(operation: str, width: str, a: Made, b: Made, value: int, is_same: bool) -> Made:
    """What the result of an operation on two values is made of. The value is that of the one that is made of numbers,
    if just one is; `is_same` says that both are one temporary."""
    if operation[0] == "c":
        return NUMBER
    if is_same and operation in ("xor", "sub"):
        return NUMBER
    if a is NUMBER and b is NUMBER:
        return NUMBER
    if width == "w":
        is_difference = operation == "sub" and isinstance(a, Part) and a == b and a.first == 0
        return NUMBER if is_difference else CUT
    if operation == "sub" and isinstance(a, Object) and a is b:
        return NUMBER
    return made_wide(operation, plain(a), plain(b), value)


def made_wide(operation: str, a: Made, b: Made, value: int) -> Made:
    """The same of class `l`, where an address went into one of the two."""
    other = b if a is NUMBER else a
    is_one = a is NUMBER or b is NUMBER
    if operation in ("add", "or", "xor", "sub"):
        return other if is_one and other is not MIXED and (operation != "sub" or b is NUMBER) else MIXED
    if operation == "and":
        if not is_one or other is MIXED:
            return MIXED
        if other is CUT:
            return CUT
        middle = value >> 32 & 0xffff
        return other if middle == 0xffff else CUT if middle == 0 else MIXED
    if operation == "shl":
        return MIXED
    return CUT if {a, b} <= {NUMBER, CUT} else MIXED


# ---- open bits

def trailing_zeros(value: int, width: int) -> int:
    return (value & -value).bit_length() - 1 if value else width


def open_of_sum(a: int, oa: int, b: int, ob: int, mask: int) -> int:
    return (oa | ob | ((a & ~oa) + (b & ~ob) ^ (a | oa) + (b | ob))) & mask


def open_of_difference(a: int, oa: int, b: int, ob: int, mask: int) -> int:
    return (oa | ob | ((a & ~oa) - (b | ob) ^ (a | oa) - (b & ~ob))) & mask


def open_of_product(a: int, oa: int, b: int, ob: int, width: str) -> int:
    bits, mask = BITS[width], MASK[width]
    if not a | oa or not b | ob:
        return 0
    low_a, low_b = (trailing_zeros(open_bits, 2 * bits) for open_bits in (oa, ob))
    zeros_a, zeros_b = trailing_zeros(a | oa, bits), trailing_zeros(b | ob, bits)
    first = min(low_a + zeros_b if oa else 2 * bits, low_b + zeros_a if ob else 2 * bits)
    return mask & ~((1 << first) - 1)


def open_of_quotient(operation: str, a: int, oa: int, b: int, ob: int, width: str) -> int:
    if operation[0] == "u" and not ob and b and not b & b - 1:
        return oa & b - 1 if operation == "urem" else oa >> b.bit_length() - 1
    return MASK[width]


def open_of_shift(operation: str, a: int, oa: int, b: int, ob: int, width: str) -> int:
    """A shift moves open bits; if the amount is open, all are."""
    bits, mask = BITS[width], MASK[width]
    if ob & bits - 1:
        return mask
    amount = b & bits - 1
    if operation == "shl":
        return oa << amount & mask
    moved = oa >> amount
    is_sign_open = operation == "sar" and oa >> bits - 1
    return moved | mask & ~(mask >> amount) if is_sign_open else moved


def open_of_extension(operation: str, oa: int, width: str) -> int:
    bits = {"w": 32, "h": 16, "b": 8}[operation[4]]
    low = oa & (1 << bits) - 1
    is_sign_open = operation[3] == "s" and low >> bits - 1
    return (low | MASK[width] & ~((1 << bits) - 1) if is_sign_open else low) & MASK[width]


def bounds(value: int, open_bits: int, width: str, is_signed: bool) -> tuple[int, int]:
    """The least and the greatest number that a value with open bits may be."""
    least, greatest = value & ~open_bits, value | open_bits
    if not is_signed:
        return least, greatest
    sign = 1 << BITS[width] - 1
    if open_bits & sign:
        least, greatest = least | sign, greatest & ~sign
    return as_signed(least, sign), as_signed(greatest, sign)


def as_signed(number: int, sign: int) -> int:
    return number - 2 * sign if number & sign else number


def open_of_comparison(relation: str, a: int, oa: int, b: int, ob: int, width: str) -> int:
    """Whether the bits that are set leave a comparison open."""
    if relation in ("eq", "ne"):
        return int(not (a ^ b) & ~(oa | ob) & MASK[width])
    (a_least, a_most), (b_least, b_most) = (bounds(value, bits, width, relation[0] == "s") for value,
                                            bits in ((a, oa), (b, ob)))
    kind = relation[1:]
    if kind in ("gt", "ge"):
        a_least, a_most, b_least, b_most = b_least, b_most, a_least, a_most
    if kind in ("lt", "gt"):
        always, never = a_most < b_least, a_least >= b_most
    else:
        always, never = a_most <= b_least, a_least > b_most
    return int(not (always or never))


def open_by(operation: str, width: str, a: int, oa: int, b: int, ob: int, is_same: bool) -> int:
    """The open bits of the result of an operation on two values, if one has open bits. The width is that of the
    operands."""
    if is_same and (operation in ("sub", "xor") or operation[0] == "c"):
        return 0
    mask = MASK[width]
    if operation == "and":
        return (oa | ob) & (a | oa) & (b | ob) & mask
    if operation == "or":
        return (oa | ob) & ~(a & ~oa) & ~(b & ~ob) & mask
    if operation == "xor":
        return (oa | ob) & mask
    if operation == "add":
        return open_of_sum(a, oa, b, ob, mask)
    if operation == "sub":
        return open_of_difference(a, oa, b, ob, mask)
    if operation == "mul":
        return open_of_product(a, oa, b, ob, width)
    if operation in ("shl", "shr", "sar"):
        return open_of_shift(operation, a, oa, b, ob, width)
    if operation in ("div", "rem", "udiv", "urem"):
        return open_of_quotient(operation, a, oa, b, ob, width)
    return open_of_comparison(operation[1:-1], a, oa, b, ob, width)


# ---- parts of words

def fitted(shadow: Shadow, kind: str, position: int, told: str) -> Shadow:
    """A value that is passed on as a part of a word: what is above the part is open from there on."""
    bits = PART_BITS.get(kind)
    if bits is None:
        return shadow
    part = (1 << bits) - 1
    low = shadow.open & part
    origin = shadow.origin if low else Origin(position, True, told)
    return Shadow(shadow.made, low | MASK["w"] & ~part, origin)
