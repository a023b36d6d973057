"""Numbers and addresses as people read them."""
from __future__ import annotations

import math
import struct
from collections.abc import Iterator

from .text import DATA, STACK, STACK_BYTES, Program

BITS = {"b": 8, "h": 16, "w": 32, "l": 64, "s": 32, "d": 64}
BYTES = {"b": 1, "h": 2, "w": 4, "l": 8}
# The classes of floats, which are carried in words and long words.
FLOATS = {"s": "w", "d": "l"}
FLOAT_BYTES = {"s": 4, "d": 8}
FORMATS = "duxotcfas"
NEAR_ZERO = 1 << 16
ESCAPES = {10: "\\n", 9: "\\t", 13: "\\r", 34: '\\"', 92: "\\\\"}


def signed(value: int, width: str) -> int:
    """The low bits of a value as a signed number."""
    bits = BITS[width]
    value &= (1 << bits) - 1
    return value - (1 << bits) if value >> (bits - 1) else value


def unsigned(value: int, width: str) -> int:
    return value & ((1 << BITS[width]) - 1)


def is_readable(byte: int) -> bool:
    return 32 <= byte < 127 or byte in (9, 10, 13)


def shown_bytes(text: bytes) -> str:
    """Bytes between quotes, those that aren't printable in octal."""
    return '"' + "".join(ESCAPES.get(byte) or (chr(byte) if 32 <= byte < 127 else f"\\{byte:03o}")
                         for byte in text) + '"'


def numbered_lines(content: bytes) -> Iterator[str]:
    """How many bytes there are, and each line of them behind the number of its first one."""
    yield f"{len(content)} bytes"
    begin, digits = 0, len(str(len(content)))
    for line in content.splitlines(keepends=True):
        yield f"{begin:{digits}}  {shown_bytes(line)}"
        begin += len(line)


def as_text(value: int) -> str | None:
    """The text that a value is, the first byte the least significant; or None. Of three bytes it must be a word, since
    many numbers are three bytes of some signs; shorter ones are never a text."""
    text = value.to_bytes(8, "little").rstrip(b"\0")
    is_text = len(text) > 3 and all(map(is_readable, text)) or len(text) == 3 and text.isalpha()
    return shown_bytes(text) if is_text else None


def float_of(value: int, width: str) -> float:
    """The float that bits are: of a word a single, of a long word a double."""
    code, number = ("<d", "<Q") if BITS[width] == 64 else ("<f", "<I")
    return float(struct.unpack(code, struct.pack(number, unsigned(value, width if BITS[width] >= 32 else "w")))[0])


def bits_of(value: float, width: str) -> int:
    """The bits of a number as a single or a double; one that is too large is infinite."""
    code, number = ("<d", "<Q") if BITS[width] == 64 else ("<f", "<I")
    try:
        return int(struct.unpack(number, struct.pack(code, value))[0])
    except OverflowError:
        return bits_of(math.copysign(math.inf, value), width)


def as_float(value: int, width: str) -> str:
    """The shortest decimal that is read as these bits."""
    number = float_of(value, width)
    if BITS[width] == 64 or not math.isfinite(number):
        return repr(number)
    texts = (f"{number:.{digits}g}" for digits in range(1, 10))
    return repr(float(next(text for text in texts if bits_of(float(text), width) == bits_of(number, width))))


def formatted(value: int, width: str, letter: str) -> str:
    """A value in the format of a letter: d u x o t c f s."""
    plain = unsigned(value, width)
    if letter == "d":
        return str(signed(value, width))
    if letter in "xot":
        sign, base = {"x": ("0x", "x"), "o": ("0", "o"), "t": ("0b", "b")}[letter]
        return sign + format(plain, base)
    if letter in "cs":
        return shown_bytes(plain.to_bytes(8, "little")[:BYTES[width]].rstrip(b"\0") or b"\0")
    return as_float(value, width) if letter == "f" else str(plain)


class Names:
    """Addresses by the names of the program's text."""

    def __init__(self, program: Program):
        self.program = program

    def of(self, value: int) -> str | None:
        """`$name+N` for an address in the data, the name of a function, or None."""
        if value in self.program.calls:
            return self.program.calls[value]
        if value < DATA:
            return None
        data = self.program.object_at(value)
        return f"{data.name}+{value - data.address}" if data else None


def is_stack(value: int) -> bool:
    return STACK <= value <= STACK + STACK_BYTES


def is_near_zero(value: int, width: str) -> bool:
    """Whether a value is a small negative number, if it has a sign."""
    return -NEAR_ZERO <= signed(value, width) < 0


def remarks(value: int, width: str, address: str | None) -> list[str]:
    """What a value also is: a name, a negative number, a text."""
    found = [address] if address else []
    if signed(value, width) < 0:
        found.append(str(signed(value, width)))
    text = as_text(value) if not found else None
    return found + ([f"0x{value:x} {text}"] if text else [])


def brief(value: int | None, width: str, address: str | None) -> str:
    """A value in one word: a name before a small negative number before a text."""
    if value is None:
        return "unset"
    if width in FLOATS:
        return as_float(value, width)
    if address:
        return address
    return str(signed(value, width)) if is_near_zero(value, width) else as_text(value) or str(value)
