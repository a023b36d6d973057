"""A text's tokens, or the fault of a text that can't be cut."""
from __future__ import annotations

import re
from typing import NamedTuple

GREATEST_TEXT = 2**20

# The shapes of pieces; a piece is the longest of its shape, and no two shapes begin with the same byte but dots.
SHAPES = {
    "spacing": r"[ \t\r]+",
    "comment": r"#[^\n]*",
    "newline": r"\n",
    "name": r"[$%@:][A-Za-z0-9._$]+",
    "word": r"[A-Za-z][A-Za-z0-9_.]*",
    "number": r"-?[0-9]+",
    "dots": r"\.\.\.",
    "symbol": r"[,={}()+]",
}
PIECE = re.compile("|".join(f"(?P<{shape}>{pattern})" for shape, pattern in SHAPES.items()))
SIGILS = {"$": "global", "%": "temp", "@": "label", ":": "aggregate"}
OCTAL = re.compile(r"[0-7]{1,3}")
ESCAPES = {"b": 8, "f": 12, "n": 10, "r": 13, "t": 9, "\\": 92, '"': 34}


class Refused(Exception):
    """A program that is refused, by a code and, but for S1 and S2, a line."""

    def __init__(self, code: str, line: int | None = None) -> None:
        super().__init__(code, line)
        self.code, self.line = code, line

    def answer(self) -> str:
        return f"refused: {self.code}\n" if self.line is None else f"refused: {self.code} line {self.line}\n"


class Token(NamedTuple):
    kind: str      # global, temp, label, aggregate, word, number, string, symbol, dots, newline
    text: str      # as it is written
    value: str | int | bytes | None  # a name without sigil, a number, the bytes of a string
    line: int

    def name(self) -> str:
        assert isinstance(self.value, str)
        return self.value

    def number(self) -> int:
        assert isinstance(self.value, int)
        return self.value

    def content(self) -> bytes:
        assert isinstance(self.value, bytes)
        return self.value


def cut(given: bytes) -> list[Token]:
    """The tokens of a text, given as its bytes."""
    if len(given) > GREATEST_TEXT:
        raise Refused("L6", 1)
    text = given.decode("latin-1")
    tokens: list[Token] = []
    at, line = 0, 1
    while at < len(text):
        if text[at] == '"':
            piece, content = string(text, at, line)
            tokens.append(Token("string", piece, content, line))
            at += len(piece)
            continue
        found = PIECE.match(text, at)
        if not found:
            raise Refused("L2" if text[at] in SIGILS else "L1", line)
        shape, piece, at = found.lastgroup or "", found.group(), found.end()
        if shape == "newline":
            if not (tokens and tokens[-1].kind == "newline"):
                tokens.append(Token("newline", piece, None, line))
            line += 1
        elif shape == "name":
            tokens.append(Token(SIGILS[piece[0]], piece, piece[1:], line))
        elif shape == "number":
            # Python makes no number of more than some thousand digits.
            digits = piece.lstrip("-0")
            value = int(digits or "0") if len(digits) <= 20 else 2**64
            if piece.startswith("-"):
                value = -value
            if not -2**63 <= value < 2**64:
                raise Refused("L3", line)
            tokens.append(Token("number", piece, value % 2**64, line))
        elif shape not in ("spacing", "comment"):
            tokens.append(Token(shape, piece, piece, line))
    return tokens


def string(text: str, start: int, line: int) -> tuple[str, bytes]:
    """The piece of a string that begins at `start`, and its bytes."""
    value: list[int] = []
    at = start + 1
    while True:
        if at == len(text) or text[at] == "\n":
            raise Refused("L4", line)
        if text[at] == '"':
            return text[start:at + 1], bytes(value)
        if text[at] != "\\":
            value.append(ord(text[at]))
            at += 1
            continue
        at += 1
        if at == len(text) or text[at] == "\n":
            raise Refused("L4", line)
        digits = OCTAL.match(text, at)
        if digits:
            if int(digits.group(), 8) > 255:
                raise Refused("L5", line)
            value.append(int(digits.group(), 8))
            at += len(digits.group())
        elif text[at] in ESCAPES:
            value.append(ESCAPES[text[at]])
            at += 1
        else:
            raise Refused("L5", line)
