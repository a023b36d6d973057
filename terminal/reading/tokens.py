"""Cuts a text of QBE into tokens.

A token is a kind, a value and a line. The kinds are `%`, `@`, `$`, `:` (a name, whose value has its sigil), `word`,
`number` (the value is an integer of 64 bits, signed), `float` (the bits of a constant), `string` (its bytes, as
characters up to 255), `newline`, `end`, and each symbol as itself. A run of newlines and comments is one token.
"""
import functools
import itertools
import re
from typing import NamedTuple

from .instructions import KEYWORDS
from .refusals import Refused

FLOAT = (r"[sd]_[+-]?(?:0[xX](?:[0-9a-fA-F]+\.?[0-9a-fA-F]*|\.[0-9a-fA-F]+)(?:[pP][+-]?[0-9]+)?"
         r"|(?:[0-9]+\.?[0-9]*|\.[0-9]+)(?:[eE][+-]?[0-9]+)?|[iI][nN][fF](?:[iI][nN][iI][tT][yY])?|[nN][aA][nN])")
STRING = r'"(?:[^"\\]|\\.)*"'


class Language(NamedTuple):
    """The characters that a language has as spacing, and its shapes of a name after a sigil and of a word."""

    spacing: str
    name: str
    word: str


NAME = r"[A-Za-z._][A-Za-z0-9._$]*"
QBE = Language(r" \t", NAME, NAME)


@functools.cache
def token_shape(language: Language) -> re.Pattern[str]:
    """A token after spacing."""
    spacing, name, word = language
    newline = rf"(?:(?:#[^\n]*)?\n[{spacing}]*)+(?:#[^\n]*\Z)?|#[^\n]*\Z"
    shapes = (rf"[%@:]{name}", newline, FLOAT, word, r"[,={}()+]", r"-?[0-9]+", rf"\${name}", STRING, rf"\${STRING}",
              # Whatever begins no token.
              rf"[^{spacing}]")
    return re.compile(rf"[{spacing}]*(" + "|".join(shapes) + ")", re.DOTALL)


IS_FLOAT = re.compile(FLOAT)
SYMBOLS = frozenset(",={}()+")
# The byte order mark that some editors put before a text in UTF-8, by its bytes.
MARK = "\xef\xbb\xbf"
LONG = (1 << 64) - 1
DIGITS_AT_ONCE = 40
LETTERS = {"b": "\b", "f": "\f", "n": "\n", "r": "\r", "t": "\t", "v": "\v"}
ESCAPE = re.compile(r"\\([0-9]{1,3}|[xX][0-9a-fA-F]*|.)", re.DOTALL)


class Tokens(NamedTuple):
    """The tokens of a text, as four lists of one length; the last is the end."""

    kinds: list[str]
    # What has no value, as a newline, has an empty text.
    values: list[str | int]
    # The same tokens as they stand in the text.
    written: list[str]
    lines: list[int]
    # The numbers of more than 64 bits, which are cut: their lines.
    cut_numbers: list[int]


def escaped(match: re.Match[str]) -> str:
    """What an escape stands for: QBE hands strings to the assembler as they are, and so it reads them."""
    body: str = match.group(1)
    if body[0] in "0123456789":
        value = 0
        for digit in body:
            value = value * 8 + int(digit)
        return chr(value & 255)
    if body[0] in "xX":
        return chr(int(body[1:] or "0", 16) & 255)
    return LETTERS.get(body, body)


def string_value(text: str) -> str:
    body = text[1:-1]
    return ESCAPE.sub(escaped, body) if "\\" in body else body


def number_value(text: str) -> tuple[int, bool]:
    """An integer of 64 bits, with its sign where it fits so, and whether it was cut for that."""
    if len(text) < DIGITS_AT_ONCE:
        number = int(text)
        fits = -(1 << 63) <= number < 1 << 64
        return number if fits else number & LONG, not fits
    digits, number, is_cut = text.lstrip("-"), 0, False
    for begin in range(0, len(digits), DIGITS_AT_ONCE):
        part = digits[begin:begin + DIGITS_AT_ONCE]
        number = number * 10 ** len(part) + int(part)
        is_cut = is_cut or number > LONG
        number &= LONG
    return (-number & LONG if text.startswith("-") else number), is_cut


def classified(token: str) -> tuple[str, str | int, int]:
    """The kind of a token, its value, and how many newlines are in it; the kind is `bad` for what is none."""
    first = token[0]
    if first in SYMBOLS:
        return token, token, 0
    if first in "\n#":
        return "newline", "", token.count("\n")
    if first in "%@:" or first == "$" and token[1:2] != '"':
        return (first if len(token) > 1 else "bad"), token, 0
    if first == "$" or first == '"' and len(token) > 1:
        text = string_value(token.removeprefix("$"))
        return ("$", "$" + text, token.count("\n")) if first == "$" else ("string", text, token.count("\n"))
    if token[-1] in "0123456789" and (first == "-" or first.isdigit()):
        return "number", number_value(token)[0], 0
    if IS_FLOAT.fullmatch(token):
        # Only a text with floats needs fractions.
        from .constants import constant_bits

        return "float", constant_bits(token), 0
    if token == "...":
        return token, token, 0
    return ("word" if token in KEYWORDS else "bad"), token, 0


def bad_token(token: str, text: str, path: str, line: int) -> Refused:
    first = token[0]
    if token in ("s_", "d_"):
        return Refused(path, line,
                       f"`{token}` is no word of the language: a float is written as in `{token}-3.5`, without "
                       "a space")
    if first == "-":
        return Refused(path, line,
                       "`-` begins no token without a digit; the sign of a float stands behind its letter, as "
                       "in `d_-3.5`")
    if first == '"' or token == "$" and '$"' in text:
        return Refused(path, line, "the string has no end")
    if first in "%@$:":
        return Refused(path, line, f"`{first}` without a name behind it")
    if len(token) > 1 or first in "._" or first.isalpha() and first.isascii():
        return Refused(path, line, f"`{token}` is no word of the language")
    if first == "\xef" and text.startswith(MARK):
        return Refused(path, line, "the text begins with a byte order mark, which QBE doesn't take")
    if first > "~":
        return Refused(path, line, f"`\\{ord(first):03o}` begins no token: names have letters of ASCII, digits, `.`, "
                       "`_` and `$`")
    shown = first if " " < first <= "~" else f"\\{ord(first):03o}"
    return Refused(path, line, f"`{shown}` begins no token")


def tokens_of(text: str, path: str, language: Language = QBE) -> Tokens:
    """The tokens of a text, each of whose characters stands for a byte. What a token is is worked out once for all that
    are written alike."""
    found = token_shape(language).findall(text)
    known = {token: classified(token) for token in set(found)}
    newlines = {token: count for token, (_, _, count) in known.items()}
    lines = list(itertools.accumulate(map(newlines.__getitem__, found), initial=1))
    kinds = [known[token][0] for token in found]
    if "bad" in kinds:
        at = kinds.index("bad")
        raise bad_token(found[at], text, path, lines[at])
    cut = {token for token in known if known[token][0] == "number" and number_value(token)[1]}
    cut_numbers = [line for token, line in zip(found, lines) if token in cut] if cut else []
    return Tokens([*kinds, "end"], [known[token][1] for token in found] + [""], [*found, ""], lines, cut_numbers)
