"""Messages that the adapter skips silently: each is corrected, or the editor gets a message about what is wrong."""
from __future__ import annotations

import json
import re
from typing import Any, NamedTuple

from .frames import framed

# What the adapter reads: so many bytes, and objects and lists in one another so deep.
MOST_BYTES, MOST_LEVELS = 1 << 20, 128
# Half of a character beyond the first 65,536, as JSON writes them in two parts.
SURROGATE = re.compile("[\ud800-\udfff]")
ESCAPED = re.compile(rb"\\u[dD][89a-fA-F]")
REPLACEMENT = "\ufffd"


class Admission(NamedTuple):
    """What becomes of a message: what is carried on, how its request fails, or what the console says."""

    raw: bytes = b""
    message: dict[str, Any] = {}
    failure: str = ""
    notice: str = ""


class Unfit(Exception):
    """A number that JSON doesn't have."""


def unknown_number(word: str) -> None:
    raise Unfit(f"{word} is no number of JSON")


def levels(body: bytes) -> int:
    """How deep objects and lists stand in one another, in a body that is JSON."""
    outside = re.sub(rb'"(?:[^"\\]|\\.)*"', b"", body, flags=re.DOTALL)
    deep = most = 0
    for byte in re.findall(rb"[\[\]{}]", outside):
        deep += 1 if byte in b"[{" else -1
        most = max(most, deep)
    return most


def whole(value: Any) -> int | None:
    """The number of a request, if a value is one: 50.0 is 50."""
    if isinstance(value, bool) or not isinstance(value, (int, float)):
        return None
    return int(value) if value == value // 1 and 0 <= value < 2**64 else None


def mended(value: Any) -> Any:
    """A value with no half of a character in its texts."""
    if isinstance(value, str):
        return SURROGATE.sub(REPLACEMENT, value)
    if isinstance(value, list):
        return [mended(item) for item in value]
    if isinstance(value, dict):
        return {mended(name): mended(item) for name, item in value.items()}
    return value


def parsed(body: bytes) -> Any:
    """What a body says; a ValueError or Unfit says why it says nothing."""
    try:
        text = body.decode()
    except UnicodeDecodeError as error:
        raise Unfit(f"byte {error.start} is not UTF-8") from error
    try:
        return json.loads(text, parse_constant=unknown_number)
    except json.JSONDecodeError as error:
        raise Unfit(f"not JSON: {error.msg} at character {error.pos}") from error


def admitted(raw: bytes, body: bytes) -> Admission:
    """What becomes of a message, given all its bytes and those of its body."""
    try:
        message = parsed(body)
    except RecursionError:
        return Admission(notice="nested too deep")
    except (ValueError, Unfit) as error:
        return Admission(notice=str(error))
    if not isinstance(message, dict):
        return Admission(notice="no object")
    if message.get("type") != "request":
        return Admission(raw, message)
    return admitted_request(raw, body, message)


def admitted_request(raw: bytes, body: bytes, message: dict[str, Any]) -> Admission:
    number = whole(message.get("seq"))
    if number is None:
        return Admission(notice="its seq is no whole number from 0")
    if not isinstance(message.get("command"), str):
        return Admission(notice="its command is no text")
    message["seq"] = number
    if len(body) > MOST_BYTES:
        return Admission(message=message, failure=f"more than {MOST_BYTES} bytes")
    if levels(body) > MOST_LEVELS:
        return Admission(message=message, failure=f"nested deeper than {MOST_LEVELS} levels")
    if ESCAPED.search(body) or not re.search(rb'"seq"\s*:\s*%d\s*[,}]' % number, body):
        return rewritten(mended(message))
    return Admission(raw, message)


def rewritten(message: dict[str, Any]) -> Admission:
    try:
        text = json.dumps(message, separators=(",", ":"), ensure_ascii=False, allow_nan=False)
    except ValueError:
        return Admission(message=message, failure="a number out of range")
    return Admission(framed(text.encode()), message)
