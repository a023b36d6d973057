"""Messages of the Debug Adapter Protocol on streams of bytes: their frames, and what is a request."""
from __future__ import annotations

import json
from typing import IO, Any, NoReturn, TypeGuard

MOST_IN_HEADER, MOST_IN_BODY = 4096, 2**20


# A message, or a part of one.
Message = dict[str, Any]


class Lost(Exception):
    """The input is no message, so that nobody knows where the next one begins."""


def frame(message: Message) -> bytes:
    body = json.dumps(message).encode()
    return b"Content-Length: %d\r\n\r\n" % len(body) + body


def read_body(source: IO[bytes]) -> bytes | None:
    """The body of the next message, or None at the end of the input, also at one within a message."""
    room = MOST_IN_HEADER
    said: list[bytes] = []
    while True:
        line = source.readline(room)
        if not line.endswith(b"\n"):
            if len(line) == room:
                raise Lost
            return None
        room -= len(line)
        if line in (b"\n", b"\r\n"):
            break
        if line[:15].lower() == b"content-length:":
            said.append(line[15:].strip())
        if not room:
            raise Lost
    if len(said) != 1 or not said[0].isdigit() or int(said[0]) > MOST_IN_BODY:
        raise Lost
    body = source.read(int(said[0]))
    return body if len(body) == int(said[0]) else None


def no_constant(word: str) -> NoReturn:
    raise ValueError(word)


def request_in(body: bytes) -> Message | None:
    """The request that a body is, or None."""
    try:
        message = json.loads(body.decode(), parse_constant=no_constant)
    except (ValueError, RecursionError):
        return None
    is_request = isinstance(message, dict) and message.get("type") == "request" and \
        is_number(message.get("seq"), 0, 2**64 - 1) and isinstance(message.get("command"), str)
    return message if is_request else None


def is_number(value: object, least: int, greatest: int) -> TypeGuard[int]:
    """Whether a value of JSON is a whole number in digits, from the least to the greatest."""
    return isinstance(value, int) and not isinstance(value, bool) and least <= value <= greatest
