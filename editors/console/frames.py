"""Messages of the Debug Adapter Protocol as bytes: headers, bodies, and the number at the end of a message."""
from __future__ import annotations

import json
import re
from typing import Any, BinaryIO

LENGTH = re.compile(rb"(?i)content-length[ \t]*:[ \t]*(\d+)[ \t]*\r?\n")
# More than any message has: its header, and the digits of its length.
MOST_HEADER, MOST_DIGITS = 1 << 16, 8
# The adapter writes the number of a message as its last member.
NUMBER = re.compile(rb'"seq":\d+\}$')


def framed(body: bytes) -> bytes:
    return b"Content-Length: %d\r\n\r\n" % len(body) + body


class Frames:
    """The messages of a stream, each as the bytes that came and its body."""

    def __init__(self, stream: BinaryIO):
        self.stream = stream

    def next(self) -> tuple[bytes, bytes | None]:
        """The bytes of the next message, and its body; None for what is no message, and no bytes at the end."""
        header = b""
        while (line := self.stream.readline(MOST_HEADER)) not in (b"\r\n", b"\n"):
            header += line
            if not line or len(header) > MOST_HEADER:
                return header, None
        header += line
        found = LENGTH.findall(header)
        if len(found) != 1 or len(found[0]) > MOST_DIGITS:
            return header, None
        size = int(found[0])
        body = self.stream.read(size)
        # One that the end cuts off is no message.
        return header + body, body if len(body) == size else None


def renumbered(body: bytes, number: int) -> bytes:
    """The body of a message with another number."""
    return NUMBER.sub(b'"seq":%d}' % number, body)


def written(message: dict[str, Any]) -> bytes:
    return json.dumps(message, separators=(",", ":")).encode()


def read(body: bytes) -> dict[str, Any]:
    """The message that a body is; nothing for one that is none."""
    try:
        message = json.loads(body)
    except ValueError:
        return {}
    return message if isinstance(message, dict) else {}
