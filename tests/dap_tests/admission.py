"""Messages that are barely requests, or none: what JSON allows is read, and for all else the editor learns why it
isn't.

Expected values come from the protocol's and from JSON's definitions (RFC 8259).
"""
from __future__ import annotations

from collections.abc import Callable, Iterator
from typing import Any

from .consoles import Console, fault_in
from .driver import Wrong
from .sessions import Case

# A request that succeeds before a launch.
ASKED = '"type":"request","command":"initialize"'


def after(console: Console, body: bytes) -> dict[str, Any]:
    """What comes of a message."""
    console.write(b"Content-Length: %d\r\n\r\n" % len(body) + body)
    message: dict[str, Any] | None = console.next()
    if message is None:
        raise Wrong(f"the end, of {body[:80]!r}")
    return message


def answered(console: Console, body: bytes, number: int, failure: str = "") -> None:
    """A message has a response with a number, which fails for a reason or doesn't."""
    message = after(console, body)
    got = (message["type"], message.get("request_seq"), message.get("success"), message.get("message", ""))
    if got != ("response", number, not failure, failure):
        raise Wrong(f"{message} to {body[:80]!r}")


def remarked(console: Console, body: bytes, why: str) -> None:
    """The console says why a message is passed over."""
    message = after(console, body)
    told = message.get("body", {}).get("output", "")
    if message.get("event") != "output" or not told.startswith("a message was passed over: ") or why not in told:
        raise Wrong(f"{message} of {body[:80]!r}")


def numbers(console: Console) -> None:
    """A number may be written in each way that JSON has for it."""
    for at, written in ((50, "50.0"), (60, "6e1"), (70, "7.0E+1"), (2**53, "9007199254740992.0"), (80, " 80 ")):
        answered(console, f'{{"seq":{written},{ASKED}}}'.encode(), at)
    for written in ("50.5", "-7", "true", '"9"', "null", "1e400", "[1]"):
        remarked(console, f'{{"seq":{written},{ASKED}}}'.encode(), "seq")
    remarked(console, f"{{{ASKED}}}".encode(), "seq")
    remarked(console, b'{"seq":9,"type":"request","command":7}', "command")


def halves_of_characters(console: Console) -> None:
    """Half of a character is no character: it is read as U+FFFD; both halves are one."""
    for at, text, shown in ((5, "\\\\ud800", "\ufffd"), (6, "\\\\uDFFF!", "\ufffd!"),
                            (7, "\\\\ud83d\\\\ude00", "\U0001f600")):
        body = f'{{"seq":{at},"type":"request","command":"{text}"}}'.replace("\\\\", "\\").encode()
        message = after(console, body)
        if (message.get("request_seq"), message.get("command"), message.get("success")) != (at, shown, False):
            raise Wrong(f"{message} to {body!r}")


def depths(console: Console) -> None:
    """So deep as the adapter reads, and no deeper."""
    too_deep = "nested deeper than 128 levels"
    for at, deep, failure in ((11, 127, ""), (12, 128, too_deep), (13, 900, too_deep)):
        answered(console, b'{"seq":%d,%s,"arguments":%s%s}' % (at, ASKED.encode(), b"[" * deep, b"]" * deep), at,
                 failure)
    answered(console, b'{"seq":14,%s,"arguments":{"a":"%s"}}' % (ASKED.encode(), b"[" * 500), 14)
    remarked(console, b'{"seq":15,%s,"arguments":%s}' % (ASKED.encode(), b"[" * 100_000 + b"]" * 100_000), "nested")


def sizes(console: Console) -> None:
    """As long as the adapter reads, and no longer; what follows is read."""
    too_long = "more than 1048576 bytes"
    for at, size, failure in ((21, 1 << 20, ""), (22, (1 << 20) + 1, too_long), (23, 3 << 20, too_long)):
        body = b'{"seq":%d,%s}' % (at, ASKED.encode())
        answered(console, body.ljust(size), at, failure)
    answered(console, b'{"seq":24,%s}' % ASKED.encode(), 24)


def no_messages(console: Console) -> None:
    for body, why in ((b"hello", "not JSON"), (b"", "not JSON"), (b"[]", "object"), (b"{\"seq\":1", "not JSON"),
                      (b'{"seq":1,%s,"arguments":{"a":NaN}}' % ASKED.encode(), "NaN"),
                      (b'{"seq":1,"type":"request","command":"thr\xffeads"}', "UTF-8")):
        remarked(console, body, why)


CASES: dict[str, Callable[[Console], None]] = {
    "admission: numbers": numbers,
    "admission: halves of characters": halves_of_characters,
    "admission: depths": depths,
    "admission: sizes": sizes,
    "admission: no messages": no_messages,
}


def cases() -> Iterator[Case]:
    for name, does in CASES.items():
        yield name, fault_in, (does,)
