"""Input below requests: headers in other forms, bodies in pieces, what is no message; and devices that fail."""
from __future__ import annotations

import json
import os
import socket
import struct
import subprocess
import tempfile
import time
from collections.abc import Iterator, Sequence
from typing import NamedTuple, Optional

from .driver import frame, messages_in, read_message, request_message
from .sessions import Case, Message

GREATEST_BODY, GREATEST_HEADER = 2**20, 4096
THREADS = json.dumps(request_message(7, "threads")).encode()
# What the request above is answered without a session, but for its number.
ANSWER = {"type": "response", "request_seq": 7, "command": "threads", "success": False, "message": "no session"}


def headed(body: bytes, header: bytes = b"Content-Length: %d\r\n\r\n") -> bytes:
    return header % len(body) + body


def answers(*numbers: int) -> list[Message]:
    """The request's response once for each number of a request."""
    return [{"seq": at, **ANSWER, "request_seq": number} for at, number in enumerate(numbers, 1)]


ONE = headed(THREADS)
LONG_LINE = b"X-Filler: "


def filled(length: int) -> bytes:
    """A header of a number of bytes in all for the request, with a line without meaning."""
    last = b"Content-Length: %d\r\n\r\n" % len(THREADS)
    return LONG_LINE + b"x" * (length - len(last) - len(LONG_LINE) - 2) + b"\r\n" + last + THREADS


def padded(length: int) -> bytes:
    """The request with spaces after it, a number of bytes in all."""
    return headed(THREADS + b" " * (length - len(THREADS)))


class Input(NamedTuple):
    """The pieces of an input, each written when the one before it had its time; what comes of them, and the exit
    status."""

    pieces: list[bytes]
    wanted: list[Message]
    status: int = 0


def lost(*pieces: bytes) -> Input:
    """An input with a message, and then what is none: it isn't read on."""
    return Input([ONE, *pieces, ONE], answers(7), 2)


INPUTS = {
    "nothing": Input([], []),
    "one request": Input([ONE], answers(7)),
    "a header in small letters": Input([headed(THREADS, b"content-length: %d\r\n\r\n")], answers(7)),
    "a header in capital letters": Input([headed(THREADS, b"CONTENT-LENGTH: %d\r\n\r\n")], answers(7)),
    "no space behind the name": Input([headed(THREADS, b"Content-Length:%d\r\n\r\n")], answers(7)),
    "spaces around the number": Input([headed(THREADS, b"Content-Length: \t %d \r\n\r\n")], answers(7)),
    "zeros before the number": Input([headed(THREADS, b"Content-Length: 000%d\r\n\r\n")], answers(7)),
    "another header before": Input([headed(THREADS, b"Content-Type: application/vscode-jsonrpc; charset=utf-8\r\n"
                                           b"Content-Length: %d\r\n\r\n")], answers(7)),
    "another header behind": Input([headed(THREADS, b"Content-Length: %d\r\nContent-Type: x/y; n=17\r\n\r\n")],
                                   answers(7)),
    "a header without a colon": Input([headed(THREADS, b"Content-Length 5\r\nContent-Length: %d\r\n\r\n")], answers(7)),
    "lines that end with byte 10 alone": Input([headed(THREADS, b"Content-Length: %d\n\n")], answers(7)),
    "a body in two writes": Input([ONE[:40], ONE[40:]], answers(7)),
    "a header in two writes": Input([ONE[:9], ONE[9:]], answers(7)),
    "the blank line in two writes": Input([ONE[:-len(THREADS) - 1], ONE[-len(THREADS) - 1:]], answers(7)),
    "a body behind its header": Input([ONE[:-len(THREADS)], THREADS], answers(7)),
    "byte by byte": Input([ONE[at:at + 1] for at in range(len(ONE))], answers(7)),
    "two requests in one write": Input([ONE + ONE], answers(7, 7)),
    "a request and a half": Input([ONE + ONE[:30], ONE[30:]], answers(7, 7)),
    "a hundred requests in one write": Input([ONE * 100], answers(*[7] * 100)),
    "the greatest body": Input([padded(GREATEST_BODY) + ONE], answers(7, 7)),
    "the greatest header": Input([filled(GREATEST_HEADER) + ONE], answers(7, 7)),
    # The end of the input within a message.
    "the end in a header": Input([ONE, ONE[:10]], answers(7)),
    "the end behind a header": Input([ONE, ONE[:-len(THREADS)]], answers(7)),
    "the end in a body": Input([ONE, ONE[:-1]], answers(7)),
    # What is no message.
    "a body and a byte": lost(b"\n"),
    "no length": lost(b"Content-Type: x\r\n\r\n{}"),
    "two lengths": lost(b"Content-Length: 2\r\nContent-Length: 2\r\n\r\n{}"),
    "a length that is no number": lost(b"Content-Length: two\r\n\r\n{}"),
    "a length with a sign": lost(b"Content-Length: -2\r\n\r\n{}"),
    "a length without digits": lost(b"Content-Length: \r\n\r\n{}"),
    "a length and a word": lost(b"Content-Length: 2 bytes\r\n\r\n{}"),
    "a length past the greatest": lost(b"Content-Length: %d\r\n\r\n" % (GREATEST_BODY + 1)),
    "a length past all numbers": lost(b"Content-Length: %d\r\n\r\n" % 2**64),
    "a header past the greatest": lost(filled(GREATEST_HEADER + 1)),
    "a line without an end": lost(b"x" * 5000),
}

# Bodies that are no JSON, or no request: they are passed over.
SKIPPED = {
    "an empty body": b"",
    "spaces": b"   ",
    "no JSON": b"threads",
    "JSON that breaks off": THREADS[:-1],
    "more behind JSON": THREADS + b"}",
    "no UTF-8": THREADS.replace(b"threads", b"thr\xff\xfeads"),
    "a number": b"17",
    "an array": b"[%s]" % THREADS,
    "a text": b'"threads"',
    "null": b"null",
    "an empty object": b"{}",
    "a response": THREADS.replace(b'"request"', b'"response"'),
    "an event": THREADS.replace(b'"request"', b'"event"'),
    "a type that is no text": THREADS.replace(b'"request"', b"5"),
    "no type": b'{"seq": 7, "command": "threads"}',
    "no seq": b'{"type": "request", "command": "threads"}',
    "no command": b'{"seq": 7, "type": "request"}',
    "a command that is no text": THREADS.replace(b'"threads"', b"7"),
    "a seq that is a text": THREADS.replace(b"7", b'"7"'),
    "a seq with a point": THREADS.replace(b"7", b"7.0"),
    "a seq with an exponent": THREADS.replace(b"7", b"7e0"),
    "a seq below 0": THREADS.replace(b"7", b"-7"),
    "a seq of 2^64": THREADS.replace(b"7", b"%d" % 2**64),
    "NaN": b'{"seq": 7, "type": "request", "command": "threads", "arguments": NaN}',
    "an array in an array, ten thousand times": b"[" * 10_000 + b"]" * 10_000,
    "brackets that nobody ends": b"[" * 100_000,
}

# Requests that are written otherwise, and the number by which each is answered.
REQUESTS = {
    "members in another order": (b'{"arguments": {}, "command": "threads", "type": "request", "seq": 7}', 7),
    "spacing": (b' {\r\n\t"seq" : 7 , "type" : "request" , "command" : "threads" } \n', 7),
    "characters by their numbers": (b'{"seq": 7, "type": "\\u0072equest", "command": "thr\\u0065ads"}', 7),
    "members that nobody knows": (b'{"seq": 7, "type": "request", "command": "threads", "x": [{"seq": 8}, null, 1e5]}',
                                  7),
    "arguments that are no object": (b'{"seq": 7, "type": "request", "command": "threads", "arguments": [1]}', 7),
    "arguments that are null": (b'{"seq": 7, "type": "request", "command": "threads", "arguments": null}', 7),
    "seq 0": (THREADS.replace(b"7", b"0"), 0),
    "a seq past 2^53": (THREADS.replace(b"7", b"9007199254740993"), 9007199254740993),
    "the greatest seq": (THREADS.replace(b"7", b"%d" % (2**64 - 1)), 2**64 - 1),
}


def compared(wanted: Sequence[Message], status: int, written: bytes, given_status: Optional[int]) -> Optional[str]:
    got = messages_in(written)
    if got != wanted:
        at = next((at for at, (one, other) in enumerate(zip(wanted, got)) if one != other), min(len(wanted), len(got)))
        return f"message {at + 1} of {len(got)}: {json.dumps(got[at]) if at < len(got) else 'none'}"
    return None if status == given_status else f"exit status {given_status} in place of {status}"


def of_input(program: str, seconds: float, name: str) -> Optional[str]:
    given = INPUTS[name]
    process = subprocess.Popen([program], stdin=subprocess.PIPE, stdout=subprocess.PIPE)
    assert process.stdin is not None and process.stdout is not None
    pause = 0.2 if len(given.pieces) < 10 else 0.002
    try:
        for piece in given.pieces[:-1]:
            process.stdin.write(piece)
            process.stdin.flush()
            time.sleep(pause)
        written, _ = process.communicate(given.pieces[-1] if given.pieces else b"", timeout=seconds)
    except BrokenPipeError:
        # An adapter that doesn't read on may be gone.
        written, _ = process.stdout.read(), process.wait(seconds)
    except subprocess.TimeoutExpired:
        process.kill()
        process.communicate()
        return f"no end after {seconds:g} seconds"
    return compared(given.wanted, given.status, written, process.returncode)


def of_body(program: str, seconds: float, body: bytes, number: Optional[int]) -> Optional[str]:
    """A body between two requests; if it is one it is answered by its number, else it is passed over."""
    run = subprocess.run([program], input=ONE + headed(body) + ONE, stdout=subprocess.PIPE, timeout=seconds)
    return compared(answers(7, 7) if number is None else answers(7, number, 7), 0, run.stdout, run.returncode)


def of_command(program: str, seconds: float) -> Optional[str]:
    """A command that nobody knows comes back in its response as it was, whatever characters it has."""
    command = "th\u00e9 \"\\\u4e16\U0001f600\n\u0001"
    run = subprocess.run([program], input=frame(request_message(7, command)), stdout=subprocess.PIPE, timeout=seconds)
    return compared([{"seq": 1, **ANSWER, "command": command}], 0, run.stdout, run.returncode)


def after_disconnect(program: str, seconds: float) -> Optional[str]:
    """Nothing that comes after `disconnect` is answered, be it a message or none."""
    for more in (ONE, b"no message\n\n"):
        sent = ONE + frame(request_message(8, "disconnect")) + more
        run = subprocess.run([program], input=sent, stdout=subprocess.PIPE, timeout=seconds)
        told = [(message.get("request_seq"), message.get("success")) for message in messages_in(run.stdout)]
        if (told, run.returncode) != ([(7, False), (8, True)], 0):
            return f"exit status {run.returncode}, {told}"
    return None


def full_output(program: str, seconds: float) -> Optional[str]:
    """A device that takes nothing."""
    with open("/dev/full", "wb") as full:
        run = subprocess.run([program], input=ONE * 3, stdout=full, timeout=seconds)
    return None if run.returncode == 2 else f"exit status {run.returncode} in place of 2"


def closed_output(program: str, seconds: float) -> Optional[str]:
    """A pipe that nobody reads any more."""
    read, write = os.pipe()
    os.close(read)
    try:
        run = subprocess.run([program], input=ONE * 3, stdout=write, timeout=seconds)
    finally:
        os.close(write)
    return None if run.returncode == 2 else f"exit status {run.returncode} in place of 2"


def bad_input(program: str, seconds: float) -> Optional[str]:
    """A folder in place of an input: it can't be read."""
    with tempfile.TemporaryDirectory(prefix="dap-") as folder:
        source = os.open(folder, os.O_RDONLY)
        try:
            run = subprocess.run([program], stdin=source, stdout=subprocess.PIPE, timeout=seconds)
        finally:
            os.close(source)
    return None if (run.returncode, run.stdout) == (2, b"") else f"exit status {run.returncode} in place of 2"


def first_fault(process: subprocess.Popen[bytes]) -> Optional[str]:
    """How a process's answer to the request is wrong, or None."""
    assert process.stdout is not None
    got = read_message(process.stdout)
    return None if got == answers(7)[0] else f"the first message is {got}"


def output_closed_later(program: str, seconds: float) -> Optional[str]:
    """A pipe whose reader goes after the first message."""
    process = subprocess.Popen([program], stdin=subprocess.PIPE, stdout=subprocess.PIPE)
    assert process.stdin is not None and process.stdout is not None
    process.stdin.write(ONE)
    process.stdin.flush()
    fault = first_fault(process)
    process.stdout.close()
    try:
        process.stdin.write(ONE * 2)
        process.stdin.close()
    except BrokenPipeError:
        pass
    status = process.wait(seconds)
    return fault or (None if status == 2 else f"exit status {status} in place of 2")


def input_reset(program: str, seconds: float) -> Optional[str]:
    """An input that fails after the first message: a connection that is reset."""
    with socket.create_server(("127.0.0.1", 0)) as server:
        client = socket.create_connection(server.getsockname())
        accepted, _ = server.accept()
    process = subprocess.Popen([program], stdin=accepted.fileno(), stdout=subprocess.PIPE)
    accepted.close()
    client.sendall(ONE)
    fault = first_fault(process)
    client.setsockopt(socket.SOL_SOCKET, socket.SO_LINGER, struct.pack("ii", 1, 0))
    client.close()
    written, _ = process.communicate(timeout=seconds)
    return fault or (None if (process.returncode, written) == (2, b"")
                     else f"exit status {process.returncode} in place of 2")


def long_output(program: str, seconds: float) -> Optional[str]:
    """A run that writes nearly as much as it may, sent in one event, with its control characters."""
    line = "\t" + "x" * 65_000 + "\\033"
    text = (f'data $s = {{ b "{line}", b 0 }}\nfunction $main() {{\n@start\n'
            + "\t%r =w call $puts(l $s)\n" * 15 + "\tret\n}\n")
    with tempfile.NamedTemporaryFile(prefix="dap-", suffix=".ssa") as file:
        file.write(text.encode())
        file.flush()
        requests: list[tuple[str, Optional[Message]]] = [
            ("launch", {"program": file.name, "stopOnEntry": False}), ("configurationDone", None),
            ("disconnect", None)]
        sent = b"".join(frame(request_message(number, *request)) for number, request in enumerate(requests, 1))
        run = subprocess.run([program], input=sent, stdout=subprocess.PIPE, timeout=seconds)
    told = [message["body"]["output"] for message in messages_in(run.stdout) if message.get("event") == "output"]
    wanted = [("\t" + "x" * 65_000 + "\x1b\n") * 15]
    return None if (told, run.returncode) == (wanted, 0) else \
        f"exit status {run.returncode}, {[len(one) for one in told]} characters"


def cases() -> Iterator[Case]:
    """Each case: its name, a function of the program and the seconds, and what else that takes."""
    for name in INPUTS:
        yield name, of_input, (name,)
    for name, body in SKIPPED.items():
        yield f"passed over: {name}", of_body, (body, None)
    for name, (body, number) in REQUESTS.items():
        yield f"a request: {name}", of_body, (body, number)
    yield "a command of many characters", of_command, ()
    yield "what comes after disconnect", after_disconnect, ()
    yield "a long output of the program", long_output, ()
    yield "an output that is full", full_output, ()
    yield "an output that nobody reads", closed_output, ()
    yield "an output that nobody reads any more", output_closed_later, ()
    yield "an input that can't be read", bad_input, ()
    yield "an input that breaks off", input_reset, ()
