"""Standard input and output that are slow, closed or failing, and files that are no plain text."""
from __future__ import annotations

import fcntl
import os
import resource
import select
import socket
import struct
import subprocess
import tempfile
import termios
import time
from collections.abc import Callable, Iterator, Mapping, Sequence
from pathlib import Path
from typing import IO, Optional, Union

from harness.preloaded import library
from harness.running import TERMINAL, Skipped, FIRST, LOADED, TOP, Case, Running, difference, quoted

EXAMPLE = TOP / "examples" / "squares.ssa"
SCRIPT = (TOP / "examples" / "squares.script").read_bytes()
TRANSCRIPT = (TOP / "examples" / "squares.transcript").read_bytes()
# A row that shows each shape of an instruction.
CANONICAL = TOP / "rows" / "canonical-text"
SUM = TOP / "examples" / "sum.ssa"
STEPPED = LOADED + b"#1 $main @start 1\n"


def started(running: Running, program: Union[str, Path], words: Sequence[str] = (),
            stdin: Union[int, IO[bytes], None] = None, stdout: Union[int, IO[bytes], None] = None,
            env: Optional[Mapping[str, str]] = None,
            preexec_fn: Optional[Callable[[], None]] = None, restore_signals: bool = True) -> subprocess.Popen[bytes]:
    return subprocess.Popen([running.program, str(program), *words], stdin=stdin, stdout=stdout, env=env,
                            preexec_fn=preexec_fn, restore_signals=restore_signals)


def ended(running: Running, process: subprocess.Popen[bytes], transcript: bytes, status: int,
          script: Optional[bytes] = None, written: Union[bytes, Callable[[], bytes], None] = None,
          may_lack: bool = False) -> Optional[str]:
    """Sends the rest of a script, if there is one, and gives what is wrong with the output and the end, or None.

    `written` is output that was already read; with `may_lack` any prefix of the transcript will do."""
    try:
        out, _ = process.communicate(script, running.seconds)
    except subprocess.TimeoutExpired:
        process.kill()
        process.communicate()
        return f"no end after {running.seconds} seconds"
    if written is None:
        written = out or b""
    if not isinstance(written, bytes):
        written = written()
    if may_lack:
        transcript = transcript[:len(written)]
    return difference(transcript, written) or (
        f"status {process.returncode} in place of {status}" if process.returncode != status else None)


def taken(file: int, count: int, seconds: float) -> bytes:
    """So many bytes of a pipe, or those that come before it ends or is silent for so long."""
    got = b""
    while len(got) < count and select.select([file], [], [], seconds)[0]:
        piece = os.read(file, count - len(got))
        if not piece:
            break
        got += piece
    return got


def all_of(file: IO[bytes]) -> bytes:
    """What stands in a file, from its start."""
    file.seek(0)
    return file.read()


def waiting_bytes(file: IO[bytes]) -> int:
    """How many bytes stand in a pipe."""
    return int(struct.unpack("i", fcntl.ioctl(file, termios.FIONREAD, b"\0\0\0\0"))[0])


def fed_by_bytes(running: Running) -> Optional[str]:
    """The script comes one byte at a time, each after the one before was read."""
    with tempfile.TemporaryFile() as out:
        process = started(running, EXAMPLE, stdin=subprocess.PIPE, stdout=out)
        assert process.stdin is not None
        end = time.monotonic() + running.seconds
        for byte in SCRIPT:
            os.write(process.stdin.fileno(), bytes([byte]))
            while waiting_bytes(process.stdin) and time.monotonic() < end and process.poll() is None:
                time.sleep(0)
        return ended(running, process, TRANSCRIPT, 0, written=lambda: all_of(out))


def read_by_bytes(running: Running) -> Optional[str]:
    """The transcript is read one byte at a time, from a pipe of one page that is full most of the time."""
    reads, writes = os.pipe()
    fcntl.fcntl(writes, fcntl.F_SETPIPE_SZ, 4096)
    process = started(running, EXAMPLE, stdin=subprocess.PIPE, stdout=writes)
    os.close(writes)
    assert process.stdin is not None
    process.stdin.write(b"mem $squares 256\n" * 20)
    process.stdin.close()
    process.stdin = None
    got = b""
    while byte := taken(reads, 1, running.seconds):
        got += byte
    os.close(reads)
    line = b" ".join([b"00"] * 20 + [b"--"] * 236) + b"\n"
    load = b"".join(TRANSCRIPT.splitlines(True)[:2])
    return ended(running, process, load + line * 20, 0, written=got)


def held_by_hand(running: Running) -> Optional[str]:
    """Each answer comes before the next line is given."""
    process = started(running, SUM, stdin=subprocess.PIPE, stdout=subprocess.PIPE)
    assert process.stdin is not None and process.stdout is not None
    exchanges = [(b"", LOADED), (b"step\n", b"#1 $main @start 1\n"), (b"print", b""), (b" %x\n", b"%x = 5\n"),
                 (b"\n", b""), (b"fly\n", b"no: unknown command\n"), (b"back\n", b"#0 $main @start 0\n")]
    for line, answer in exchanges:
        os.write(process.stdin.fileno(), line)
        fault = difference(answer, taken(process.stdout.fileno(), len(answer), running.seconds))
        if fault:
            process.kill()
            process.communicate()
            return f"behind {quoted(line)}: {fault}"
    # The input stays open: `quit` ends the session.
    os.write(process.stdin.fileno(), b"quit\n")
    rest = taken(process.stdout.fileno(), 1, running.seconds)
    try:
        process.wait(running.seconds)
    except subprocess.TimeoutExpired:
        process.kill()
    return ended(running, process, b"", 0, written=rest)


def ended_by_hand(running: Running) -> Union[str, Skipped, None]:
    """At a terminal the end of input comes after an unfinished line, once; nothing after it is waited for."""
    try:
        ours, theirs = os.openpty()
    except OSError:
        return Skipped(TERMINAL)
    process = started(running, SUM, stdin=theirs, stdout=subprocess.PIPE)
    os.close(theirs)
    # The first ends the piece, the second is a read of no bytes.
    os.write(ours, b"step\x04\x04")
    fault = ended(running, process, STEPPED, 0)
    os.close(ours)
    return fault


def bad_input(running: Running, kind: str) -> Optional[str]:
    """An input that can't be read: the load lines, and status 2."""
    files = {"a folder": ("/", os.O_RDONLY), "open for writing alone": (os.devnull, os.O_WRONLY),
             "memory that can't be read": ("/proc/self/mem", os.O_RDONLY)}
    if kind == "closed":
        process = started(running, SUM, stdout=subprocess.PIPE, preexec_fn=lambda: os.close(0))
        return ended(running, process, LOADED, 2)
    other: Optional[int] = None
    if kind == "without a byte now":
        file, other = os.pipe()
        os.set_blocking(file, False)
    else:
        file = os.open(*files[kind])
    process = started(running, SUM, stdin=file, stdout=subprocess.PIPE)
    os.close(file)
    fault = ended(running, process, LOADED, 2)
    if other is not None:
        os.close(other)
    return fault


def failing_input(running: Running, script: bytes, transcript: bytes, status: int) -> Optional[str]:
    """An input with these bytes, whose next read fails."""
    ours, theirs = socket.socketpair()
    # Bytes that were sent to an end and not read there when it is closed are a fault at the other end.
    theirs.send(b"unread")
    ours.send(script)
    ours.close()
    process = started(running, SUM, stdin=theirs.fileno(), stdout=subprocess.PIPE)
    theirs.close()
    return ended(running, process, transcript, status)


def cut_input(running: Running, length: int) -> Optional[str]:
    """An input that fails after N bytes: the output answers the lines that were read whole."""
    script = SUM_SCRIPT[:length]
    answers = SUM_ANSWERS.splitlines(True)[:script.count(b"\n")]
    return failing_input(running, script, LOADED + b"".join(answers), 2)


def read_of(running: Running, text: bytes, words: Sequence[str], script: bytes, written: bytes,
            status: int) -> tuple[int, Optional[str]]:
    """How many bytes of a script in a file are read, and what the program does wrong, or None."""
    with tempfile.NamedTemporaryFile(prefix="hostile-", suffix=".ssa") as program, tempfile.TemporaryFile() as source:
        program.write(text)
        program.flush()
        source.write(script)
        source.seek(0)
        process = started(running, program.name, words, stdin=source, stdout=subprocess.PIPE)
        fault = ended(running, process, written, status)
        # The place of an open file is one for all that hold it.
        return os.lseek(source.fileno(), 0, os.SEEK_CUR), fault


def unread_script(running: Running, name: str) -> Optional[str]:
    """The script of a program that is refused isn't read."""
    text, words, written = REFUSED[name]
    read, fault = read_of(running, text, words, b"step\n", written, 1)
    return fault or (f"{read} bytes of the script were read" if read else None)


def greatest_input(running: Running) -> Optional[str]:
    """Of a script that is too long one byte more than it may have is read, and no more."""
    read, fault = read_of(running, FIRST, [], b"\n" * (2**24 + 10_000), LOADED, 2)
    return fault or (f"{read} bytes of the script were read" if read != 2**24 + 1 else None)


def bad_output(running: Running, kind: str) -> Optional[str]:
    """An output that takes nothing: status 2."""
    if kind == "closed":
        process = started(running, SUM, stdin=subprocess.PIPE, preexec_fn=lambda: os.close(1))
        return ended(running, process, b"", 2, SCRIPT)
    if kind == "a pipe without a reader":
        reads, file = os.pipe()
        os.close(reads)
    elif kind == "full":
        file = os.open("/dev/full", os.O_WRONLY)
    else:
        file = os.open(os.devnull, os.O_RDONLY)
    process = started(running, SUM, stdin=subprocess.PIPE, stdout=file)
    os.close(file)
    return ended(running, process, b"", 2, SCRIPT)


def help_unwritten(running: Running) -> Optional[str]:
    """Help that can't be written: status 2."""
    with open("/dev/full", "wb") as full:
        run = subprocess.run([running.program, "--help"], stdin=subprocess.DEVNULL, stdout=full,
                             timeout=running.seconds)
    return None if run.returncode == 2 else f"status {run.returncode} in place of 2"


def output_of_size(running: Running, program: Union[str, Path], script: bytes, transcript: bytes,
                   size: int) -> Optional[str]:
    """A file that takes only N bytes: it has the prefix of the transcript of that length."""
    def bounded() -> None:
        resource.setrlimit(resource.RLIMIT_FSIZE, (size, size))

    with tempfile.TemporaryFile() as out:
        # Python ignores the signal of a file that is too long, and so does what it starts without restoring signals.
        process = started(running, program, stdin=subprocess.PIPE, stdout=out, preexec_fn=bounded,
                          restore_signals=False)
        status = 0 if size >= len(transcript) else 2
        return ended(running, process, transcript[:size], status, script, written=lambda: all_of(out))


def no_bytes_taken(running: Running) -> Optional[str]:
    """Behind each number of bytes the output takes none, without an error: status 2, unless all was written."""
    transcript = STEPPED
    with library("full.c") as made:
        for count in range(len(transcript) + 2):
            process = started(running, SUM, stdin=subprocess.PIPE, stdout=subprocess.PIPE,
                              env={**os.environ, "LD_PRELOAD": made, "FULL_AFTER": str(count)})
            fault = ended(running, process, transcript[:count], 0 if count >= len(transcript) else 2, b"step\n")
            if fault:
                return f"behind {count} bytes: {fault}"
    return None


def reader_goes(running: Running, count: int, signals: bool) -> Optional[str]:
    """The reader goes away after N bytes of the load lines, and then there is something to write."""
    process = started(running, SUM, stdin=subprocess.PIPE, stdout=subprocess.PIPE, restore_signals=signals)
    assert process.stdout is not None
    got = taken(process.stdout.fileno(), count, running.seconds)
    process.stdout.close()
    process.stdout = None
    return ended(running, process, LOADED[:count], 2, b"step\n" * 3, written=got)


def full_pipe(running: Running) -> Optional[str]:
    """A pipe that nobody empties and that doesn't wait: a front of the transcript, and status 2."""
    reads, writes = os.pipe()
    size = fcntl.fcntl(writes, fcntl.F_SETPIPE_SZ, 4096)
    os.set_blocking(writes, False)
    process = started(running, SUM, stdin=subprocess.PIPE, stdout=writes)
    os.close(writes)

    def written() -> bytes:
        front = taken(reads, 2 * size, running.seconds)
        return front if len(front) > size - 100 else b"only %d bytes were written" % len(front)

    transcript = LOADED + b"#1 $main @start 1\n#0 $main @start 0\n" * size
    fault = ended(running, process, transcript, 2, b"step\nback\n" * size, written=written, may_lack=True)
    os.close(reads)
    return fault


def file_as_program(running: Running, words: Sequence[Union[str, bytes]], script: bytes, written: bytes,
                    errors: Optional[bytes], status: int) -> Optional[str]:
    """Files that are no plain text, and odd command lines."""
    run = subprocess.run([running.program, *words], input=script, capture_output=True, timeout=running.seconds)
    if errors is not None and run.stderr != errors:
        return f"standard error: {quoted(run.stderr)}"
    return difference(written, run.stdout) or (
        f"status {run.returncode} in place of {status}" if run.returncode != status else None)


def program_by_pipe(running: Running) -> Optional[str]:
    """A program that comes by a pipe, a byte at a time."""
    with tempfile.TemporaryDirectory(prefix="hostile-") as folder:
        name = os.path.join(folder, "pipe")
        os.mkfifo(name)
        process = started(running, name, stdin=subprocess.PIPE, stdout=subprocess.PIPE)
        with open(name, "wb", buffering=0) as pipe:
            for byte in SUM.read_bytes():
                pipe.write(bytes([byte]))
        return ended(running, process, STEPPED, 0, b"step\n")


# Scripts behind which a read fails, what is written, and the status.
FAILING = [
    (b"step\npri", STEPPED, 2), (b"step\nquit", STEPPED, 2), (b"quit\n", LOADED, 0),
    (b"step\nquit\nstep\n", STEPPED, 0), (b"\n" * 5000, LOADED, 2), (b"a" * 300, LOADED, 2),
    (b"a" * 300 + b"\n", LOADED + b"no: line too long\n", 2),
]
SUM_SCRIPT = b"step\nprint %x\nback\nprint %x\nstep 5\nstep\n"
SUM_ANSWERS = b"#1 $main @start 1\n%x = 5\n#0 $main @start 0\n%x unset\n#2 done 5\nno: at end\n"
# Programs that are refused, each in a part of the load: the text, the words behind it, and what is written.
RETURNS = b"function $main() {\n@start\n\tret\n}\n"
REFUSED: dict[str, tuple[bytes, list[str], bytes]] = {
    "can't be cut": (b"function $main() {\n@start\n\t%x =l copy 18446744073709551616\n\tret\n}\n", [],
                     b"refused: L3 line 3\n"),
    "can't be parsed": (b"function w $main() {\n@start\n%x =w add 2,", [], b"refused: P3 line 3\n"),
    "breaks a rule": (b"function $main() {\n@start\n\t%w =w copy 1\n\t%p =l add %w, 1\n\tret\n}\n", [],
                      b"refused: C7 line 4\n"),
    "has too many data": (b"data $z = { z 1048577 }\n" + RETURNS, [], b"refused: Y1 line 1\n"),
    "has data that can't be aligned": (b"\ndata $z = align 3 { b 0 }\n" + RETURNS, [], b"refused: Y2 line 2\n"),
    "lacks the entry": (FIRST, ["--entry", "nope"], b"refused: S1\n"),
    "takes no argument": (FIRST, ["5"], b"refused: S2\n"),
}
UNREADABLE = b"cannot read program\n"
FILES: dict[str, tuple[Sequence[Union[str, bytes]], bytes, bytes, Optional[bytes], int]] = {
    "the program on standard input": (["/dev/stdin"], SUM.read_bytes(), LOADED, b"", 0),
    "a program without an end": (["/dev/zero"], b"", b"refused: L6 line 1\n", b"", 1),
    "a folder as the program": (["/"], b"", b"", UNREADABLE, 2),
    "memory that can't be read as the program": (["/proc/self/mem"], b"", b"", UNREADABLE, 2),
    "a program in a file that is none": ([str(SUM) + "/x"], b"", b"", UNREADABLE, 2),
    "a file's name of 5,000 bytes": (["x" * 5000], b"", b"", UNREADABLE, 2),
    "a file without a name": ([""], b"", b"", UNREADABLE, 2),
    "a word that is no text": ([str(SUM), b"\xff"], b"", b"", None, 64),
    "an entry of 100,000 bytes": ([str(SUM), "--entry", "x" * 100_000], b"", b"refused: S1\n", b"", 1),
    "5,000 arguments": ([str(SUM)] + ["1"] * 5000, b"", b"refused: S2\n", b"", 1),
    "an argument of 10,000 zeros and a 1": ([str(SUM), "0" * 10_000 + "1"], b"", b"refused: S2\n", b"", 1),
}


def of_files(running: Running, name: str) -> Optional[str]:
    return file_as_program(running, *FILES[name])


def cases() -> Iterator[Case]:
    yield Case("a script of single bytes", fed_by_bytes)
    yield Case("a transcript that is read by single bytes", read_by_bytes)
    yield Case("a session held by hand", held_by_hand)
    yield Case("a session ended by hand", ended_by_hand)
    for kind in ("closed", "without a byte now", "a folder", "open for writing alone", "memory that can't be read"):
        yield Case(f"standard input: {kind}", bad_input, (kind,))
    for script, transcript, status in FAILING:
        yield Case(f"a read that fails behind {quoted(script)}", failing_input, (script, transcript, status))
    for length in range(len(SUM_SCRIPT) + 1):
        yield Case(f"a read that fails behind {length} bytes", cut_input, (length,))
    for name in REFUSED:
        yield Case(f"the script of a program that {name}", unread_script, (name,))
    yield Case("how much of a script that is too long is read", greatest_input)
    for kind in ("closed", "full", "open for reading alone", "a pipe without a reader"):
        yield Case(f"standard output: {kind}", bad_output, (kind,))
    yield Case("help that can't be written", help_unwritten)
    yield Case("an output that takes no bytes, without an error", no_bytes_taken)
    for size in range(len(TRANSCRIPT) + 2):
        yield Case(f"an output of {size} bytes", output_of_size, (EXAMPLE, SCRIPT, TRANSCRIPT, size))
    transcript = (CANONICAL / "transcript").read_bytes()
    for size in range(len(LOADED), len(transcript) + 2):
        yield Case(f"an output of {size} bytes, of a block's text", output_of_size,
                   (CANONICAL / "program.ssa", b"list\n", transcript, size))
    for count in range(len(LOADED) + 1):
        yield Case(f"a reader that goes away after {count} bytes", reader_goes, (count, count % 2 == 0))
    yield Case("a full pipe that doesn't wait", full_pipe)
    yield Case("a program that comes by a pipe", program_by_pipe)
    for name in FILES:
        yield Case(name, of_files, (name,))
