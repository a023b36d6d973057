"""The files of a lowered program's run, which are in memory (docs/REAL_COMPILERS.md#files): which there are here, and
what they have."""
from __future__ import annotations

import pathlib
import shlex
from typing import Iterator, NamedTuple

from .expressions import Wrong
from .scratch import Refused
from .shell import Shell, command
from .values import numbered_lines

# A record of the table, as lower/runtime/files/table.ssa has it: addresses of the name and of the first byte, the size,
# the room, how many streams are open, and whether it has its name.
RECORD = 40
# No name is longer, and no file, and there aren't more of them.
MOST_NAME, MOST_BYTES, MOST_FILES = 4096, 1 << 24, 1 << 12


class File(NamedTuple):
    """A file: its name, where its bytes are, how many, and how many streams are open on it."""

    name: str
    address: int
    size: int
    streams: int


def bytes_at(shell: Shell, address: int, count: int) -> bytes:
    """Bytes of memory; those that aren't live are zero, as where a program wrote over the table."""
    return bytes(byte or 0 for byte in shell.session.memory(address, count)) if count else b""


def number(shell: Shell, address: int, count: int) -> int:
    return int.from_bytes(bytes_at(shell, address, count), "little")


def text_at(shell: Shell, address: int) -> str:
    """The text at an address, up to its zero."""
    found = b""
    while len(found) < MOST_NAME and b"\0" not in found:
        found += bytes_at(shell, address + len(found), 16)
    return found.split(b"\0")[0].decode("utf-8", "replace")


def files_here(shell: Shell) -> Iterator[File]:
    if not {"table", "end"} <= shell.lowered.files.keys():
        raise Refused("this program opens no files")
    table, end = (shell.session.program.addresses[shell.lowered.files[what]] for what in ("table", "end"))
    for at in range(table, min(number(shell, end, 8), table + MOST_FILES * RECORD), RECORD):
        name, address, size = (number(shell, at + offset, 8) for offset in (0, 8, 16))
        streams, is_named = (number(shell, at + offset, 4) for offset in (32, 36))
        if is_named or streams:
            yield File(text_at(shell, name) if is_named else "(no name)", address, size, streams)


@command("files", "files [NAME [PATH]]")
def files(shell: Shell, rest: str) -> None:
    """Lists the files that a lowered program can open here: their sizes, where their bytes are, and how many streams
    are open. With a name it shows that file, each line after the number of its first byte. With a path it writes the
    bytes there."""
    try:
        words = shlex.split(rest)
    except ValueError as error:
        raise Wrong(f"files: {error}") from None
    found = list(files_here(shell))
    if not words:
        shell.say(*[f"{one.name}: {one.size} bytes" + (f" at {one.address}" if one.size else "")
                    + (f", {one.streams} {'stream' if one.streams == 1 else 'streams'} open" if one.streams else "")
                    for one in found] or ["no files"])
        return
    chosen = next((one for one in found if one.name.removeprefix("./") == words[0].removeprefix("./")), None)
    if chosen is None:
        raise Refused(f"{words[0]}: no such file here")
    content = bytes_at(shell, chosen.address, min(chosen.size, MOST_BYTES))
    if len(words) > 1:
        write(shell, words[1], content)
    else:
        shell.say(*numbered_lines(content))


def write(shell: Shell, path: str, content: bytes) -> None:
    try:
        pathlib.Path(path).expanduser().write_bytes(content)
    except OSError as error:
        raise Refused(f"{path}: {error.strerror}") from None
    shell.say(f"{len(content)} bytes are in {path}")
