"""What the pages show of the front end: sessions as they stand at a terminal, and the table of commands.

A session is a block that begins with a line `$ ./qrev ..`; the typed lines follow the prompt.
"""
from __future__ import annotations

import pathlib
import re
import subprocess
import tempfile
from functools import partial
from typing import Callable, Iterator

from terminal.shell import COMMANDS

from .harness import PROMPT, TOP, Held, Silent

PAGE = TOP / "docs" / "TERMINAL.md"


def blocks_of(page: pathlib.Path) -> Iterator[tuple[int, list[str]]]:
    """The blocks of a page, each with the number of its first line; an empty line doesn't end one."""
    lines, at = page.read_text().split("\n"), 0
    while at < len(lines):
        if not lines[at].startswith("    "):
            at += 1
            continue
        first = at
        while at < len(lines) and (lines[at].startswith("    ") or not lines[at]):
            at += 1
        yield first + 1, "\n".join(line[4:] for line in lines[first:at]).rstrip("\n").split("\n")


def lowered_session_fault(program: str, lines: list[str]) -> str | None:
    """The same of a session over texts of whole QBE, which are lowered first."""
    texts = lines[0].split()[3:]
    with tempfile.TemporaryDirectory(prefix="lowered-") as folder:
        file = f"{folder}/out.ssa"
        subprocess.run([str(TOP / "lower" / "qrev-lower"), "--link", "--output", file, *texts], cwd=TOP, check=True)
        return session_fault(program, lines, (file,), tuple(texts))


def session_fault(program: str, lines: list[str], words: tuple[str, ...], lowered: tuple[str, ...] = ()) -> str | None:
    """How a session differs from the page, or None."""
    session = Held(program, *words, folder=str(TOP), columns=100, lowered=lowered, has_lookout=True)
    try:
        shown = [lines[0], *session.told.split("\n")[:-1]]
        for line in lines:
            if line.startswith(PROMPT):
                typed = line.removeprefix(PROMPT)
                shown += [line, *session.do(typed).split("\n")[:-1]]
        different = [(one, other) for one, other in zip(lines, shown) if one != other]
        if different or len(lines) != len(shown):
            return f"{different[0][1] if different else shown[len(lines):][:1]!r} in place of " \
                   f"{different[0][0] if different else 'the end'!r}"
        return session.replayed_fault()
    except Silent as silence:
        return f"{silence}"
    finally:
        session.close()


def table_fault() -> str | None:
    """Which command the page doesn't have, or which word of its tables is none."""
    told = set(re.findall(r"^\| `([a-z-]+)", PAGE.read_text(), re.MULTILINE))
    known = {command.names[0] for command in COMMANDS.values()}
    return f"{sorted(told ^ known)} stand in one alone" if told != known else None


def cases(program: str) -> Iterator[tuple[str, Callable[[], str | None]]]:
    for page in (TOP / "README.md", PAGE):
        if page.exists():
            for number, lines in blocks_of(page):
                if lines[0].startswith("$ ./qrev --check "):
                    # check/test runs these.
                    continue
                if lines[0].startswith("$ ./qrev --lower "):
                    yield f"{page.name}:{number}", partial(lowered_session_fault, program, lines)
                elif lines[0].startswith("$ ./qrev "):
                    words = tuple(lines[0].split()[2:])
                    yield f"{page.name}:{number}", partial(session_fault, program, lines, words)
    if PAGE.exists():
        yield "commands", table_fault
