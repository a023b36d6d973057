"""The places and temporaries of a program, if the debugger can be asked for each temporary by its name."""
from __future__ import annotations

from page.table import MOST_NAME, Table
from terminal.text import Program


class TooLong(Exception):
    """A name by which the debugger can't be asked."""


def table_of(program: Program) -> Table:
    for function in program.functions.values():
        for name in function.temporaries:
            if len(name) > MOST_NAME:
                raise TooLong(f"line {function.line}: {name[:20]}.. has a name of {len(name)} bytes, and a value can "
                              f"be asked for by one of at most {MOST_NAME}")
    return Table(program)
