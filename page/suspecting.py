"""What the shown run does that no correct compiler's output does: docs/CHECKING.md."""
from __future__ import annotations

from dataclasses import replace
from typing import Any, Sequence

from check import fast
from check.following import Follower
from check.heap import roles_of
from check.kinds import DEFAULT
from check.states import TooLong, table_of
from check.telling import Suspicion
from terminal.scratch import Launch

from .gathering import Gathering
from .table import Table

# A run of at most so many moves is looked at for all kinds that are on by default; in a longer one these would be
# waited for.
MOST_MOVES = 300_000


def suspicions_of(gathering: Gathering) -> dict[str, Any] | None:
    """The suspicions of a run that is whole; nothing if it isn't looked at."""
    if gathering.is_stopped:
        return None
    if len(gathering.places) > MOST_MOVES + 1 or not gathering.end:
        return None if gathering.pokes else far_suspicions_of(gathering.launch, gathering.table)
    program = gathering.table.program
    try:
        table_of(program)
    except TooLong:
        return None
    data = next(part[5:] for part in gathering.parts if part[:1] == b"D")
    follower = Follower(gathering.table, data, DEFAULT, roles_of(program, None), pokes=gathering.pokes)
    follower.follow(list(gathering.places), iter(gathering.values))
    return told(follower.suspicions(), True)


def far_suspicions_of(launch: Launch, table: Table) -> dict[str, Any] | None:
    """Those that the fast pass finds in a long run; nothing if there is no such program here. It knows a few kinds, or
    that there is none of any kind."""
    checker = fast.program(False, False)
    if not checker:
        return None
    there = replace(launch, limit=fast.LIMIT)
    try:
        found = fast.suspicions(checker, there, table)
        has_all = not found and fast.knows_all(table) and fast.is_clear(checker, there, roles_of(table.program, None))
    except fast.Failed:
        return None
    return told(found, has_all)


def told(found: Sequence[Suspicion], has_all: bool) -> dict[str, Any]:
    """Suspicions in the order of their moves, and whether they are all of the kinds that are on by default."""
    return {"found": [{"position": each.position, "line": each.instruction.line, "kind": each.kind, "text": each.text,
                       "count": each.count} for each in found], "all": has_all}
