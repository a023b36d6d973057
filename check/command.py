"""The command: its words, the run that it checks, and what it writes."""
from __future__ import annotations

import pathlib
import re
import sys
from dataclasses import dataclass, field, replace
from typing import Callable, TextIO

from page.gathering import Gathering
from page.table import Table
from terminal.launching import first_text, refusal, split_words
from terminal.lowered import lowered_of
from terminal.pipe import Pipe
from terminal.scratch import SLICE, Launch
from terminal.sourcemap import SourceMap
from terminal.text import Program
from terminal.typed import as_typed

from . import fast
from .ends import fault_error, lowering_error, refusal_error
from .following import Excepted, Follower
from .heap import WrongHeap, roles_of
from .kinds import ALL, DEFAULT, WrongKind, chosen
from .states import TooLong, table_of
from .telling import Error, Suspicion, as_gnu, as_sarif, at_own_places, summary

TOP = pathlib.Path(__file__).resolve().parent.parent
# How many moves are looked at for all kinds if nothing is said: some 20 seconds.
LIMIT = 5_000_000
MOST_LIMIT = (1 << 32) - 1
WITH_VALUE = ("--limit", "--kinds", "--heap", "--except", "--format")
NONE, REFUSED, UNREAD, SOME, FAULT, TOO_LONG = 0, 1, 2, 3, 4, 5
HELP = f"""Runs a program, and says what it does that no correct compiler's output does

Usage: ./qrev --check FILE [ARGS..] [OPTIONS]
       ./qrev --check --lower FILE.. [OPTIONS]

Options:
      --entry NAME           The function that runs first [default: main]
      --limit N              Look at N moves [default: {fast.LIMIT}]. Behind {LIMIT} only \
{", ".join(sorted(fast.KINDS))}
                             are looked for, unless --kinds names others
      --fast                 Look for these alone from the beginning: some seconds for {fast.LIMIT} moves
      --kinds KIND,..        Look for these kinds of suspicions alone; \
`strict`: for the default ones and the strict ones
      --heap ROLE=FUNC,..    The functions that make and free blocks of the heap, in the roles take, calloc, realloc,
                             memalign, give and look
      --no-heap              An allocator is code like any other
      --except KIND:$NAME    Not this kind for this object or function; may be given more than once
      --format FORM          text, gnu (a line of warning for each, as compilers write it) \
or json (SARIF) [default: text]

The status is {NONE} if there is no suspicion, {SOME} if there are some, {FAULT} if there is none but the run ends by a
fault, {TOO_LONG} if there is none up to the limit, {REFUSED} if the program is refused, {UNREAD} if it can't be read, \
64 for a
bad command line. The kinds are in docs/CHECKING.md.
"""


class Told(Follower):
    """Tells at a terminal how far it has come."""

    moves = 0

    def pulse(self, position: int) -> None:
        if sys.stderr.isatty():
            sys.stderr.write(f"\r{position:,} of {self.moves:,} moves\x1b[K" if position else "")
            sys.stderr.flush()

    def end(self) -> None:
        """Takes the line away again."""
        if sys.stderr.isatty():
            sys.stderr.write("\r\x1b[K")
            sys.stderr.flush()


class BadCommand(Exception):
    """What is wrong with the words."""


@dataclass
class Asked:
    """What the words of a command line ask for."""

    file: str = ""
    words: list[str] = field(default_factory=list)  # of the debugger: arguments, the entry
    limit: int | None = None
    kinds: frozenset[str] = frozenset()
    has_kinds: bool = False
    is_fast: bool = False
    heap: str | None = None
    has_no_heap: bool = False
    excepted: Excepted = field(default_factory=Excepted)
    format: str = "text"
    lowered: list[str] = field(default_factory=list)  # the texts that the program was lowered from

    @staticmethod
    def read(words: list[str]) -> Asked:
        given: dict[str, list[str]] = {}
        rest: list[str] = []
        left = list(words)
        while left:
            name, has_value, value = left.pop(0).partition("=")
            if name in ("--no-heap", "--fast") and not has_value:
                given[name] = [""]
            elif name in WITH_VALUE:
                if not has_value and not left:
                    raise BadCommand(f"{name}: a value was expected")
                given.setdefault(name, []).append(value if has_value else left.pop(0))
            else:
                rest.append(name + has_value + value)
        return Asked().filled(given, rest)

    def filled(self, given: dict[str, list[str]], rest: list[str]) -> Asked:
        if "--heap" in given and "--no-heap" in given:
            raise BadCommand("--heap and --no-heap exclude each other")
        self.file, self.words, _ = split_words(rest)
        if not self.file:
            raise BadCommand("a program was expected: ./qrev --check FILE [ARGS..]")
        limit = given.get("--limit", [str(LIMIT)])[-1]
        if not limit.isdigit() or not 1 <= int(limit) <= MOST_LIMIT:
            raise BadCommand(f"--limit {limit}: a number from 1 to {MOST_LIMIT} was expected")
        self.limit = int(limit) if "--limit" in given else None
        self.is_fast, self.has_kinds = "--fast" in given, "--kinds" in given
        try:
            self.kinds = chosen(given["--kinds"][-1] if "--kinds" in given else None)
        except WrongKind as error:
            raise BadCommand(str(error)) from None
        self.heap, self.has_no_heap = given["--heap"][-1] if "--heap" in given else None, "--no-heap" in given
        self.format = given.get("--format", ["text"])[-1]
        if self.format not in ("text", "gnu", "json"):
            raise BadCommand(f"--format {self.format}: text, gnu or json was expected")
        self.excepted = Excepted({pair_of(word) for word in given.get("--except", [])})
        if self.is_fast and self.heap is not None:
            raise BadCommand("--fast and --heap exclude each other")
        if self.is_fast and self.has_kinds and not self.kinds <= fast.KINDS:
            raise BadCommand(f"--fast: the kinds {', '.join(sorted(fast.KINDS))} were expected")
        return self

    @property
    def may_go_on(self) -> bool:
        """Whether the fast pass knows the kinds that are looked for after the first moves."""
        return not self.has_kinds or self.kinds <= fast.KINDS


def pair_of(word: str) -> tuple[str, str]:
    """A kind, and the object or function that it isn't reported for."""
    kind, _, name = word.partition(":")
    if kind not in ALL or not name.startswith("$"):
        raise BadCommand(f"--except {word}: KIND:$NAME was expected, with a kind of {', '.join(sorted(ALL))}")
    return kind, name


def look_for_excepted(program: Program, excepted: Excepted) -> None:
    """A name that the program doesn't have is a slip, by which nothing would be left out."""
    for kind, name in sorted(excepted.pairs):
        if name not in program.addresses:
            raise BadCommand(f"--except {kind}:{name}: the program has no object or function {name}")


def version() -> str:
    found = re.search(r"(?m)^## ([0-9.]+)", (TOP / "CHANGELOG.md").read_text())
    return found[1] if found else "0"


@dataclass
class Outcome:
    """What was found, in how many moves, and where the run stands then."""

    found: list[Suspicion]
    moves: int
    end: str
    is_over: bool
    last: int | None  # the place of the last move, by its number
    full: int | None = None  # so many of the moves were looked at for all kinds, if not all were

    @property
    def status(self) -> int:
        if self.found:
            return SOME
        return TOO_LONG if not self.is_over else FAULT if self.end.startswith("fault") else NONE


@dataclass
class Programs:
    """The debugger, and the program of the fast pass: a path, or whether to use the one that is built here."""

    debugger: str
    checker: str | None = None
    is_built: bool = False
    # How many moves are looked at for all kinds, also those of a run that the fast pass could find clear.
    full: int | None = None

    def fast(self, may_build: bool) -> str | None:
        return self.checker or fast.program(self.is_built, may_build)


def checked(programs: Programs, asked: Asked, place: pathlib.Path, out: TextIO) -> int:
    """Checks a run, and writes what was found; the exit status."""
    try:
        source = pathlib.Path(asked.file).read_bytes()
    except OSError as error:
        print(f"qrev: {asked.file}: {error.strerror}", file=sys.stderr)
        return UNREAD
    copy = place / "program.ssa"
    copy.write_bytes(source)
    launch = Launch(programs.debugger, str(copy), tuple(asked.words), SLICE)
    pipe = Pipe(launch.command(1))
    pipe.close()
    if pipe.refused:
        return refused(pipe, asked, source, out)
    try:
        table = table_of(Program(source))
        look_for_excepted(table.program, asked.excepted)
        find = found_fast if asked.is_fast else found_fully
        outcome = find(programs, launch, table, asked)
    except (TooLong, fast.Failed) as error:
        print(f"qrev: {asked.file}: {error}", file=sys.stderr)
        return UNREAD
    except WrongHeap as error:
        raise BadCommand(str(error)) from None
    return told(outcome, table, launch, asked, out)


def found_fully(programs: Programs, launch: Launch, table: Table, asked: Asked) -> Outcome:
    """All kinds in the first moves; and after them, if the run goes on, what the fast pass finds. A run that the fast
    pass finds clear for as long isn't followed."""
    heap, lowered = roles_of(table.program, asked.heap, asked.has_no_heap), lowered_of(asked.file)
    if programs.full is None and knows_all(asked, table):
        early = early_outcome(programs, launch, table, asked, heap)
        if early:
            return early
    full, checker = programs.full or LIMIT, None
    limit = asked.limit or full
    if limit > full and asked.may_go_on:
        checker = programs.fast(False)
        limit = full if checker else limit
    gathered = run_of(launch, table, limit)
    follower = Told(table, part_of(gathered, b"D"), asked.kinds, heap, asked.excepted,
                    others=lowered.runtime | lowered.outside)
    follower.moves = len(gathered.places) - 1
    moves = follower.follow(list(gathered.places), iter(gathered.values))
    follower.end()
    is_over = bool(gathered.end)
    end = gathered.end if is_over else f"limit at {table.places[gathered.places[-1]][0]}"
    last = next((each for each in reversed(gathered.places) if each != table.end), None)
    outcome = Outcome(follower.suspicions(), moves, end, is_over, last)
    if is_over or asked.limit is not None and asked.limit <= moves or not asked.may_go_on:
        return outcome
    checker = checker or programs.fast(False)
    return gone_on(outcome, checker, launch, table, asked) if checker else outcome


def knows_all(asked: Asked, table: Table) -> bool:
    """Whether the fast pass can find a run clear of all kinds that are asked for."""
    return asked.kinds <= DEFAULT and fast.knows_all(table)


def early_outcome(programs: Programs, launch: Launch, table: Table, asked: Asked,
                  heap: dict[str, str]) -> Outcome | None:
    """The outcome of a run that the fast pass finds clear, or clear for longer than it would be followed."""
    checker, there = programs.fast(False), replace(launch, limit=asked.limit or fast.LIMIT)
    if not checker:
        return None
    count, unsure = fast.known(checker, there, heap)
    if count or unsure is not None and (unsure <= LIMIT or asked.has_kinds):
        return None
    if unsure is None:
        end = fast.end_of(there)
        return Outcome([], end.moves, end.told, end.is_over, place_number(end, table))
    return replace(fast_outcome(checker, launch, table, asked), full=unsure)


def place_number(end: fast.End, table: Table) -> int | None:
    """The number of the place of the last move."""
    return table.ids[f"{end.last.function} {end.last.label} {end.last.index}"] if end.last else None


def gone_on(outcome: Outcome, checker: str, launch: Launch, table: Table, asked: Asked) -> Outcome:
    """Adds what the fast pass finds later in the same run: other places, and the counts at known ones."""
    further = fast_outcome(checker, launch, table, asked)
    fast.add_further(outcome.found, further.found)
    return Outcome(outcome.found, further.moves, further.end, further.is_over, further.last, outcome.moves)


def found_fast(programs: Programs, launch: Launch, table: Table, asked: Asked) -> Outcome:
    checker = programs.fast(True)
    assert checker
    return fast_outcome(checker, launch, table, asked)


def fast_outcome(checker: str, launch: Launch, table: Table, asked: Asked) -> Outcome:
    """What the fast pass finds in a run, and its end."""
    launch = replace(launch, limit=asked.limit or fast.LIMIT)
    found = [each for each in fast.suspicions(checker, launch, table)
             if each.kind in asked.kinds and not asked.excepted.holds_of(each.kind, fast.meant_by(each), each.function)]
    end = fast.end_of(launch)
    found.sort(key=lambda each: (each.position, each.kind))
    return Outcome(found, end.moves, end.told, end.is_over, place_number(end, table))


def run_of(launch: Launch, table: Table, limit: int) -> Gathering:
    """The places and values of a run, up to a limit of moves."""
    gathered = Gathering(launch, table, limit)
    gathered.gather()
    failed = part_of(gathered, b"X")
    if failed:
        raise OSError(0, failed.decode(), "the debugger")
    return gathered


def tell(text: str, out: TextIO) -> None:
    print(as_typed(text), file=out)


def refused(pipe: Pipe, asked: Asked, source: bytes, out: TextIO) -> int:
    """Tells why the debugger took no program. What is wrong with its words it has said itself."""
    is_plain = asked.format == "text" or any(not line.startswith("refused: ") for line in pipe.loaded)
    if is_plain or not pipe.loaded:
        for line in pipe.loaded:
            tell(refusal(line, asked.file, source, asked.lowered), out)
    else:
        errors = [refusal_error(line, source) for line in pipe.loaded]
        asked.file = first_text(asked.lowered) or asked.file if not errors[0].line else asked.file
        tell_formatted(asked, [], errors, SourceMap.beside(asked.file).place, out)
    return pipe.refused.status if pipe.refused else UNREAD


def lowering_refused(said: str, asked: Asked, out: TextIO) -> int:
    """Tells why texts weren't lowered, as the lowering says it, or in the form for editors or machines."""
    if asked.format == "text":
        print(as_typed(said), end="", file=sys.stderr)
    else:
        asked.file, error = lowering_error(said.strip(), asked.lowered)
        tell_formatted(asked, [], [error], lambda line: "", out)
    return REFUSED


def tell_formatted(asked: Asked, found: list[Suspicion], errors: list[Error], source: Callable[[int], str],
                   out: TextIO) -> None:
    """Suspicions and errors in the form for editors or machines."""
    if asked.format == "json":
        tell(as_sarif(found, errors, asked.file, version(), source), out)
        return
    for line in (*as_gnu(found, asked.file, source), *(error.gnu(asked.file, source) for error in errors)):
        tell(line, out)


def part_of(gathered: Gathering, letter: bytes) -> bytes:
    return next((part[5:] for part in gathered.parts if part[:1] == letter), b"")


def told(outcome: Outcome, table: Table, launch: Launch, asked: Asked, out: TextIO) -> int:
    source, lowered = SourceMap.beside(asked.file).place, lowered_of(asked.file)
    others = lowered.runtime | lowered.outside
    if asked.format != "text":
        errors = []
        if outcome.end.startswith("fault") and outcome.last is not None:
            errors = [fault_error(table, launch, asked.file, outcome.moves, outcome.end, outcome.last)]
        tell_formatted(asked, at_own_places(outcome.found, others), errors, source, out)
    else:
        for each in outcome.found:
            lines = [*each.lines(source(each.instruction.line)), *each.call_lines(others, source)]
            tell("\n".join(lines), out)
        print(summary(outcome.found, outcome.moves, outcome.end, outcome.full), file=out)
    out.flush()
    return outcome.status
