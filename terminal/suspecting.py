"""What the run does that no correct compiler's output does, and what values are made of: docs/CHECKING.md."""
from __future__ import annotations

from dataclasses import replace
from functools import partial

from check import fast
from check.fast import add_further
from check.following import Follower
from check.heap import roles_of
from check.kinds import DEFAULT, WrongKind, chosen
from check.shadow import Object, Part
from check.states import TooLong, table_of
from check.telling import Suspicion, bits_told, object_told, origin_told, summary
from page.gathering import Gathering

from .expressions import Wrong
from .pipe import PULSE
from .runs import Suspicious
from .scratch import Refused
from .shell import Shell, command
from .stops import SuspicionStop
from .timeline import Timeline
from .waiting import Waiting

# How many moves are looked at, and up to which one a run is followed if that may be suspicious.
MOST, FARTHEST = 1_000_000, 5_000_000


class Watched(Follower):
    """Tells how far it has come, and can be broken off."""

    waiting: Waiting

    def pulse(self, position: int) -> None:
        self.waiting.stop_if_pressed()
        self.waiting.tell(position, "looked at up to ")


def gather(gathered: Gathering, waiting: Waiting) -> None:
    """Gathers a run, and can be broken off."""
    gathered.begin()
    try:
        while not gathered.wait(PULSE).is_done:
            waiting.stop_if_pressed()
            waiting.tell(len(gathered.places) - 1, "gathered up to ")
    finally:
        gathered.stop()
    waiting.begin_anew()


def followed(shell: Shell, at: Timeline, most: int, kinds: frozenset[str]) -> tuple[Follower, Gathering, int]:
    """The shadow of the session's run after a number of moves, or at its end."""
    program = shell.session.program
    try:
        table = table_of(program)
    except TooLong as error:
        raise Refused(str(error)) from None
    gathered = Gathering(shell.launch, table, most, pokes=at.pokes)
    gather(gathered, shell.waiting)
    failed = [part[5:].decode() for part in gathered.parts if part[:1] == b"X"]
    if failed:
        raise Refused(failed[0])
    data = next(part[5:] for part in gathered.parts if part[:1] == b"D")
    follower = Watched(table, data, kinds, roles_of(program, None),
                       pokes={poke.position: poke.line for poke in at.pokes},
                       others=shell.lowered.runtime | shell.lowered.outside)
    follower.waiting = shell.waiting
    return follower, gathered, follower.follow(list(gathered.places), iter(gathered.values))


def looked_for(shell: Shell, at: Timeline, kinds: frozenset[str],
               most: int | None) -> tuple[list[Suspicion], int, str, int | None]:
    """The suspicions of a run, or of its first moves; of how many moves, how it stands then, and how many of these were
    looked at for all kinds, if not all were. The fast pass says first how far it need be followed."""
    checker = None if at.pokes or most is not None else fast.program(False, False)
    unsure = first_unsure(shell, checker, kinds) if checker else 0
    if checker and (unsure is None or unsure > FARTHEST):
        return gone_on(shell, checker, kinds, [], unsure)
    most = most or (unsure + 1 if unsure and unsure >= MOST else MOST)
    follower, gathered, moves = followed(shell, at, most, kinds)
    if gathered.end or not checker or not kinds & fast.KINDS:
        return follower.suspicions(), moves, gathered.end or "and the run goes on", None
    return gone_on(shell, checker, kinds, follower.suspicions(), most)


def first_unsure(shell: Shell, checker: str, kinds: frozenset[str]) -> int | None:
    """The move from which on the run has to be followed; None if it has no suspicion of the kinds that are on by
    default, and 0 if it isn't known."""
    try:
        table = table_of(shell.session.program)
        if not kinds <= DEFAULT or not fast.knows_all(table):
            return 0
        count, unsure = fast.known(checker, replace(shell.launch, limit=fast.LIMIT), roles_of(table.program, None),
                                   partial(tell_far, shell.waiting))
    except (TooLong, fast.Failed):
        return 0
    return 0 if count else unsure


def gone_on(shell: Shell, checker: str, kinds: frozenset[str], found: list[Suspicion],
            full: int | None) -> tuple[list[Suspicion], int, str, int | None]:
    """Adds what the fast pass finds in a long run to the suspicions of its first moves, of the kinds that it knows."""
    launch = replace(shell.launch, limit=fast.LIMIT)
    try:
        further = fast.suspicions(checker, launch, table_of(shell.session.program), partial(tell_far, shell.waiting))
        end = fast.end_of(launch)
    except fast.Failed as error:
        raise Refused(str(error)) from None
    add_further(found, [each for each in further if each.kind in kinds])
    return found, end.moves, end.told if end.is_over else "and the run goes on", full


def tell_far(waiting: Waiting) -> None:
    """Shows that the fast pass is at work, which can be broken off."""
    waiting.stop_if_pressed()
    waiting.say(f"looking at up to #{fast.LIMIT}")


class Suspicions:
    """The suspicious moves of the session's run, which are found out once for each list of pokes."""

    def __init__(self, shell: Shell):
        self.shell = shell
        self.known: dict[tuple[object, frozenset[str]], list[tuple[int, str]]] = {}

    def found(self, kinds: frozenset[str]) -> list[tuple[int, str]]:
        """The positions before which a suspicious move comes, in order, and what is said of each."""
        at = self.shell.session.timeline
        key = (tuple(at.pokes), kinds)
        if key not in self.known:
            follower, _, _ = followed(self.shell, at, MOST, kinds)
            self.known = {key: sorted((each.position, f"{each.kind}: {each.text}") for each in follower.suspicions())}
        return self.known[key]

    def ahead(self, stop: SuspicionStop, is_forward: bool) -> Suspicious | None:
        here = self.shell.session.timeline.position
        found = [each for each in self.found(stop.kinds) if (each[0] > here if is_forward else each[0] < here)]
        if not found:
            return None
        position, text = found[0 if is_forward else -1]
        return Suspicious(position, stop, f"suspicion {stop.number}, {text}")


def add_suspicion_stop(shell: Shell, rest: str) -> None:
    """`break suspect [KINDS]`: there is one at most."""
    try:
        kinds = chosen(rest or None)
    except WrongKind as error:
        raise Wrong(str(error)) from None
    suspicions = Suspicions(shell)
    count = len(suspicions.found(kinds))
    for stop in [stop for stop in shell.runs.stops if isinstance(stop, SuspicionStop)]:
        shell.runs.delete(stop)
    shell.runs.find_suspicious = suspicions.ahead
    what = "suspicious moves" + (f" ({rest})" if rest else "")
    stop = SuspicionStop(what, [], [], number="s", typed=f"break suspect {rest}".rstrip(), kinds=kinds)
    shell.say(f"break {shell.runs.add(stop)}", f"the run as it is now has {count or 'none'}")


@command("suspects suspicions", "suspects [strict | KIND,..] [N]", is_repeated=False)
def suspects(shell: Shell, rest: str) -> None:
    """Lists what the whole run does that no correct compiler's output does: up to here, and on to its end; or in its
    first N moves. After 1,000,000 moves the fast pass looks at the rest. `goto suspect N` goes to the N-th.
    docs/CHECKING.md says what each kind means."""
    words = rest.split()
    most = min(int(words.pop()), MOST) if words and words[-1].isdecimal() else MOST
    try:
        kinds = chosen(" ".join(words) or None)
    except WrongKind as error:
        raise Wrong(str(error)) from None
    at = shell.session.timeline
    found, moves, end, full = looked_for(shell, at, kinds, most if words != rest.split() else None)
    shell.suspects = [at.at(each.position) for each in found]
    source, runtime = shell.screen.map.place, shell.lowered.runtime | shell.lowered.outside
    for number, each in enumerate(found, 1):
        first, *others = [*each.lines(source(each.instruction.line)), *each.call_lines(runtime, source)]
        shell.say(f"[{number}] {first}", *(f"    {line}" for line in others))
    shell.say(summary(found, moves, end, full))


@command("made", "made %x", "expression", is_repeated=False)
def made(shell: Shell, rest: str) -> None:
    """Says what a temporary of the selected frame is made of: numbers, an object's address, a part of one. And which of
    its bits nothing has set."""
    if not rest:
        raise Wrong("made %x was expected")
    shell.temporary(rest)
    session = shell.session
    if session.timeline.position > MOST:
        raise Refused(f"this is told of the first {MOST} moves alone")
    follower, _, _ = followed(shell, session.timeline, session.timeline.position, frozenset())
    shadow = follower.frames[-1 - session.selected].shadows.get(rest)
    if shadow is None:
        shell.say(f"{rest} unset")
        return
    thing = shadow.made
    if isinstance(thing, Object):
        said = f"the address of {object_told(thing)}"
    elif isinstance(thing, Part):
        said = f"a part of the address of {object_told(thing.object)}"
    else:
        said = {"number": "numbers", "cut": "an address of which 32 bits were taken",
                "mixed": "more than one address"}[str(thing)]
    shell.say(f"{rest} is made of {said}" + (f"; {bits_told(shadow.open)}{origin_told(shadow.origin)}" if shadow.open
                                             else ""))
