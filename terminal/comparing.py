"""Two runs at the prompt, each before the move by which it parts from the other one (docs/COMPARE.md)."""
from __future__ import annotations

import pathlib
import sys
import tempfile
from typing import Sequence

from page.pairing import NO_EVENT, SIDES, Pair, compared, two_files

from .causes import Cause
from .launching import refusal, split_words
from .lowered import lowered_of
from .prompt import Prompt
from .renaming import Renaming
from .scratch import SLICE, Launch, Refused
from .shell import Shell, Switched, command
from .timeline import Timeline
from .typed import as_typed
from .waiting import Waiting


@command("other", "other [COMMAND]", "command", is_repeated=False)
def other(shell: Shell, rest: str) -> None:
    """Goes to the session of the other text, where two are compared; with a command, does that there and stays here."""
    if shell.other is None:
        raise Refused("there is no other run here: `./qrev-compare GOOD BAD` has two")
    if not rest:
        raise Switched
    shell.other.output = shell.output
    shell.other.do(rest)


def shell_of(debugger: str, file: str, words: list[str], bounds: dict[str, int], place: str, waiting: Waiting,
             lowered: Sequence[str]) -> Shell:
    """The session of one of the texts, which are as they are now whatever becomes of the files."""
    source = pathlib.Path(file).read_bytes()
    pathlib.Path(place).write_bytes(source)
    renamed = lowered_of(file).renamed
    launch = Launch(debugger, place, tuple(words), SLICE, bounds.get("--history"), Renaming(renamed) if renamed
                    else None)
    shell = Shell(launch, file, source, waiting, None, lowered=lowered)
    if shell.session.pipe.refused:
        print("\n".join(as_typed(refusal(line, file, source)) for line in shell.session.pipe.loaded))
    return shell


def lead(shell: Shell, event: str, position: int) -> None:
    """Goes to before the move that made the event."""
    shell.session.go(Timeline(position if event in NO_EVENT else max(position - 1, 0)))


def cause_of(shell: Shell, event: str) -> Cause | None:
    """What the event comes of, where a move made one."""
    session = shell.session
    if event in NO_EVENT or session.place.end:
        return None
    at = session.timeline
    if event == "end":
        return shell.causes.of_end(at.at(at.position + 1))
    return shell.causes.executed(at, f"{event}, at #{at.position + 1}, comes of")


def begin(sides: dict[str, Shell], pair: Pair, is_blaming: bool) -> None:
    """Tells both sides with the lines of their texts, and what the event of the bad one comes of, or by which
    instruction they part."""
    bad = sides["bad"]
    bad.say(pair.head)
    for side, shell in sides.items():
        event = pair.events.get(side, "")
        lead(shell, event, pair.positions[side])
        shell.is_good = side == "good"
        shell.parted = shell.session.timeline if cause_of(shell, event) else None
        bad.say(f"{side}: {event}")
        shell.show()
    if is_blaming:
        bad.do("blame")
        return
    cause = cause_of(bad, pair.events["bad"])
    if cause:
        bad.chain = [cause]
        bad.say(*cause.shown())
    bad.say("this is the bad run, before that move; `other` goes to the good one, `why N` asks on")


def held(debugger: str, program: str, given: Sequence[str], named: Sequence[str], is_blaming: bool) -> int:
    """Compares two texts, and holds a session where they part, or tells by which instruction; the status of the
    comparison. The texts are named otherwise where they were lowered first."""
    files, words = two_files(given)
    for file in filter(None, files):
        # One that can't be read is told by its name.
        pathlib.Path(file).open("rb").close()
    pair = compared(program, given)
    if not pair.is_told or set(pair.positions) != set(SIDES) or pair.head.startswith("same"):
        sys.stdout.write(as_typed(pair.text))
        return pair.status
    bounds = split_words([*files, *given])[2]
    waiting, sides = Waiting(), {}
    with tempfile.TemporaryDirectory(prefix="qrev-") as place:
        try:
            for index, (side, file) in enumerate(zip(SIDES, files)):
                sides[side] = shell_of(debugger, file, words, bounds, f"{place}/{side}.ssa", waiting,
                                       named[index:index + 1])
                if sides[side].session.pipe.refused:
                    return pair.status
            sides["good"].other, sides["bad"].other = sides["bad"], sides["good"]
            waiting.install()
            begin(sides, pair, is_blaming)
            if is_blaming:
                return pair.status
            prompt = Prompt(sides["bad"], sys.stdin.isatty(),
                            {id(shell): f"({side}) " for side, shell in sides.items()})
            prompt.install()
            prompt.run()
        finally:
            for shell in sides.values():
                shell.session.close()
    return pair.status
