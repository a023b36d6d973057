"""Commands that ask about causes, and about the whole run. None of them moves the session."""
from __future__ import annotations

import pathlib
from itertools import zip_longest

from .accesses import MOST_COUNTED, Access
from .answers import COMMANDS as LANGUAGE, read_place
from .causes import MOST_BYTES_ASKED, Cause, Question
from .expressions import Wrong, as_bytes
from .pipe import Pipe
from .scratch import Refused
from .session import MOVES
from .shell import Shell, command
from .text import Operand
from .timeline import Poke, Timeline, common
from .values import BITS, FLOATS, brief
from .ways import why_not

MOST_SHOWN = 1000
INSIDE = "--inside"
CHANGES = (*MOVES, "break", "watch", "delete")


@command("why", "why [--inside] [%x | $d | WIDTH ADDRESS | N ADDRESS | out N | jump | call | not @b | N | back]",
         "watch")
def why(shell: Shell, rest: str) -> None:
    """Says where a value comes from: the instruction that set it, with its operands; `why N` asks on about the N-th of
    them, `why back` comes back. Alone it is about the end of the run or, before that, about how the run came here. `why
    out N` is about a byte of the output (the first is 0), `why jump` and `why call` about how control came here, `why
    not @b` about why it didn't come to a block. `goto why` takes the session there. A function of the runtime counts as
    one instruction; `--inside` looks into it."""
    words = [word for word in rest.split() if word != INSIDE]
    shell.causes.is_inside = INSIDE in rest.split()
    rest = shell.sized(as_bytes(" ".join(words)))
    words = rest.split()
    if words == ["back"]:
        if len(shell.chain) < 2:
            raise Refused("there is no cause before this one")
        shell.chain.pop()
    elif len(words) == 1 and words[0].strip("[]").isdigit():
        shell.chain.append(shell.causes.of(question_numbered(shell, int(words[0].strip("[]")))))
    else:
        shell.chain = [asked(shell, words, rest)]
    lines = shell.chain[-1].shown()
    shell.say(*(shell.lookout.of_cause(shell.chain[-1].at, lines) if shell.lookout else lines))


def question_numbered(shell: Shell, number: int) -> Question:
    if not shell.chain:
        raise Refused(f"{number}: nothing was asked yet; why, why %x or why WIDTH ADDRESS comes first")
    questions = shell.chain[-1].questions
    if not questions:
        raise Refused("there is nothing more to ask about here; `why back` comes back to the cause before")
    if not 1 <= number <= len(questions):
        raise Wrong(f"{number}: a number from 1 to {len(questions)} was expected")
    return questions[number - 1]


def asked(shell: Shell, words: list[str], rest: str) -> Cause:
    """The cause of what a line asks about in the session's own state."""
    session, causes = shell.session, shell.causes
    at = session.timeline
    if words[:1] == ["out"]:
        return of_output(shell, rest.partition("out")[2])
    if not words and session.place.end:
        return causes.of_end(at)
    if words in ([], ["jump"], ["call"]):
        there = shell.frames.frame(at, session.selected) if session.frames() else None
        if not there:
            raise Refused("the run is over: `why` alone asks about its end")
        return causes.of(Question("call" if words == ["call"] else "control", there))
    if words[:1] == ["not"] and len(words) == 2:
        return why_not(shell, words[1])
    if len(words) == 1 and words[0].startswith("%"):
        shell.temporary(words[0])
        return causes.of(causes.temporary(words[0], shell.frames.frame(at, session.selected)))
    if len(words) > 1 and (words[0] in BITS or words[0].isdigit()):
        count = BITS.get(words[0], 0) // 8 or int(words[0])
        if not 1 <= count <= MOST_BYTES_ASKED:
            raise Wrong(f"{words[0]}: from 1 to {MOST_BYTES_ASKED} bytes were expected")
        width = words[0] if words[0] in FLOATS else ""
        return causes.of(causes.memory(shell.number(rest.partition(words[0])[2]), count, at, width))
    raise Wrong(
        f"{rest}: %TEMPORARY, $DATA, WIDTH ADDRESS, N ADDRESS, out N, jump, call, not @b, back or a number was "
        "expected")


def of_output(shell: Shell, text: str) -> Cause:
    size = int(shell.session.ask("out")[0].split(" ")[1])
    number = shell.whole(text) if text.strip() else size - 1
    if not 0 <= number < size:
        expected = f"a byte from 0 to {size - 1} was expected" if size else "nothing was written yet"
        raise Wrong(f"{text.strip() or 'out'}: {expected}")
    return shell.causes.of_output(number, shell.session.timeline)


def whole_run(shell: Shell) -> Timeline:
    """The session's run up to here and on to its end, but no further than the limit of a run."""
    here, scratch = shell.session.timeline, shell.session.scratch
    there = here.at(here.position + (shell.runs.budget or shell.launch.limit))
    for _ in scratch.along(here, there, lambda moves: f"step {moves}"):
        pass
    return scratch.timeline


def told_bounds(shell: Shell, run: Timeline) -> str:
    scratch = shell.session.scratch.go(run)
    return f"in the run from #0 to {scratch.place}" + ("" if scratch.place.end else ", which goes on")


def told_search(shell: Shell, run: Timeline, total: int, looked_at: range, is_stopped: bool) -> str:
    """What is said behind the number of what a search found from the session's position on: whether some of it is shown
    alone, and from where to where the run was looked at."""
    more = f" (the {MOST_SHOWN} nearest to #{shell.session.place.position} are shown)" if total > MOST_SHOWN else ""
    if looked_at == range(run.position):
        return f"{more} {told_bounds(shell, run)}"
    why = "Ctrl-C stopped the search" if is_stopped else f"the search stops behind {MOST_COUNTED}"
    return f"{more} {told_bounds(shell, run)}; only from #{looked_at.start} to #{looked_at.stop}, since {why}"


def counted(number: int, what: str) -> str:
    return f"{number} {what}" + ("" if number == 1 else "s")


def accesses(shell: Shell, rest: str, is_write: bool) -> None:
    rest = as_bytes(rest)
    words = rest.split()
    width = words[0] if len(words) > 1 and (words[0] in BITS or words[0].isdigit()) else ""
    address = shell.number(rest.partition(width)[2] if width else rest)
    count = BITS.get(width, 0) // 8 or int(width or 1)
    run, here = whole_run(shell), shell.session.place.position
    survey = shell.causes.accesses.survey(is_write, run, address, count, here, MOST_SHOWN)
    lines = {access.position: access_told(shell, access, run) for access in survey.found}
    by_hand = pokes_meeting(shell, run, address, count) if is_write else []
    lines.update({poke.position: f"#{poke.position} by hand: {poke.line}" for poke in by_hand})
    shell.say(*(lines[position] for position in sorted(lines)))
    hand = f" and {len(by_hand)} by hand" if by_hand else ""
    shell.say(f"{counted(survey.total, 'write' if is_write else 'read')}{hand}"
              f"{told_search(shell, run, survey.total, survey.looked_at, survey.is_stopped)}")


def pokes_meeting(shell: Shell, run: Timeline, address: int, count: int) -> list[Poke]:
    """The pokes of a run that wrote some of these bytes."""
    spans = [(poke, shell.causes.accesses.poked(poke)) for poke in run.pokes]
    return [poke for poke, span in spans if span.start < address + count and address < span.stop]


def access_told(shell: Shell, access: Access, run: Timeline) -> str:
    """A line for a load or a store, with its operands' values."""
    site, instruction = access.site, access.site.instruction
    classes = shell.session.program.functions[site.function].temporaries
    names = [operand.text for operand in instruction.operands if operand.is_temporary]
    values = dict(zip(names, shell.session.scratch.go(run.at(access.position)).values(*names)))

    def shown(operand: Operand) -> str:
        if not operand.is_temporary:
            return operand.text
        value, width = values[operand.text], classes[operand.text]
        name = shell.session.names.of(value) if width == "l" and value is not None else None
        return f"{operand.text}={brief(value, width, name)}"
    return (f"#{access.position} {site.function} {site.label} {site.index}  line {instruction.line}: "
            f"{instruction.written(shown)}")


@command("readers", "readers [WIDTH | N] ADDRESS", "expression", is_repeated=False)
def readers(shell: Shell, rest: str) -> None:
    """Lists all loads, blits and $puts of the run that read a byte, or one of a width or of N bytes, with positions."""
    accesses(shell, rest, False)


@command("writers", "writers [WIDTH | N] ADDRESS", "expression", is_repeated=False)
def writers(shell: Shell, rest: str) -> None:
    """Lists all stores, blits and pokes of the run that wrote there, also those that changed nothing, with
    positions."""
    accesses(shell, rest, True)


@command("compare", "compare FILE", "file", is_repeated=False)
def compare(shell: Shell, rest: str) -> None:
    """Says where this session parts from a recorded script: at which line, and from which position on the states are
    others. Where FILE.script has a FILE.transcript beside it, also where that no longer is what the program answers."""
    if not rest:
        raise Wrong("compare FILE was expected")
    try:
        recorded = pathlib.Path(rest).read_text(errors="replace").split("\n")
    except OSError as error:
        raise Refused(f"{rest}: {error.strerror}") from None
    there, lines, answers = played(shell, recorded)
    here = shell.session.lines
    parted = next((n for n, (one, other) in enumerate(zip_longest(here, lines)) if one != other), None)
    if parted is None:
        shell.say(f"the same {len(here)} lines")
    else:
        shell.say(f"line {parted + 1} that changes the session: here {told_line(here, parted)}, "
                  f"there {told_line(lines, parted)}")
    mine = shell.session.timeline
    shared = common(mine, there)
    if mine == there:
        shell.say(f"the same state, #{mine.position}")
    else:
        shell.say(f"the same states up to #{shared}; here the session stands at #{mine.position}, "
                  f"there at #{there.position}")
    shell.say(*transcript_difference(rest, answers))


def told_line(lines: list[str], index: int) -> str:
    return f"`{lines[index]}`" if index < len(lines) else "the end"


def played(shell: Shell, recorded: list[str]) -> tuple[Timeline, list[str], list[str]]:
    """Where a script leads, those of its lines that changed the session, and all that was answered."""
    renaming = shell.launch.renaming
    pipe = Pipe(shell.launch.command(shell.launch.history), shell.waiting.check, renaming)
    timeline, lines, answers = Timeline(), [], list(pipe.loaded)
    try:
        for line in map(renaming.line_told, recorded) if renaming else recorded:
            word = line.split()[0] if line.split() else ""
            if word == "quit":
                break
            answer = pipe.ask(line)[0] if word in LANGUAGE else ["no: unknown command"] * bool(word)
            answers += answer
            if word in CHANGES and not answer[0].startswith("no: "):
                lines.append(" ".join(line.split()))
                place = answer[-1]
                if word in MOVES:
                    timeline = timeline.moved(read_place(place).position, line)
    finally:
        pipe.close()
    return timeline, lines, answers


def transcript_difference(file: str, answers: list[str]) -> list[str]:
    """Where a transcript beside the script differs from what was answered now."""
    path = pathlib.Path(file).with_suffix(".transcript")
    if path == pathlib.Path(file) or not path.exists():
        return []
    record = path.read_text(errors="replace").split("\n")[:-1]
    for number, (now, before) in enumerate(zip_longest(answers, record), 1):
        if now != before:
            return [f"{path.name} line {number}: now {now or 'the end'}, recorded {before or 'the end'}"]
    return [f"{path.name} is what the program answers"]
