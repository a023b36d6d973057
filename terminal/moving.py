"""Commands that move the session."""
from __future__ import annotations

import re
from typing import Callable

from .expressions import Wrong
from .output import Standard, is_plain
from .runs import Outcome
from .scratch import Refused
from .shell import COMMANDS, Leave, Shell, command
from .timeline import Timeline
from .values import BITS, FLOATS, bits_of

MOST_MOVES = (1 << 32) - 1
MOST_LISTED = 1000
ARGUMENTS = "arguments are given when the session begins"


def repeated(shell: Shell, text: str, move: Callable[[], Outcome]) -> None:
    """Makes a move as often as a line says, and shows where that ended."""
    outcome = Outcome()
    for index in range(shell.count(text, MOST_MOVES)):
        outcome = move()
        if outcome.refusal and index:
            outcome = Outcome()
            break
        if outcome.stop or outcome.refusal or outcome.reason or shell.waiting.is_pressed or shell.session.place.end:
            break
    shell.outcome(outcome)


def by_many(shell: Shell, text: str, sign: int) -> None:
    """So many moves forward or back, or as many as there are."""
    session, count = shell.session, shell.count(text, MOST_MOVES)
    word = "step" if sign > 0 else "back"
    left, target = count, session.place.position + sign * count
    while left:
        size = min(left, session.most_at_once(word))
        moved = session.move(f"{word} {size}" if count > 1 else word)
        if moved.refusal and left == count:
            shell.outcome(Outcome(refusal=moved.refusal))
            return
        left -= size
        if moved.refusal or moved.reason or session.place.end or shell.waiting.is_pressed:
            break
        shell.waiting.tell(session.place.position, target=max(0, target))
    shell.show("stopped by Ctrl-C" if left and shell.waiting.is_pressed else "")


@command("step s stepi si", "step [N]", "expression")
def step(shell: Shell, rest: str) -> None:
    """Moves forward by one instruction, or N. A call is entered; a jump is one move with the phis of its target. It
    passes stops over."""
    by_many(shell, rest, 1)


@command("back rs reverse-step reverse-stepi rsi", "back [N]", "expression")
def back(shell: Shell, rest: str) -> None:
    """Moves back by one instruction, or N, also from the end, from a fault, and over a set or poke."""
    by_many(shell, rest, -1)


@command("next n nexti ni", "next [N]", "expression")
def next_(shell: Shell, rest: str) -> None:
    """Moves forward by one instruction, or N, and over calls. A stop inside a call ends it."""
    repeated(shell, rest, shell.runs.next)


@command("reverse-next rn reverse-nexti rni", "reverse-next [N]", "expression")
def reverse_next(shell: Shell, rest: str) -> None:
    """Moves back by one instruction, or N, and back over calls."""
    repeated(shell, rest, shell.runs.back_over)


@command("continue c", "continue [N]", "expression")
def continue_(shell: Shell, rest: str) -> None:
    """Runs on to the next stop or to the end; with N to the N-th stop. Ctrl-C stops it where it is."""
    repeated_runs(shell, rest, True)


@command("reverse rc reverse-continue", "reverse [N]", "expression")
def reverse(shell: Shell, rest: str) -> None:
    """Runs back to the stop before, or to the start. A watch stops before the change: the instruction that makes it
    comes next."""
    repeated_runs(shell, rest, False)


def repeated_runs(shell: Shell, text: str, is_forward: bool) -> None:
    outcome = Outcome()
    for _ in range(shell.count(text, MOST_MOVES)):
        outcome = shell.runs.run(is_forward)
        if not outcome.stop:
            break
    shell.outcome(outcome)


@command("finish fin", "finish")
def finish(shell: Shell, rest: str) -> None:
    """Runs until the selected frame is over, and shows what it gave back."""
    frames = shell.session.frames()
    index = shell.session.selected
    outcome = shell.runs.finish(index)
    shell.outcome(outcome)
    place = shell.session.place
    if not outcome.reason and index + 1 < len(frames) and place.index:
        call = shell.session.program.functions[place.function].at(place.label, place.index - 1)
        if call.result:
            shell.say(f"given back: {shell.shown(call.result, '')}")


@command("reverse-finish rf", "reverse-finish")
def reverse_finish(shell: Shell, rest: str) -> None:
    """Goes back to the call that made the selected frame; at the outermost frame to the start."""
    shell.outcome(shell.runs.finish_back(shell.session.selected))


@command("run r", "run", is_repeated=False)
def run(shell: Shell, rest: str) -> None:
    """Begins again: goes back to the start and runs on to the first stop. Stops stay; pokes are taken back."""
    if rest:
        raise Wrong(f"{rest}: nothing more was expected; {ARGUMENTS}")
    shell.session.go(Timeline())
    shell.outcome(shell.runs.run(True))


@command("goto", "goto N | goto start | goto end | goto why | goto suspect N", "expression", is_repeated=False)
def goto(shell: Shell, rest: str) -> None:
    """Goes to the position N, back or forward; to the start or the end of the run, past all stops; `goto why` to the
    position of the last cause shown, `goto suspect N` to that of the N-th suspicion. Pokes after it are undone, and a
    line says so."""
    if rest in ("start", "end"):
        there = shell.session.timeline.at(MOST_MOVES if rest == "end" else 0)
    elif rest == "why":
        if not shell.chain:
            raise Refused("nothing was asked by `why` yet")
        there = shell.chain[-1].at
    elif rest.split()[:1] == ["suspect"]:
        there = suspect_numbered(shell, rest.partition(" ")[2].strip() or "1")
    else:
        position = shell.whole(rest.lstrip("#") if rest.startswith("#") else rest) if rest else -1
        if position < 0:
            raise Wrong(f"{rest or 'goto'}: a position, 0 and up, was expected")
        there = shell.session.timeline.at(position)
    go(shell, there)


def suspect_numbered(shell: Shell, text: str) -> Timeline:
    """Where the N-th of the suspicions stands that were listed last."""
    if not shell.suspects:
        raise Refused("no suspicion was listed yet; `suspects` lists them")
    if not text.isdigit() or not 1 <= int(text) <= len(shell.suspects):
        raise Wrong(f"{text}: a number from 1 to {len(shell.suspects)} was expected")
    return shell.suspects[int(text) - 1]


def go(shell: Shell, there: Timeline) -> None:
    lost = [poke for poke in shell.session.timeline.pokes if poke not in there.pokes]
    shell.session.go(there)
    for poke in lost:
        shell.say(f"taken back: {poke.line} (#{poke.position})")
    if shell.session.place.position < there.position < MOST_MOVES:
        shell.say(f"the run is over before #{there.position}")
    shell.show()


@command("checkpoint", "checkpoint [NAME]", is_repeated=False)
def checkpoint(shell: Shell, rest: str) -> None:
    """Keeps this position, with the pokes up to it, under a name or the next number; `restart` comes back to it."""
    name = rest or str(next(n for n in range(1, len(shell.checkpoints) + 2) if str(n) not in shell.checkpoints))
    if len(name.split()) > 1:
        raise Wrong(f"{rest}: one word was expected")
    shell.checkpoints[name] = shell.session.timeline
    shell.say(f"checkpoint {name}: {shell.session.place}")


@command("restart", "restart NAME", "checkpoint", is_repeated=False)
def restart(shell: Shell, rest: str) -> None:
    """Goes to a checkpoint. Pokes that were made before it and taken back since are made again."""
    if rest not in shell.checkpoints:
        raise Wrong(no_checkpoint(shell, rest or "restart"))
    go(shell, shell.checkpoints[rest])


def no_checkpoint(shell: Shell, name: str) -> str:
    known = ", ".join(shell.checkpoints) or "none"
    return f"{name}: the name of a checkpoint was expected; there are: {known}"


# How a piece of memory begins.
MEMORY = re.compile(r"[bhwlsd]\[")


@command("set", "set %x EXPRESSION | set w[ADDRESS] EXPRESSION | set listsize N | set height N | set pagination on|off "
         "| set style enabled on|off", "expression", is_repeated=False)
def set_(shell: Shell, rest: str) -> None:
    """Sets a temporary of the innermost frame, or memory as `w[ADDRESS]`. That is a move, which `back` takes back. `set
    listsize N` has `list` show N lines; a terminal has `height` lines, 0 for as many as there are; `pagination` stops
    at each full screen, and `style enabled` has colours."""
    if rest.split()[:1] and rest.split()[0] in OPTIONS:
        OPTIONS[rest.split()[0]](shell, rest.partition(" ")[2].strip())
        return
    rest = rest.removeprefix("var ").removeprefix("variable ")
    if MEMORY.match(rest):
        poke(shell, as_poke(rest))
        return
    name, _, value = rest.replace("=", " = ", 1).partition(" ") if "=" in rest.split(" ")[0] else rest.partition(" ")
    value = value.strip().removeprefix("=").strip() if not value.strip().startswith("==") else value
    if not name.startswith("%") or not value:
        raise Wrong((f"{rest}: " if rest else "") +
                    "set %TEMPORARY EXPRESSION, or set w[ADDRESS] EXPRESSION, was expected")
    if shell.session.selected:
        raise Refused("a temporary can be set in the innermost frame alone; `frame 0` selects it")
    _, width = shell.temporary(name)
    changed(shell, f"set {name} {signed_word(shell, value, width)}")


def as_poke(rest: str) -> str:
    """The words of a `poke` that writes a piece of memory: `w[$x + 4] = 5` as `w ($x + 4) 5`."""
    depth = 0
    for at, letter in enumerate(rest):
        depth += (letter == "[") - (letter == "]")
        if letter == "]" and not depth:
            address = rest[2:at].strip()
            address = f"({address})" if " " in address else address
            return f"{rest[0]} {address} {rest[at + 1:].strip().removeprefix('=').strip()}"
    raise Wrong(f"{rest}: ] was expected")


def set_list_size(shell: Shell, text: str) -> None:
    shell.list_size = shell.count(text, MOST_LISTED, shell.list_size)


def set_height(shell: Shell, text: str) -> None:
    output = standard(shell)
    output.height = 0 if text in ("0", "unlimited") else shell.count(text, MOST_LISTED)
    output.begin()


def set_pagination(shell: Shell, text: str) -> None:
    standard(shell).is_paged = is_on(text) and not is_plain()
    standard(shell).begin()


def set_style(shell: Shell, text: str) -> None:
    standard(shell).has_colours = is_on(text.removeprefix("enabled").strip()) and not is_plain()


def standard(shell: Shell) -> Standard:
    if not isinstance(shell.output, Standard):
        raise Refused("this is an option of the prompt; `q` leads back there")
    return shell.output


def is_on(text: str) -> bool:
    if text not in ("on", "off", ""):
        raise Wrong(f"{text}: on or off was expected")
    return text != "off"


def set_directories(shell: Shell, text: str) -> None:
    """Sources have a command of their own; in gdb this is another way to write it."""
    COMMANDS["directory"].call(shell, text)


def set_substitute_path(_shell: Shell, _text: str) -> None:
    raise Refused("set substitute-path: no such option; `directory DIR` finds a source in DIR by as much of the end of "
                  "its path as is there")


OPTIONS = {"listsize": set_list_size, "height": set_height, "pagination": set_pagination, "style": set_style,
           "directories": set_directories, "substitute-path": set_substitute_path}


@command("poke", "poke WIDTH ADDRESS EXPRESSION", "expression", is_repeated=False)
def poke(shell: Shell, rest: str) -> None:
    """Writes to memory, WIDTH b, h, w or l, or s or d for a float. That is a move, which `back` undoes. Put an ADDRESS
    of several words in parentheses."""
    width, _, rest = rest.partition(" ")
    address, value = split_address(rest)
    if width not in BITS or not address or not value:
        raise Wrong("poke WIDTH ADDRESS EXPRESSION was expected, WIDTH one of b, h, w, l, s, d")
    changed(shell, f"poke {FLOATS.get(width, width)} {address_word(shell, address)} {signed_word(shell, value, width)}")


def split_address(text: str) -> tuple[str, str]:
    """An address, which is one word or in parentheses, and what follows it."""
    text = text.strip()
    if not text.startswith("("):
        first, _, rest = text.partition(" ")
        return first, rest.strip()
    depth = 0
    for at, letter in enumerate(text):
        depth += (letter == "(") - (letter == ")")
        if depth == 0:
            return text[:at + 1], text[at + 1:].strip()
    raise Wrong(f"{text}: ) was expected")


def address_word(shell: Shell, text: str) -> str:
    """An address as the command language has it: by its name where it was given so, which outlasts another layout."""
    name, plus, offset = text.partition("+")
    if name in shell.session.program.addresses and (not plus or offset.isdigit()):
        return text
    return str(shell.number(text))


def signed_word(shell: Shell, text: str, width: str) -> str:
    """A value as the command language has it; where a float is set, a whole number is one too."""
    if width in FLOATS:
        return str(bits_of(shell.evaluate(text).number, width))
    value = shell.whole(text)
    if not -(1 << 63) <= value < 1 << 64:
        raise Wrong(f"{text}: {value} doesn't fit into 64 bits")
    return str(value)


def changed(shell: Shell, line: str) -> None:
    answer = shell.session.change(line)[0]
    if answer.startswith("no: "):
        raise Refused(f"{line}: {answer[4:]}")
    shell.show()


@command("quit q exit", "quit", is_repeated=False)
def quit_(shell: Shell, rest: str) -> None:
    """Ends the session. So does the end of the input (Ctrl-D). `save FILE` before keeps it as a script."""
    raise Leave
