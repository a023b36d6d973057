"""Commands that look for something: a value in memory, a line of the text, what a name stands for."""
from __future__ import annotations

import re

from .expressions import Wrong, lexed
from .looking import OTHERS, named
from .scratch import MOST_BYTES, Refused
from .shell import Shell, command
from .stopping import place_of
from .text import DATA, STACK, STACK_BYTES, Function
from .values import BITS, FLOATS, bits_of, unsigned

MOST_FOUND = 100
# Lines before and behind one that was searched for.
AROUND = 2
TEXT = re.compile(r'"((?:[^"\\]|\\.)*)"')


@command("find", 'find [WIDTH] VALUE | "TEXT"', "expression", is_repeated=False)
def find(shell: Shell, rest: str) -> None:
    """Shows where live memory holds a value now, in data and on the stack: at the multiples of its WIDTH, which is that
    of the value, or else w; or where it holds the bytes of a text. `writers` and `why` say how it came there."""
    wanted, size = wanted_bytes(shell, rest.strip())
    found = []
    for begin, held in pieces_of_memory(shell):
        at = held.find(wanted)
        while at >= 0:
            if (begin + at) % size == 0:
                found.append(begin + at)
            at = held.find(wanted, at + 1)
    shell.say(*(named(shell, address) for address in found[:MOST_FOUND]))
    more = f" ({MOST_FOUND} are shown)" if len(found) > MOST_FOUND else ""
    shell.say(f"{len(found)} place{'s' * (len(found) != 1)}{more}")


def wanted_bytes(shell: Shell, rest: str) -> tuple[bytes, int]:
    """What is searched for, and of what its address is a multiple."""
    text = TEXT.fullmatch(rest)
    if text:
        wanted = text[1].encode().decode("unicode_escape").encode("latin-1")
        if not wanted:
            raise Wrong("a text of at least one byte was expected")
        return wanted, 1
    word, _, expression = rest.partition(" ")
    width = word if word in BITS and expression.strip() else ""
    value = shell.evaluate(expression if width else rest)
    width = width or value.width or ("d" if isinstance(value.number, float) else "w")
    if isinstance(value.number, float) or width in FLOATS:
        width = width if width in FLOATS else "d"
        number = bits_of(value.number, width)
    else:
        number = unsigned(value.number, width)
        if not -(1 << (BITS[width] - 1)) <= value.number < 1 << BITS[width]:
            raise Wrong(f"{rest}: {value.number} doesn't fit into {BITS[width]} bits; say `find l {value.number}`")
    size = BITS[width] // 8
    return number.to_bytes(size, "little"), size


def pieces_of_memory(shell: Shell) -> list[tuple[int, bytes]]:
    """The live bytes of data and of the stack, each piece with where it begins."""
    data = shell.session.program.data
    end = data[-1].address + data[-1].size if data else DATA
    pieces = [(DATA, end - DATA)] if data else []
    pieces.append((STACK, STACK_BYTES))
    found = []
    for begin, size in pieces:
        held = bytearray()
        while len(held) < size:
            piece = shell.session.memory(begin + len(held), min(16 * MOST_BYTES, size - len(held)))
            live = [byte for byte in piece if byte is not None]
            held += bytes(live)
            if len(live) < len(piece):
                break
        found.append((begin, bytes(held)))
    return found


@command("search forward-search", "search TEXT", is_repeated=False)
def search(shell: Shell, rest: str) -> None:
    """Shows the next line that has a text, or that a regular expression fits, behind the lines that were listed last;
    behind the last line it goes on with the first. Without a word it searches for the same once more."""
    searched(shell, rest, 1)


@command("reverse-search", "reverse-search TEXT", is_repeated=False)
def reverse_search(shell: Shell, rest: str) -> None:
    """Shows the line before that has a text, as `search` does the next one."""
    searched(shell, rest, -1)


def searched(shell: Shell, rest: str, way: int) -> None:
    wanted = rest or shell.sought
    if not wanted:
        raise Wrong("search TEXT was expected")
    try:
        fits = re.compile(wanted).search
    except re.error:
        fits = re.compile(re.escape(wanted)).search
    lines, place = shell.session.program.lines, shell.session.place
    here = shell.line_found
    if not here and not place.end:
        here = shell.session.program.line_of(place.function, place.label, place.index)
    for step in range(1, len(lines) + 1):
        at = (here - 1 + way * step) % len(lines)
        if fits(lines[at]):
            shell.sought, shell.line_found = wanted, at + 1
            shell.say(*shell.screen.text_lines(at + 1 - AROUND, at + 1 + AROUND, at + 1, []))
            return
    raise Refused(f"{wanted}: no line has it")


def line_told(shell: Shell, rest: str) -> list[str]:
    """Where the code of a line, or of any other place, is: in the program, in the text and in a source."""
    function, label, index = place_of(shell, rest)
    line = shell.session.program.line_of(function, label, index)
    source = shell.screen.map.place(line)
    text = shell.session.program.functions[function].at(label, index).written()
    return [f"{function} {label} {index}  line {line}: {text}" + (f"  ({source})" if source else "")]


OTHERS["line"] = line_told


@command("whatis ptype", "whatis %x | $d | $f", "expression", is_repeated=False)
def whatis(shell: Shell, rest: str) -> None:
    """Says what a name is: the class of a temporary and the lines that set it, the size of data, the parameters and the
    type of a function; or the class of an expression."""
    program, word = shell.session.program, rest.strip()
    name = shell.function_named(word)
    if name in program.functions:
        shell.say(f"{name}: {function_told(program.functions[name])}")
        return
    data = next((each for each in program.data if each.name == word), None)
    if data:
        shell.say(f"{word}: {data.size} bytes of data from {data.address} on, line {data.line}")
        return
    if word.startswith("%") and list(lexed(word)) == [word]:
        _, width = shell.temporary(word)
        function = program.functions[shell.session.frames()[shell.session.selected].function]
        shell.say(f"{word}: {width}, {set_at(function, word)}")
        return
    width = shell.evaluate(word).width
    shell.say(f"{word}: {width or 'a number without a class'}")


def function_told(function: Function) -> str:
    parameters = ", ".join(f"{function.temporaries[name]} {name}" for _, name in function.parameters)
    return f"a function ({parameters}), which gives {function.type or 'nothing'}, line {function.line}"


def set_at(function: Function, name: str) -> str:
    """By which lines of its function a temporary is set."""
    if any(parameter == name for _, parameter in function.parameters):
        return f"a parameter of {function.name}"
    lines = sorted({instruction.line for _, _, instruction in function.definitions(name)})
    return f"set at line{'s' * (len(lines) > 1)} {', '.join(map(str, lines))}"
