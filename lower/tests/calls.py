"""Texts that make calls of the C library and say what comes of them: their own output beside that of native code."""
import random
from collections.abc import Callable

from .floats import string_of
from .native import is_there, native
from .running import Running, Skipped, differ
from .telling import TELL_MORE

NO_COMPILER = Skipped("gcc")


class Calls:
    """A text under construction: its data, and the body of its entry."""

    def __init__(self, seed: int = 0) -> None:
        self.choice = random.Random(seed)
        self.data: list[str] = []
        self.body: list[str] = []
        self.functions = ""
        self.made = 0

    def named(self) -> str:
        self.made += 1
        return f"{self.made}"

    def room(self, size: int, items: str = "") -> str:
        """Data of a size, or with these items."""
        name = f"$d{self.named()}"
        self.data.append(f"data {name} = align 16 {{ {items or f'z {size}'} }}")
        return name

    def text(self, value: bytes) -> str:
        return self.room(0, f"b {string_of(value + bytes(1))}")

    def line(self, line: str) -> None:
        self.body.append(line)

    def call(self, name: str, gives: str, *arguments: str) -> str:
        """The result of a call; arguments have their classes before them."""
        result = f"%r{self.named()}"
        self.line(f"{result} ={gives} call ${name}({', '.join(arguments)})")
        return result

    def plain(self, name: str, *arguments: str) -> None:
        self.line(f"call ${name}({', '.join(arguments)})")

    def word(self, name: str, *arguments: str) -> None:
        """Calls and says what a `w` is."""
        self.plain("tell.w", f"w {self.call(name, 'w', *arguments)}")

    def long(self, name: str, *arguments: str) -> None:
        self.plain("tell", f"l {self.call(name, 'l', *arguments)}")

    def said(self, name: str, *arguments: str) -> None:
        """Calls and says the text that is given."""
        self.plain("tell.text", f"l {self.call(name, 'l', *arguments)}")

    def place(self, base: str, name: str, *arguments: str) -> None:
        """Calls and says how far behind an address the one is that is given, or that there is none."""
        self.far(base, self.call(name, "l", *arguments))

    def kept(self, base: str, place: str) -> None:
        """Says the same of the address that a place in memory has."""
        result = f"%r{self.named()}"
        self.line(f"{result} =l loadl {place}")
        self.far(base, result)

    def far(self, base: str, result: str) -> None:
        self.line(f"%i{result[1:]} =l cnel {result}, 0")
        self.line(f"%o{result[1:]} =l sub {result}, {base}")
        self.line(f"%o{result[1:]} =l add %o{result[1:]}, 1")
        self.line(f"%o{result[1:]} =l mul %o{result[1:]}, %i{result[1:]}")
        self.plain("tell", f"l %o{result[1:]}")

    def truth(self, name: str, *arguments: str) -> None:
        """Calls and says whether the result isn't 0."""
        result = self.call(name, "w", *arguments)
        self.line(f"%t{result[1:]} =w cnew {result}, 0")
        self.plain("tell.w", f"w %t{result[1:]}")

    def truth_of(self, name: str, *arguments: str) -> None:
        """Calls and says whether the address isn't 0."""
        result = self.call(name, "l", *arguments)
        self.line(f"%t{result[1:]} =w cnel {result}, 0")
        self.plain("tell.w", f"w %t{result[1:]}")

    def sign(self, name: str, *arguments: str) -> None:
        """Calls and says the sign of the result."""
        result = self.call(name, "w", *arguments)
        self.line(f"%t{result[1:]} =w csltw {result}, 0")
        self.line(f"%u{result[1:]} =w csgtw {result}, 0")
        self.line(f"%s{result[1:]} =w sub %u{result[1:]}, %t{result[1:]}")
        self.plain("tell.w", f"w %s{result[1:]}")

    def bytes(self, address: str, count: int) -> None:
        self.plain("tell.bytes", f"l {address}", f"l {count}")

    def show(self, address: str) -> None:
        self.plain("tell.text", f"l {address}")

    def error(self) -> None:
        self.plain("tell.error")

    def written(self, status: int = 0) -> str:
        body = "\n".join("\t" + line for line in self.body)
        return TELL_MORE + "\n".join(self.data) + "\n" + self.functions + \
            f"export function w $main() {{\n@start\n{body}\n\tret {status}\n}}\n"


def native_fault(running: Running, text: str) -> str | None:
    """What a text writes here that it doesn't in native code."""
    if not is_there():
        return NO_COMPILER
    lowered = running.lower_here(text, name="program")
    if isinstance(lowered, str):
        return lowered
    told = lowered.report.told()
    if told or lowered.overflows:
        return " ".join([*told, *lowered.overflows])
    ended = native([text], [], name="program")
    run = running.run(lowered.text)
    return first_difference(ended.output, run.output) or \
        differ("end", ("done", "exit") if ended.status >= 0 else ("fault", ""), end_of(run.end, ended.status))


def end_of(end: str, status: int) -> tuple[str, str]:
    """How a run ends; an end with the status of native code counts as right."""
    return ("done", "exit") if end in (f"done {status}", f"exit {status}") else (end, "")


def first_difference(wanted: str, given: str) -> str | None:
    """The first words that differ, with some before them."""
    if wanted == given:
        return None
    at = next((index for index, pair in enumerate(zip(wanted, given)) if pair[0] != pair[1]),
              min(len(wanted), len(given)))
    begin = max(0, at - 60)
    return f"output from {begin} on: {given[begin:at + 40]!r} in place of {wanted[begin:at + 40]!r}"


def batch(make: Callable[[Calls], None], seed: int = 0) -> str:
    """The text of what a function calls."""
    calls = Calls(seed)
    make(calls)
    return calls.written()
