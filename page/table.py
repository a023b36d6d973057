"""The places and temporaries of a program by numbers, and which temporaries a move sets.

The page reads a run as arrays of these numbers. Two successive places show what the move between them set: the
instruction's result, the phis after a jump, the parameters after a call, the caller's temporary after a `ret`.
page/static/run.js computes the same from the same numbers, so only the values are sent.
"""
from __future__ import annotations

from typing import TYPE_CHECKING, Any, Callable, Iterable, Sequence

from terminal.sourcemap import ESCAPE, SourceMap, unescaped
from terminal.text import BUILT_IN, STACK, STACK_BYTES, Block, Function, Instruction, Program
from terminal.typed import as_typed

if TYPE_CHECKING:
    from .lowering import Lowering

# What the numbers of places and temporaries take in the arrays, as type codes of `array`.
NARROW, WIDE = "H", "I"
MOST_NARROW = (1 << 16) - 1
# A line of the command language has 256 bytes: the value of a temporary with a longer name can't be asked for.
MOST_NAME = 249
# How many files of sources are read, and of how many bytes each.
MOST_SOURCES, MOST_SOURCE = 32, 1 << 21


class Origins:
    """Where the lines of a lowered text come from, by the map beside it: the compiler's own text, and its source."""

    def __init__(self, file: str, folders: Sequence[str] = ()):
        self.map = SourceMap.beside(file, folders)
        self.lines = [self.read(line) for line in self.map.lines]

    def read(self, line: str) -> list[list[Any]]:
        """The places of a line of the map: a file with a line, and with a column where that is known."""
        fields = [ESCAPE.sub(unescaped, field) for field in line.split("\t")]
        places: list[list[Any]] = [[fields[at], int(fields[at + 1])] for at in range(0, len(fields) - 1, 2)
                                   if fields[at + 1].isdecimal()]
        if len(fields) == 5 and len(places) == 2 and fields[4].isdecimal() and fields[4] != "0":
            places[1].append(int(fields[4]))
        return places

    def told(self, count: int) -> list[list[list[Any]]]:
        shown = [[[as_typed(place[0]), *place[1:]] for place in places] for places in self.lines]
        return (shown + [[]] * count)[:count]

    def texts(self) -> dict[str, list[str]]:
        """The lines of the files that are named, where they can be read from here."""
        found = {}
        for file in sorted({place[0] for places in self.lines for place in places})[:MOST_SOURCES]:
            try:
                path = self.map.path_of(file)
                if path and path.stat().st_size <= MOST_SOURCE:
                    found[as_typed(file)] = path.read_text(errors="replace").split("\n")
            except OSError:
                continue
        return found


class Table:
    """Numbers for the places and temporaries of a program, in the order of its text."""

    def __init__(self, program: Program):
        self.program = program
        self.places: list[tuple[str, str, int, Instruction]] = []
        self.ids: dict[str, int] = {}
        self.first: dict[tuple[str, str], int] = {}
        self.temporaries: dict[tuple[str, str], int] = {}
        for function in program.functions.values():
            self.add_places(function)
            for name in all_temporaries(function):
                self.temporaries[function.name, name] = len(self.temporaries)
        self.code = NARROW if len(self.places) < MOST_NARROW else WIDE
        # The number that stands for a state in which the run is over.
        self.end = MOST_NARROW if self.code == NARROW else (1 << 32) - 1

    def add_places(self, function: Function) -> None:
        for block in function.blocks.values():
            self.first[function.name, block.label] = len(self.places)
            for index, instruction in enumerate(block.body):
                self.ids[f"{function.name} {block.label} {index}"] = len(self.places)
                self.places.append((function.name, block.label, index, instruction))

    def is_entry(self, place: int) -> bool:
        """Whether a function begins at a place."""
        name, label, index, _ = self.places[place]
        return index == 0 and label == self.program.functions[name].first

    def parameters_asked(self, function: str) -> list[str]:
        """The parameters of a function that can be asked for."""
        names = dict.fromkeys(name for _, name in self.program.functions[function].parameters)
        return [name for name in names if len(name) <= MOST_NAME]

    def set_by(self, here: int, there: int) -> Iterable[str]:
        """The temporaries that a move from one place to another sets, in the function to which it leads."""
        if there == self.end:
            return ()
        return (name for name in self.set_between(here, there) if len(name) <= MOST_NAME)

    def set_between(self, here: int, there: int) -> Iterable[str]:
        operation, labels = self.places[here][3].operation, self.places[here][3].labels
        name, label, index, _ = self.places[there]
        function = self.program.functions[name]
        if operation == "ret":
            result = function.at(label, index - 1).result
        elif operation == "call" and (label, index) == (function.first, 0):
            return dict.fromkeys(parameter for _, parameter in function.parameters)
        elif labels:
            return dict.fromkeys(phi.result for phi in function.blocks[label].phis if phi.result)
        else:
            result = self.places[here][3].result
        return (result,) if result else ()

    def told(self, file: str, origins: Origins | None = None, lowering: Lowering | None = None) -> dict[str, Any]:
        """The program as the page reads it: lines, functions with their blocks, data, addresses, where lines come from,
        and what the names of a lowered text stand for."""
        program = self.program
        return {
            "lowered": lowering.told(self) if lowering else None,
            "file": file, "lines": program.lines, "end": self.end, "wide": self.code == WIDE,
            "functions": [self.function_told(function, lowering) for function in program.functions.values()],
            "data": [{"name": data.name, "line": data.line, "address": data.address, "size": data.size}
                     for data in program.data],
            "addresses": program.addresses, "calls": [[address, name] for address, name in program.calls.items()],
            "builtIn": {name: BUILT_IN[name] for name in sorted(program.built_in)},
            "stack": [STACK, STACK_BYTES], "temporaries": len(self.temporaries),
            "map": origins.told(len(program.lines)) if origins and origins.lines else None,
            "sources": origins.texts() if origins else {},
        }

    def function_told(self, function: Function, lowering: Lowering | None = None) -> dict[str, Any]:
        def written(instruction: Instruction) -> str:
            return lowering.written(function.name, instruction) if lowering else instruction.written()

        return {"name": function.name, "line": function.line, "type": function.type,
                "parameters": [[kind, name] for kind, name in function.parameters],
                "temporaries": [[name, width, self.temporaries[function.name, name]]
                                for name, width in all_temporaries(function).items()],
                "blocks": [block_told(block, written) for block in function.blocks.values()]}


def all_temporaries(function: Function) -> dict[str, str]:
    """Each temporary that the text of a function sets, with its class."""
    return function.temporaries


def block_told(block: Block, written: Callable[[Instruction], str]) -> dict[str, Any]:
    return {"label": block.label, "line": block.line, "phis": [instruction_told(phi, written) for phi in block.phis],
            "body": [instruction_told(each, written) for each in block.body]}


def instruction_told(instruction: Instruction, written: Callable[[Instruction], str]) -> dict[str, Any]:
    return {"line": instruction.line, "op": instruction.operation, "result": instruction.result,
            "type": instruction.type, "operands": [[each.text, each.type] for each in instruction.operands],
            "labels": list(instruction.labels), "count": instruction.count, "text": written(instruction)}
