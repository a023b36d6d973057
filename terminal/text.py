"""An accepted program text, as a session shows it: the line of each instruction, its operands, and the places of
data."""
from __future__ import annotations

from dataclasses import dataclass, field
from functools import cached_property
from typing import Callable, Iterator, Sequence

from .reading import tree
from .reading.accepted import AcceptedReader
from .reading.instructions import WITH_RESULT, WITHOUT_RESULT
from .reading.tree import Call, Definition, Jump, Phi, Value
from .renaming import Renaming

JUMPS = frozenset(("jmp", "jnz", "ret", "hlt"))
STORED = {"storel": 8, "storew": 4, "storeh": 2, "storeb": 1}
LOADED = {"loadl": 8, "loadw": 4, "loadsw": 4, "loaduw": 4, "loadsh": 2, "loaduh": 2, "loadsb": 1, "loadub": 1}
EXTENSIONS = frozenset(("extsw", "extuw", "extsh", "extuh", "extsb", "extub"))
ALLOCATIONS = frozenset(("alloc4", "alloc8", "alloc16"))
BUILT_IN = {"$putchar": 1024, "$puts": 1040, "$exit": 1056}
ITEM_BYTES = {"b": 1, "h": 2, "w": 4, "l": 8}
FUNCTIONS, FUNCTION_BYTES, DATA = 4096, 16, 65_536
STACK, STACK_BYTES = 16_777_216, 1 << 20


@dataclass(frozen=True)
class Operand:
    """A value in an instruction, as it is written, and the type in which it is read."""
    text: str
    type: str

    @property
    def is_temporary(self) -> bool:
        return self.text.startswith("%")


@dataclass(frozen=True)
class Instruction:
    """An instruction, a phi or a jump. The first operand of a call is what is called; a phi and a jump have labels."""
    line: int
    operation: str
    result: str | None = None
    type: str | None = None
    operands: tuple[Operand, ...] = ()
    labels: tuple[str, ...] = ()
    count: int = 0

    def written(self, show: Callable[[Operand], str] = lambda operand: operand.text) -> str:
        """The canonical text, with each operand as `show` has it."""
        values = [show(operand) for operand in self.operands]
        head = f"{self.result} ={self.type} " if self.result else ""
        if self.operation == "call":
            given = ", ".join(f"{operand.type} {value}" for operand, value in zip(self.operands[1:], values[1:]))
            return f"{head}call {values[0]}({given})"
        if self.operation == "phi":
            return f"{head}phi " + ", ".join(f"{label} {value}" for label, value in zip(self.labels, values))
        if self.operation == "blit":
            values.append(str(self.count))
        return f"{head}{self.operation} {', '.join([*values, *self.labels])}".rstrip()


@dataclass
class Block:
    label: str
    line: int
    phis: list[Instruction] = field(default_factory=list)
    body: list[Instruction] = field(default_factory=list)


@dataclass
class Function:
    name: str
    line: int
    type: str | None
    parameters: list[tuple[str, str]]
    blocks: dict[str, Block] = field(default_factory=dict)

    @property
    def first(self) -> str:
        return next(iter(self.blocks))

    def at(self, label: str, index: int) -> Instruction:
        return self.blocks[label].body[index]

    def places(self) -> Iterator[tuple[str, int, Instruction]]:
        """Each instruction and jump with its place; phis have the index -1."""
        for block in self.blocks.values():
            for phi in block.phis:
                yield block.label, -1, phi
            for index, instruction in enumerate(block.body):
                yield block.label, index, instruction

    def definitions(self, name: str) -> list[tuple[str, int, Instruction]]:
        return [place for place in self.places() if place[2].result == name]

    @cached_property
    def temporaries(self) -> dict[str, str]:
        """Each temporary with its class."""
        classes = {name: "l" if type == "l" else "w" for type, name in self.parameters}
        for _, _, instruction in self.places():
            if instruction.result:
                classes.setdefault(instruction.result, "l" if instruction.type == "l" else "w")
        return classes


@dataclass(frozen=True)
class Data:
    """An object: where it lies, at which of its bytes an address of what begins, the name of its section, and the
    letters of its items, but for zero bytes, by where they begin."""
    name: str
    line: int
    address: int
    size: int
    pointers: tuple[tuple[int, str], ...] = ()
    section: str = ""
    items: tuple[tuple[int, str], ...] = ()

    def letter_at(self, offset: int) -> str | None:
        """The letter of the item that begins at a byte."""
        return dict(self.items).get(offset)


class View:
    """The definitions of a text that was read, as a session shows them: constants as they are written."""

    def __init__(self, definitions: Sequence[Definition]):
        self.operands: dict[tuple[Value, str], Operand] = {}
        self.functions = {each.name: self.function(each) for each in definitions if isinstance(each, tree.Function)}
        self.data: list[Data] = []
        for each in definitions:
            if isinstance(each, tree.Data):
                self.data.append(laid_out(each, self.data[-1].address + self.data[-1].size if self.data else DATA))

    def operand(self, value: Value, type: str) -> Operand:
        """One object for all that are alike."""
        known = self.operands.get((value, type))
        if known is None:
            known = self.operands[value, type] = Operand(str(value), type)
        return known

    def function(self, read: tree.Function) -> Function:
        function = Function(read.name, read.line, read.returns, read.parameters)
        for each in read.blocks:
            body = [self.instruction(instruction) for instruction in each.instructions]
            function.blocks[each.name] = Block(each.name, each.line, [self.phi(phi) for phi in each.phis],
                                               [*body, self.jump(each.jump, function)])
        return function

    def phi(self, read: Phi) -> Instruction:
        operands = tuple(self.operand(value, read.cls) for _, value in read.sources)
        return Instruction(read.line, "phi", read.result, read.cls, operands, tuple(label for label, _ in read.sources))

    def instruction(self, read: tree.Instruction | Call) -> Instruction:
        if isinstance(read, Call):
            given = (self.operand(value, type) for type, value in read.arguments)
            return Instruction(read.line, "call", read.result, read.kind, (self.operand(read.target, "l"), *given))
        name = "loadsw" if read.name == "loadw" else read.name
        is_set = read.result is not None
        classes = WITH_RESULT[name, read.cls] if is_set else WITHOUT_RESULT[name]
        # The number of bytes is no operand.
        count = int(read.operands[2]) if name == "blit" else 0
        return Instruction(read.line, name, read.result, read.cls if is_set else None,
                           tuple(map(self.operand, read.operands, classes)), (), count)

    def jump(self, read: Jump, function: Function) -> Instruction:
        """The jump of a block; that of one without goes on to the next one, from the line of its label."""
        if read.value is None:
            return Instruction(read.line, "jmp" if read.name == "on" else read.name, labels=read.labels)
        type = "w" if read.name == "jnz" or function.type != "l" else "l"
        return Instruction(read.line, read.name, operands=(self.operand(read.value, type),), labels=read.labels)


def laid_out(read: tree.Data, end: int) -> Data:
    """An object behind the end of the one before: it lies at the next multiple of its alignment."""
    alignment = 16 if read.alignment is None else read.alignment
    size, pointers, items = 0, [], []
    for item in read.items:
        if item.is_global:
            pointers.append((size, str(item.value)))
        if item.letter != "z":
            items.append((size, item.letter))
        size += item_size(item.letter, str(item.value))
    # The name of a section is as it is written, between its quotes.
    return Data(read.name, read.line, -(-end // alignment) * alignment, size, tuple(pointers),
                (read.section or "")[1:-1], tuple(items))


def item_size(letter: str, written: str) -> int:
    """How many bytes an item of data takes; `z N` is N zero bytes."""
    if letter == "z":
        return int(written)
    return string_size(written) if written[0] == '"' else ITEM_BYTES[letter]


def string_size(text: str) -> int:
    """How many bytes a string token stands for."""
    size, at = 0, 1
    while at < len(text) - 1:
        at += 1
        if text[at - 1] == "\\":
            digits = 0
            while digits < 3 and text[at + digits] in "01234567":
                digits += 1
            at += digits or 1
        size += 1
    return size


class Program:
    """A program's text, by lines and as its definitions."""

    def __init__(self, source: bytes, renaming: Renaming | None = None):
        if renaming:
            source = renaming.told(source.decode("latin-1")).encode("latin-1")
        view = View(AcceptedReader(source.decode("latin-1")).read().definitions)
        self.lines = [line.rstrip("\r") for line in source.decode("utf-8", "replace").split("\n")]
        self.functions, self.data = view.functions, view.data
        names = list(BUILT_IN.items())
        names += [(name, FUNCTIONS + FUNCTION_BYTES * n) for n, name in enumerate(self.functions)]
        names += [(data.name, data.address) for data in self.data]
        self.addresses = dict(names)
        own = {*self.functions, *(data.name for data in self.data)}
        self.calls = {address: name for name, address in names if name in self.functions or
                      name in BUILT_IN and name not in own}
        self.built_in = {name for name in BUILT_IN if name not in own}
        self.again = self.reentered()

    def line_of(self, function: str, label: str, index: int) -> int:
        """The line of a place of the text."""
        return self.functions[function].at(label, index).line

    def place_at(self, line: int) -> tuple[str, str, int] | None:
        """The first place at that line or after it; a phi stands for its block, a function's line for its first
        block."""
        lines = {}
        for function in self.functions.values():
            lines[function.line] = (function.name, function.first, 0)
            # A jump that isn't written stands on the line of the next label, which is meant for its own block.
            lines.update((block.line, (function.name, block.label, 0)) for block in function.blocks.values())
            for label, index, instruction in function.places():
                lines.setdefault(instruction.line, (function.name, label, max(index, 0)))
        behind = [number for number in lines if number >= line]
        return lines[min(behind)] if behind and line >= 1 else None

    def called(self, instruction: Instruction) -> str | None:
        """The name of the callee, if the text has it."""
        name = instruction.operands[0].text
        return name if name in self.functions or name in self.built_in else None

    def reentered(self) -> set[str]:
        """The functions that may be called again during a call of them."""
        taken = set(self.functions) if self.calls_by_address else set()
        callees = {name: {self.called(instruction) or "" for _, _, instruction in function.places()
                          if instruction.operation == "call"} for name, function in self.functions.items()}
        found = set()
        for name in self.functions:
            seen: set[str] = set()
            waiting = [name]
            while waiting:
                for callee in (taken if "" in callees[waiting[-1]] else set()) | callees[waiting.pop()]:
                    if callee in self.functions and callee not in seen:
                        seen.add(callee)
                        waiting.append(callee)
            if name in seen:
                found.add(name)
        return found

    @cached_property
    def calls_by_address(self) -> bool:
        """Whether the callee is known only in a run."""
        return any(instruction.operation == "call" and not self.called(instruction)
                   for function in self.functions.values() for _, _, instruction in function.places())

    def object_at(self, address: int) -> Data | None:
        """The object of the data that has an address, or after which it is padding."""
        before = [data for data in self.data if data.address <= address]
        end = self.data[-1].address + self.data[-1].size if self.data else DATA
        return before[-1] if before and address < end else None
