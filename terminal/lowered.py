"""What lower/qrev-lower says of the names of a text that it wrote: which functions aren't the program's own, which
values are floats, and which names were shortened. FILE.names beside the text has it (docs/REAL_COMPILERS.md)."""
from __future__ import annotations

import pathlib
from dataclasses import dataclass, field, replace

from .text import Block, Data, Function, Instruction, Operand, Program
from .values import FLOAT_BYTES, FLOATS, as_float

# The function of the runtime in which a signal to the program itself ends it.
SIGNALLED = "$ended.by.signal"
# Instructions on floats that are others on their bits.
OF_FLOATS = {"loadl": "load", "loaduw": "load", "copy": "copy", "phi": "phi", "call": "call"}
STORES = {"storel": "stored", "storew": "stores"}
# The data of the runtime by which it is asked, behind each call that may lead to a longjmp, whether one is on its way.
WANTED = "$jump.wanted"
# By what the sign of a float is turned.
SIGN_BITS = {"s": str(1 << 31), "d": str(1 << 63)}


@dataclass
class Lowered:
    """The names of a text by what they stand for; of a text that wasn't lowered nothing is known."""
    outside: set[str] = field(default_factory=set)
    runtime: set[str] = field(default_factory=set)
    # The instruction that a function stands for: its name, the class of its result, and those of its operands.
    instructions: dict[str, tuple[str, str, tuple[str, ...]]] = field(default_factory=dict)
    results: dict[str, str] = field(default_factory=dict)
    floats: dict[tuple[str, str], str] = field(default_factory=dict)
    # The floats of an object: where they begin, their class and their number.
    data: dict[str, list[tuple[int, str, int]]] = field(default_factory=dict)
    # The floats among the cells for arguments behind dots: by function, the address of its cells, and number.
    cells: dict[tuple[str, str, int], str] = field(default_factory=dict)
    # The lines of the text whose stores write constants of floats, with their classes.
    stores: dict[int, str] = field(default_factory=dict)
    # The old names of temporaries and labels that have new ones.
    renamed: dict[str, str] = field(default_factory=dict)
    # The data with the table of files, and that with the address of its end.
    files: dict[str, str] = field(default_factory=dict)
    # The classes of each function's parameters.
    parameters: dict[str, list[str]] = field(default_factory=dict)
    # By function the blocks that go on behind a call which no longjmp left, each with the block of the call.
    behind_calls: dict[str, dict[str, str]] = field(default_factory=dict)

    def take(self, kind: str, words: list[str]) -> None:
        """Takes what a line says; kinds that aren't known say nothing."""
        if kind in ("outside", "runtime"):
            (self.outside if kind == "outside" else self.runtime).add(words[0])
        elif kind == "instruction":
            self.instructions[words[0]] = (words[1], words[2], tuple(words[3:]))
        elif kind == "result":
            self.results[words[0]] = words[1]
        elif kind == "float":
            self.floats[words[0], words[1]] = words[2]
        elif kind == "data":
            self.data.setdefault(words[0], []).append((int(words[1]), words[2], int(words[3])))
        elif kind == "cell":
            self.cells[words[0], words[1], int(words[2])] = words[3]
        elif kind == "stored":
            self.stores[int(words[0])] = words[1]
        elif kind == "name":
            self.renamed[words[0]] = words[1]
        elif kind == "files":
            self.files[words[1]] = words[0]

    def halted_in(self, function: str) -> str | None:
        """How a run ended that was halted in a function which isn't the program's own."""
        if function in self.outside:
            return f"halted in {function}, which isn't there"
        if function == SIGNALLED and function in self.runtime:
            return "ended by a signal"
        return f"halted in {function}" if function in self.runtime else None

    def tell_classes(self, program: Program) -> None:
        """Makes the classes of a program's temporaries those of floats where they hold one."""
        for function in program.functions.values():
            self.parameters[function.name] = [self.floats.get((function.name, name), cls)
                                              for cls, name in function.parameters]
        for (owner, name), cls in self.floats.items():
            if owner in program.functions and name in program.functions[owner].temporaries:
                program.functions[owner].temporaries[name] = cls

    def written(self, function: Function, instruction: Instruction) -> str:
        """An instruction as it was before floats became their bits: `%x =d mul %a, d_0.5`."""
        classes = function.temporaries
        operation, operands = instruction.operation, instruction.operands
        called = self.instructions.get(operands[0].text) if operation == "call" else None
        if called:
            name, gives, takes = called
            values = (constant(operand.text, cls) for operand, cls in zip(operands[1:], takes))
            return f"{instruction.result} ={gives} {name} {', '.join(values)}"
        cls = classes.get(instruction.result or "", "")
        if cls in FLOATS and operation in OF_FLOATS:
            return self.of_float(instruction, cls, classes)
        if cls in FLOATS and operation == "xor" and operands[1].text == SIGN_BITS[cls]:
            return f"{instruction.result} ={cls} neg {constant(operands[0].text, cls)}"
        if operation in STORES and (classes.get(operands[0].text) in FLOATS or instruction.line in self.stores):
            return f"{STORES[operation]} {constant(operands[0].text, STORES[operation][-1])}, {operands[1].text}"
        return self.with_classes(instruction, classes).written() if operation == "call" else instruction.written()

    def of_float(self, instruction: Instruction, cls: str, classes: dict[str, str]) -> str:
        """An instruction that sets a float."""
        if instruction.operation == "call":
            return self.with_classes(instruction, classes, cls).written()
        if instruction.operation.startswith("load"):
            return f"{instruction.result} ={cls} load{cls} {instruction.operands[0].text}"
        shown = instruction.written(lambda operand: constant(operand.text, cls))
        return shown.replace(f" ={instruction.type} ", f" ={cls} ", 1)

    def with_classes(self, instruction: Instruction, classes: dict[str, str], cls: str = "") -> Instruction:
        """A call with the classes of floats at its arguments and its result."""
        called, *arguments = instruction.operands
        wanted = self.parameters.get(called.text, [operand.type for operand in arguments])
        told = [operand_of(operand, classes.get(operand.text, ""), want) for operand, want in zip(arguments, wanted)]
        return replace(instruction, operands=(called, *told, *arguments[len(told):]), type=cls or instruction.type)

    def float_at(self, data: Data | None, address: int, count: int) -> str:
        """The class of the float in these bytes of an object, or nothing."""
        if data is None:
            return ""
        for begin, cls, number in self.data.get(data.name, ()):
            size = FLOAT_BYTES[cls]
            offset = address - data.address - begin
            if count == size and 0 <= offset < number * size and offset % size == 0:
                return cls
        return ""

    def left_by_jumps(self, function: str, blocks: dict[str, Block]) -> dict[str, str]:
        """The blocks of a function that go on behind a call which no longjmp left, each with the block of the call."""
        if WANTED not in self.runtime:
            return {}
        if function not in self.behind_calls:
            self.behind_calls[function] = {block.body[-1].labels[-1]: block.label for block in blocks.values()
                                           if asks_for_jump(block)}
        return self.behind_calls[function]

    def is_own(self, name: str) -> bool:
        """Whether a function, or data, is the program's own."""
        return name not in self.runtime and name not in self.outside


def asks_for_jump(block: Block) -> bool:
    """Whether a block ends behind a call by the question for a longjmp."""
    if len(block.body) < 3 or block.body[-1].operation != "jnz":
        return False
    load, compare = block.body[-3:-1]
    return load.operation == "loadl" and load.operands[0].text == WANTED and compare.operation == "cnel" and \
        compare.operands[0].text == load.result and block.body[-1].operands[0].text == compare.result


def constant(text: str, cls: str) -> str:
    """An operand of a class: bits of a float as QBE writes one."""
    if cls in FLOATS and text.lstrip("-").isdigit():
        return f"{cls}_{as_float(int(text), cls)}"
    return text


def operand_of(operand: Operand, has: str, wanted: str) -> Operand:
    """An argument, as a float if it is one, or if it is a number where a float is required."""
    if operand.is_temporary:
        return Operand(operand.text, has) if has in FLOATS else operand
    return Operand(constant(operand.text, wanted), wanted) if wanted in FLOATS else operand


def lowered_of(file: str) -> Lowered:
    """What is known of the names of a text."""
    found = Lowered()
    try:
        lines = pathlib.Path(file + ".names").read_bytes().decode("latin-1").split("\n")
    except OSError:
        return found
    for line in lines:
        kind, *words = line.split("\t")
        try:
            found.take(kind, words)
        except (IndexError, ValueError):
            # A line of another form says nothing.
            continue
    return found
