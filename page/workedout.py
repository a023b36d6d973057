"""What an exported file keeps of a run's values: how each differs from what its instruction makes of its operands.

Where an instruction is worked out here, and by the page in the same way (static/workedout.js), nothing is left to
keep. A guess may be wrong: what is kept sets it right, so a file has the values of the run whatever is guessed.
"""
from __future__ import annotations

import json
import struct
import zlib
from array import array
from typing import Callable, Iterator, Sequence

from terminal.text import STORED, Function, Instruction

from .gathering import Gathering
from .table import Table

Values = dict[str, int]
Memory = dict[int, int]
Guess = Callable[[Values, Memory], int]
WORD, LONG = (1 << 32) - 1, (1 << 64) - 1
# How many low bits an extension takes, and whether it goes on with the sign.
EXTENSIONS = {"extsb": (8, True), "extub": (8, False), "extsh": (16, True), "extuh": (16, False), "extsw": (32, True),
              "extuw": (32, False)}
LOADS = {"loadsb": (8, True), "loadub": (8, False), "loadsh": (16, True), "loaduh": (16, False),
         "loadsw": (32, True), "loadw": (32, False), "loaduw": (32, False), "loadl": (64, False)}
BINARY: dict[str, Callable[[int, int], int]] = {
    "add": lambda one, other: one + other, "sub": lambda one, other: one - other,
    "mul": lambda one, other: one * other, "and": lambda one, other: one & other,
    "or": lambda one, other: one | other, "xor": lambda one, other: one ^ other}


def extended(value: int, bits: int, is_signed: bool) -> int:
    low = value & ((1 << bits) - 1)
    return low - (1 << bits) if is_signed and low >> (bits - 1) else low


def shifted(operation: str, value: int, by: int, bits: int) -> int:
    by &= bits - 1
    if operation == "shl":
        return value << by
    return extended(value, bits, operation == "sar") >> by


class Guesses:
    """What each instruction makes of its operands, as far as that is worked out; 0 for all else."""

    def __init__(self, table: Table):
        self.program = table.program

    def operand(self, text: str) -> Guess:
        if text.startswith("%"):
            return lambda values, _: values.get(text, 0)
        constant = self.program.addresses[text] if text.startswith("$") else int(text) & LONG
        return lambda values, _: constant

    def cut(self, kind: str | None, guess: Guess) -> Guess:
        mask = LONG if kind == "l" else WORD
        return lambda values, memory: guess(values, memory) & mask

    def of(self, instruction: Instruction) -> Guess:
        """Of an instruction's result."""
        return self.cut(instruction.type, self.whole(instruction))

    def whole(self, instruction: Instruction) -> Guess:
        operation, bits = instruction.operation, 64 if instruction.type == "l" else 32
        given = [self.operand(each.text) for each in instruction.operands]
        if operation in BINARY:
            make = BINARY[operation]
            return lambda values, memory: make(given[0](values, memory), given[1](values, memory))
        if operation in ("shl", "shr", "sar"):
            return lambda values, memory: shifted(operation, given[0](values, memory), given[1](values, memory), bits)
        if operation == "neg":
            return lambda values, memory: -given[0](values, memory)
        if operation == "copy":
            return given[0]
        if operation in EXTENSIONS:
            return lambda values, memory: extended(given[0](values, memory), *EXTENSIONS[operation])
        if operation in LOADS:
            return lambda values, memory: extended(memory.get(given[0](values, memory), 0), *LOADS[operation])
        return self.none

    def between(self, table: Table, here: int, there: int) -> list[tuple[str, Guess]]:
        """The temporaries that a move sets, each with what is guessed of it."""
        instruction, (name, label, index, _) = table.places[here][3], table.places[there]
        function = self.program.functions[name]
        return [(result, self.set_by(instruction, table.places[here][1], function, label, index, result))
                for result in table.set_by(here, there)]

    def set_by(self, instruction: Instruction, way: str, function: Function, label: str, index: int,
               result: str) -> Guess:
        if instruction.operation == "ret":
            kind = function.at(label, index - 1).type
            return self.cut(kind, self.operand(instruction.operands[0].text)) if instruction.operands else self.none
        if instruction.operation == "call" and (label, index) == (function.first, 0):
            at = max(n for n, (_, name) in enumerate(function.parameters) if name == result)
            given = instruction.operands[at + 1:at + 2]
            return self.cut(function.parameters[at][0], self.operand(given[0].text)) if given else self.none
        if instruction.labels:
            phi = [each for each in function.blocks[label].phis if each.result == result][-1]
            return self.cut(phi.type, self.operand(phi.operands[phi.labels.index(way)].text))
        return self.of(instruction)

    @staticmethod
    def none(values: Values, memory: Memory) -> int:
        return 0


class Walk:
    """Goes along a run with the values of all frames, and gives what each value differs by from what is guessed."""

    def __init__(self, gathering: Gathering):
        self.gathering, self.table = gathering, gathering.table
        self.guesses = Guesses(self.table)
        self.frames: list[Values] = [{}]
        self.memory: Memory = {}
        self.steps: dict[tuple[int, int], list[tuple[str, Guess]]] = {}
        self.values = iter(gathering.values)

    def residues(self) -> Iterator[int]:
        places, pokes, end = self.gathering.places, self.gathering.pokes, self.table.end
        given = self.table.parameters_asked(self.table.places[places[0]][0])
        yield from self.kept(given, [0] * len(given))
        for move in range(len(places) - 1):
            here, there = places[move], places[move + 1]
            if there == end:
                continue
            if move not in pokes:
                yield from self.moved(here, there)
            elif pokes[move].startswith("set "):
                yield from self.kept([pokes[move].split(" ")[1]], [0])

    def moved(self, here: int, there: int) -> Iterator[int]:
        steps = self.steps.get((here, there))
        if steps is None:
            steps = self.steps[here, there] = self.guesses.between(self.table, here, there)
        instruction, values = self.table.places[here][3], self.frames[-1]
        guessed = [guess(values, self.memory) for _, guess in steps]
        if instruction.operation in STORED:
            value, address = (self.guesses.operand(each.text)(values, self.memory) for each in instruction.operands)
            if address <= WORD:
                self.memory[address] = value
        elif instruction.operation == "ret":
            self.frames.pop()
        elif instruction.operation == "call" and self.table.is_entry(there):
            self.frames.append({})
        return self.kept([name for name, _ in steps], guessed)

    def kept(self, names: Sequence[str], guessed: Sequence[int]) -> Iterator[int]:
        target = self.frames[-1]
        for name, guess in zip(names, guessed):
            target[name] = next(self.values)
            yield target[name] ^ guess


def halves_of(values: array[int]) -> bytes:
    """All low halves, then all high ones."""
    halves = memoryview(values.tobytes()).cast("I")
    return halves[::2].tobytes() + halves[1::2].tobytes()


def kept_of(gathering: Gathering) -> bytes:
    """The parts of a run that is whole, with what is kept of its values, and the sum that these must have."""
    begun, places, unset, ended, count = b"", b"", array("I"), b"", 0
    for part in gathering.parts:
        letter, content = part[:1], part[5:]
        if letter == b"P":
            places += content
        elif letter == b"V":
            count, last = count + len(content) // 8, count
        elif letter == b"U":
            unset.extend(last + index for index in array("I", content))
        elif letter == b"E":
            told = {**json.loads(content), "sum": zlib.crc32(halves_of(gathering.values))}
            ended = part_of(b"E", json.dumps(told).encode())
        else:
            begun += part
    residues = halves_of(array("Q", Walk(gathering).residues()))
    return begun + part_of(b"P", places) + part_of(b"V", residues) + part_of(b"U", unset.tobytes()) + ended


def part_of(letter: bytes, content: bytes) -> bytes:
    return letter + struct.pack("<I", len(content)) + content
