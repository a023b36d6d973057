"""What a program consists of, and the canonical text of its phis, instructions and jumps."""
from __future__ import annotations

from collections.abc import Iterator
from dataclasses import dataclass, field
from functools import cached_property
from typing import NamedTuple, Optional, Union

TYPES = ("w", "l", "sb", "ub", "sh", "uh")
RELATIONS = ("eq", "ne", "sle", "slt", "sge", "sgt", "ule", "ult", "uge", "ugt")
COMPARISONS = tuple(f"c{relation}{letter}" for relation in RELATIONS for letter in "wl")
EXTENSIONS = ("extsw", "extuw", "extsh", "extuh", "extsb", "extub")
LOADS = ("loadl", "loadw", "loadsw", "loaduw", "loadsh", "loaduh", "loadsb", "loadub")
ALLOCS = ("alloc4", "alloc8", "alloc16")
ONE = ("neg", "copy") + EXTENSIONS + LOADS + ALLOCS
SHIFTS = ("sar", "shr", "shl")
TWO = ("add", "sub", "mul", "div", "rem", "udiv", "urem", "and", "or", "xor") + SHIFTS + COMPARISONS
STORES = ("storel", "storew", "storeh", "storeb")

# What a field of data consists of: a number, the bytes of a text, or a global and what is added to its address.
Item = Union[int, bytes, tuple[str, int]]
Items = Union[int, list[Item]]


def class_of(type_: str | None) -> str:
    return "l" if type_ == "l" else "w"


class Operand(NamedTuple):
    kind: str      # number, global, temp
    value: int | str
    line: int

    def name(self) -> str:
        assert isinstance(self.value, str)
        return self.value

    def text(self) -> str:
        return {"number": "", "global": "$", "temp": "%"}[self.kind] + str(self.value)


@dataclass
class Phi:
    line: int
    target: str
    type: str
    sources: list[tuple[str, Operand]]  # of a label

    def text(self) -> str:
        sources = ", ".join(f"@{label} {value.text()}" for label, value in self.sources)
        return f"%{self.target} ={self.type} phi {sources}"


@dataclass
class Inst:
    line: int
    op: str
    target: Optional[str] = None
    type: Optional[str] = None
    operands: list[Operand] = field(default_factory=list)  # of a call the callee alone
    arguments: list[tuple[str, Operand]] = field(default_factory=list)  # of a call, with their types
    count: int = 0  # of a blit

    def text(self) -> str:
        target = "" if self.target is None else f"%{self.target} ={self.type} "
        operands = [operand.text() for operand in self.operands]
        if self.op == "call":
            arguments = ", ".join(f"{type_} {value.text()}" for type_, value in self.arguments)
            return f"{target}call {operands[0]}({arguments})"
        if self.op == "blit":
            operands.append(str(self.count))
        return f"{target}{'loadsw' if self.op == 'loadw' else self.op} " + ", ".join(operands)


@dataclass
class Jump:
    line: int
    kind: str  # jmp, jnz, ret, hlt
    labels: list[str] = field(default_factory=list)
    value: Optional[Operand] = None
    is_written: bool = True

    def text(self) -> str:
        parts = ([self.value.text()] if self.value else []) + [f"@{label}" for label in self.labels]
        return self.kind + (" " + ", ".join(parts) if parts else "")


@dataclass
class Block:
    line: int
    label: str
    phis: list[Phi] = field(default_factory=list)
    insts: list[Inst] = field(default_factory=list)
    ended: Optional[Jump] = None  # its jump, once that was read

    @property
    def jump(self) -> Jump:
        assert self.ended is not None
        return self.ended

    def parts(self) -> list[Part]:
        """Phis, instructions and the jump, in the order of the text."""
        return [*self.phis, *self.insts, self.jump]


Part = Union[Phi, Inst, Jump]


@dataclass
class Func:
    line: int
    name: str
    type: Optional[str]
    params: list[tuple[str, str]]  # of a type and a name
    blocks: list[Block] = field(default_factory=list)

    def definitions(self) -> Iterator[tuple[str, str, int]]:
        """The temporaries that are defined, in the order of the text: name, class, line."""
        for type_, name in self.params:
            yield name, class_of(type_), self.line
        for block in self.blocks:
            for phi in block.phis:
                yield phi.target, class_of(phi.type), phi.line
            for inst in block.insts:
                if inst.target is not None:
                    yield inst.target, class_of(inst.type), inst.line

    @cached_property
    def temps(self) -> list[str]:
        """Each temporary that the text names, once, in the order in which it is first named; no part changes behind
        this."""
        names = [name for _, name in self.params]
        for block in self.blocks:
            for part in block.parts():
                if not isinstance(part, Jump) and part.target is not None:
                    names.append(part.target)
                names += [value.name() for value in values_of(part) if value.kind == "temp"]
        return list(dict.fromkeys(names))

    def block_of(self, label: str) -> Optional[int]:
        return next((i for i, block in enumerate(self.blocks) if block.label == label), None)


def values_of(part: Part) -> list[Operand]:
    """The operands of a phi, an instruction or a jump, in the order of the text."""
    if isinstance(part, Inst):
        return part.operands + [value for _, value in part.arguments] if part.arguments else part.operands
    if isinstance(part, Phi):
        return [value for _, value in part.sources]
    return [part.value] if part.value else []


@dataclass
class Data:
    line: int
    name: str
    align: Optional[int]
    fields: list[tuple[str, Items]]  # of a letter and items, which are a number for z


@dataclass
class Program:
    order: list[Func | Data]  # the definitions of both kinds as they stand in the text

    @property
    def funcs(self) -> list[Func]:
        return [item for item in self.order if isinstance(item, Func)]

    @property
    def datas(self) -> list[Data]:
        return [item for item in self.order if isinstance(item, Data)]
