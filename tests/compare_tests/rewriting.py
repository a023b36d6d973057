"""Rewrites a program: with other temporaries, other labels, other orders of blocks and definitions."""
from __future__ import annotations

from typing import Protocol, TypeVar

from oracle.grammar import parse
from oracle.tokens import cut
from oracle.tree import Data, Func, Inst, Items, Jump, Operand, Phi, Program

Part = TypeVar("Part", Phi, Inst, Jump)
T = TypeVar("T")


class Shuffle(Protocol):
    """Puts a list into another order."""

    def __call__(self, items: list[T], /) -> None: ...


def renamed(program: Program) -> Program:
    """The program with other names of its temporaries and labels, in place."""
    for func in program.funcs:
        func.params = [(type_, "p." + name) for type_, name in func.params]
        for block in func.blocks:
            block.label = "b." + block.label
            block.phis = [with_other_names(phi) for phi in block.phis]
            block.insts = [with_other_names(inst) for inst in block.insts]
            block.ended = with_other_names(block.jump)
    return program


def operand(value: Operand) -> Operand:
    return value._replace(value="p." + value.name()) if value.kind == "temp" else value


def with_other_names(part: Part) -> Part:
    if not isinstance(part, Jump) and part.target is not None:
        part.target = "p." + part.target
    if isinstance(part, Phi):
        part.sources = [("b." + label, operand(value)) for label, value in part.sources]
    if isinstance(part, Inst):
        part.operands = [operand(value) for value in part.operands]
        part.arguments = [(type_, operand(value)) for type_, value in part.arguments]
    if isinstance(part, Jump):
        part.labels = ["b." + label for label in part.labels]
        part.value = part.value and operand(part.value)
    return part


def item_fields(letter: str, items: Items) -> list[str]:
    """The fields of the items of one field: a text is written as its bytes."""
    if isinstance(items, int):
        return [f"z {items}"]
    fields: list[str | None] = []
    for one in items:
        if isinstance(one, bytes):
            fields.append("b " + " ".join(map(str, one)) if one else None)
        elif isinstance(one, tuple):
            fields.append(f"{letter} ${one[0]}+{one[1]}" if one[1] else f"{letter} ${one[0]}")
        else:
            fields.append(f"{letter} {one}")
    return [one for one in fields if one]


def text_of(item: Func | Data) -> str:
    if isinstance(item, Data):
        align = "" if item.align is None else f"align {item.align} "
        fields = [text for letter, items in item.fields for text in item_fields(letter, items)]
        return f"data ${item.name} = {align}{{ {', '.join(fields)} }}\n"
    params = ", ".join(f"{type_} %{name}" for type_, name in item.params)
    type_ = f"{item.type} " if item.type else ""
    lines = [f"function {type_}${item.name}({params}) {{"]
    for block in item.blocks:
        lines.append(f"@{block.label}")
        lines += [f"\t{part.text()}" for part in block.parts()]
    return "\n".join(lines) + "\n}\n"


def rewritten(text: bytes, shuffle: Shuffle, keeps_order: bool = False) -> bytes:
    """The text of the same program. `shuffle` puts a list into another order."""
    program = renamed(parse(cut(text)))
    for func in program.funcs:
        others = func.blocks[1:]
        shuffle(others)
        func.blocks = func.blocks[:1] + others
    order = list(program.order)
    if not keeps_order:
        shuffle(order)
    return "".join(map(text_of, order)).encode("latin-1")
