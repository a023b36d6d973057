"""The rules of a program, whether it is in SSA form, and the addresses of its names."""
from __future__ import annotations

from collections.abc import Callable, Iterable, Iterator, Sequence

from .tokens import Refused
from .tree import (
    ALLOCS, COMPARISONS, EXTENSIONS, LOADS, SHIFTS, Func, Items, Jump, Part, Phi, Program, class_of, values_of)

BUILT_INS = {"putchar": 1024, "puts": 1040, "exit": 1056}
FUNCTIONS, DATA, STACK = 4096, 65536, 2**24
MOST_BYTES = 2**20
MOST_FUNCTIONS, MOST_IN_ONE = 1000, 65535

# The lines at which a program breaks a rule; and a rule with its code.
Lines = Callable[[Program], Iterable[int]]
Rule = tuple[str, Lines]


def check(program: Program) -> None:
    """Refuses a program that breaks a rule: the lowest that is broken, at its first place."""
    for rule in (twice_named, twice_labelled, unknown_label, jump_to_first, two_classes, undefined, narrow, wrong_phi,
                 unknown_global, value_without_type, narrow_result, too_many):
        code, lines = rule
        for line in lines(program):
            raise Refused(code, line)


def rule(code: str) -> Callable[[Lines], Rule]:
    return lambda lines: (code, lines)


def parts(func: Func) -> Iterator[Part]:
    """Phis, instructions and jumps in the order of the text."""
    for block in func.blocks:
        yield from block.parts()


def labels_of(part: Part) -> list[str]:
    if isinstance(part, Jump):
        return part.labels
    return [label for label, _ in part.sources] if isinstance(part, Phi) else []


def repeated(names: Iterable[tuple[str, int]]) -> Iterator[int]:
    seen: set[str] = set()
    for name, line in names:
        if name in seen:
            yield line
        seen.add(name)


@rule("C1")
def twice_named(program: Program) -> Iterator[int]:
    return repeated((item.name, item.line) for item in program.order)


@rule("C2")
def twice_labelled(program: Program) -> Iterator[int]:
    for func in program.funcs:
        yield from repeated((block.label, block.line) for block in func.blocks)


@rule("C3")
def unknown_label(program: Program) -> Iterator[int]:
    for func in program.funcs:
        known = {block.label for block in func.blocks}
        for part in parts(func):
            if not known.issuperset(labels_of(part)):
                yield part.line


@rule("C4")
def jump_to_first(program: Program) -> Iterator[int]:
    for func in program.funcs:
        for block in func.blocks:
            if func.blocks[0].label in block.jump.labels:
                yield block.jump.line


@rule("C5")
def two_classes(program: Program) -> Iterator[int]:
    for func in program.funcs:
        classes: dict[str, str] = {}
        for name, class_, line in func.definitions():
            if classes.setdefault(name, class_) != class_:
                yield line


@rule("C6")
def undefined(program: Program) -> Iterator[int]:
    for func in program.funcs:
        defined = {name for name, _, _ in func.definitions()}
        for part in parts(func):
            for value in values_of(part):
                if value.kind == "temp" and value.value not in defined:
                    yield value.line


def wanted(func: Func, part: Part) -> Sequence[str | None]:
    """The class that is wanted of each operand, in their order; None where any will do."""
    if isinstance(part, Jump):
        return ["w"] if part.kind == "jnz" else [func.type and class_of(func.type)] if part.kind == "ret" else []
    if isinstance(part, Phi):
        return [part.type] * len(part.sources)
    op = part.op
    if op == "call":
        return ["l"] + [class_of(type_) for type_, _ in part.arguments]
    if op in SHIFTS:
        return [part.type, "w"]
    if op in COMPARISONS:
        return [op[-1]] * 2
    if op in EXTENSIONS:
        return ["w"]
    if op in LOADS or op in ALLOCS:
        return ["l"]
    if op in ("storel", "blit"):
        return ["l", "l"]
    if op.startswith("store"):
        return ["w", "l"]
    return [part.type] * len(part.operands)


@rule("C7")
def narrow(program: Program) -> Iterator[int]:
    for func in program.funcs:
        classes = {name: class_ for name, class_, _ in func.definitions()}
        for part in parts(func):
            for value, class_ in zip(values_of(part), wanted(func, part)):
                if class_ == "l" and value.kind == "temp" and classes[value.name()] == "w":
                    yield value.line


@rule("C8")
def wrong_phi(program: Program) -> Iterator[int]:
    for func in program.funcs:
        before: dict[str, set[str]] = {block.label: set() for block in func.blocks}
        for block in func.blocks:
            for label in block.jump.labels:
                before[label].add(block.label)
        for block in func.blocks:
            for phi in block.phis:
                labels = labels_of(phi)
                if len(set(labels)) != len(labels) or set(labels) != before[block.label]:
                    yield phi.line


@rule("C9")
def unknown_global(program: Program) -> Iterator[int]:
    known = {item.name for item in program.order} | set(BUILT_INS)
    for item in program.order:
        if isinstance(item, Func):
            for part in parts(item):
                for value in values_of(part):
                    if value.kind == "global" and value.value not in known:
                        yield value.line
        else:
            for letter, items in item.fields:
                if letter == "l" and not isinstance(items, int) and any(
                        isinstance(one, tuple) and one[0] not in known for one in items):
                    yield item.line


@rule("C10")
def value_without_type(program: Program) -> Iterator[int]:
    for func in program.funcs:
        for block in func.blocks:
            if block.jump.kind == "ret" and block.jump.value and func.type is None:
                yield block.jump.line


@rule("C11")
def narrow_result(program: Program) -> Iterator[int]:
    for func in program.funcs:
        for block in func.blocks:
            for inst in block.insts:
                if inst.op in ("extsw", "extuw", "loadl") + ALLOCS and inst.type != "l":
                    yield inst.line


@rule("C12")
def too_many(program: Program) -> Iterator[int]:
    for number, func in enumerate(program.funcs):
        temps = {name for name, _, _ in func.definitions()}
        if number >= MOST_FUNCTIONS or len(temps) > MOST_IN_ONE or len(func.blocks) > MOST_IN_ONE:
            yield func.line


def form(program: Program) -> tuple[str, str] | None:
    """None where each temporary has one definition, else a function and the temporary that is defined again first."""
    for func in program.funcs:
        seen: set[str] = set()
        for name, _, _ in func.definitions():
            if name in seen:
                return func.name, name
            seen.add(name)
    return None


def layout(program: Program) -> tuple[dict[str, int], bytes]:
    """Where each name lies, and the bytes of the data."""
    at, places = DATA, []
    for item in program.datas:
        align = 16 if item.align is None else item.align
        if align not in [2**n for n in range(13)]:
            raise Refused("Y2", item.line)
        at = -(-at // align) * align
        places.append(at)
        at += sum(size(letter, items) for letter, items in item.fields)
        if at > DATA + MOST_BYTES:
            raise Refused("Y1", item.line)
    addresses = dict(BUILT_INS)
    addresses.update((func.name, FUNCTIONS + 16 * n) for n, func in enumerate(program.funcs))
    addresses.update((item.name, place) for item, place in zip(program.datas, places))
    data = bytearray(at - DATA)
    for item, place in zip(program.datas, places):
        for letter, items in item.fields:
            piece = bytes_of(letter, items, addresses)
            data[place - DATA:place - DATA + len(piece)] = piece
            place += len(piece)
    return addresses, bytes(data)


WIDTHS = {"b": 1, "h": 2, "w": 4, "l": 8}


def size(letter: str, items: Items) -> int:
    if isinstance(items, int):
        return items
    return sum(len(one) if isinstance(one, bytes) else WIDTHS[letter] for one in items)


def bytes_of(letter: str, items: Items, addresses: dict[str, int]) -> bytes:
    if isinstance(items, int):
        return bytes(items)
    pieces = []
    for one in items:
        if isinstance(one, bytes):
            pieces.append(one)
            continue
        value = addresses[one[0]] + one[1] if isinstance(one, tuple) else one
        pieces.append((value % 2**(8 * WIDTHS[letter])).to_bytes(WIDTHS[letter], "little"))
    return b"".join(pieces)
