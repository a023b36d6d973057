"""The rules of open bits against arithmetic that knows nothing of them: tests/oracle, which was written from the
pages.

The law: whatever the open bits of the operands are, the other bits of the result are the same. And if a rule is exact,
each open bit differs between some two fillings.
"""
from __future__ import annotations

import random
from functools import partial
from typing import Callable, Iterator

from oracle.machine import Fault, result_of

from check.shadow import BITS, MASK, open_by, open_of_difference, open_of_extension

OPERATIONS = (
    "add sub mul and or xor shl shr sar div rem udiv urem ceq cne csle cslt csge csgt cule cult cuge cugt neg "
    "extsw extuw extsh extuh extsb extub").split()
# Of these each open bit differs for some filling of the operands, unless both are open in many bits.
EXACT = frozenset("and or xor extsw extuw extsh extuh extsb extub ceq cne".split())
FILLINGS = 24
Case = tuple[str, Callable[[], str | None]]


def drawn(random_: random.Random, width: str) -> tuple[int, int]:
    """A value and its open bits, of a shape that matters: few bits, many, a part, an extreme."""
    mask = MASK[width]
    value = random_.choice((random_.getrandbits(64), random_.getrandbits(6), -random_.getrandbits(6), 0,
                            1 << BITS[width] - 1)) & mask
    some = 1 << random_.randrange(BITS[width]) | 1 << random_.randrange(BITS[width])
    bits = random_.choice((0, some, 0xff, mask & ~0xff, mask, random_.getrandbits(64))) & mask
    return value, bits


def fillings(random_: random.Random, value: int, bits: int) -> Iterator[int]:
    """Values that differ in open bits alone: the extremes first."""
    yield value & ~bits
    yield value | bits
    for _ in range(FILLINGS):
        yield value & ~bits | random_.getrandbits(64) & bits


def open_of(operation: str, width: str, a: int, oa: int, b: int, ob: int) -> int:
    if operation.startswith("ext"):
        return open_of_extension(operation, oa & MASK["w"], width)
    if operation == "neg":
        return open_of_difference(0, 0, a, oa, MASK[width])
    return open_by(f"{operation}{width}" if operation[0] == "c" else operation, width, a, oa, b, ob, False)


def operation_fault(operation: str, count: int) -> str | None:
    random_ = random.Random(f"open bits of {operation}")
    for _ in range(count):
        width = random_.choice("wl")
        (a, oa), (b, ob) = drawn(random_, width), drawn(random_, width)
        if operation in ("shl", "shr", "sar"):
            b, ob = b & MASK["w"], ob & MASK["w"]
        if not oa and not ob:
            oa = 1
        bits = open_of(operation, width, a, oa, b, ob)
        fault = filled_fault(random_, operation, width, (a, oa), (b, ob), bits)
        if fault:
            return f"{operation} of class {width}: {a:#x} with {oa:#x} open, {b:#x} with {ob:#x} open: {fault}"
    return None


def filled_fault(random_: random.Random, operation: str, width: str, left: tuple[int, int], right: tuple[int, int],
                 bits: int) -> str | None:
    """Whether results for fillings differ in another bit than those that the rule says, or in too few of them."""
    name = f"{operation}{width}" if operation[0] == "c" else operation
    is_unary = operation == "neg" or operation.startswith("ext")
    first: int | None = None
    differ = 0
    for a in fillings(random_, *left):
        for b in [0] if is_unary else fillings(random_, *right):
            try:
                found = (result_of(name, width, a) if is_unary else result_of(name, width, a, b)) & MASK[width]
            except Fault:
                # A division that ends the run has no result.
                continue
            first = found if first is None else first
            differ |= found ^ first
    if differ & ~bits:
        return f"bits {differ:#x} of the result differ, and {bits:#x} are open"
    if operation in EXACT and bits & ~differ and bin(left[1]).count("1") + bin(right[1]).count("1") <= 4:
        return f"only bits {differ:#x} of the result differ, and {bits:#x} are open"
    return None


def cases(count: int) -> Iterator[Case]:
    for operation in OPERATIONS:
        yield f"bits {operation}", partial(operation_fault, operation, count // len(OPERATIONS))
