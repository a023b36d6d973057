"""Functions that share state, such as an allocator's, and that the runtime has too: all are the text's own, or all the
runtime's.

A definition of the text has precedence over the runtime's. But if one of a family calls a function from outside, or
asks the system for more memory at once than there is, the whole family is the runtime's: a block of one heap given back
to another would be a fault that the program doesn't have.
"""
from __future__ import annotations

from collections.abc import Callable, Iterator
from typing import TYPE_CHECKING, NamedTuple

from terminal.reading.instructions import STORES
from terminal.reading.tree import Call, Data, Function, Instruction, Value

from .runtime import is_offered
from .symbols import Symbol, references

if TYPE_CHECKING:
    from .linking import Program

HEAP = (
    "$malloc $calloc $realloc $free $reallocarray $aligned_alloc $posix_memalign $memalign $malloc_usable_size".split(),
    "$rt.malloc $rt.calloc $rt.realloc $rt.free".split())
HEAP_NAMES = frozenset(HEAP[0] + HEAP[1])
# What the runtime makes of its own heap alone, so that it isn't there beside a malloc of the text's own.
OF_ONE_HEAP = frozenset("$aligned_alloc $posix_memalign $memalign $malloc_usable_size".split())
# What programs name functions of their own that have nothing to do with the library's.
NAMED_BY_PROGRAMS = frozenset(
    "$error $err $errx $warn $warnx $verr $verrx $vwarn $vwarnx $basename $dirname $system $finite".split())
# What gives memory of the system.
MAPPING = frozenset(("$mmap", "$brk", "$sbrk", "$syscall", "$rt.syscall1", "$rt.syscall6"))
# A mapping of more bytes isn't given twice, and a number above the other is no size.
LARGEST_MAPPING, MOST_SIZE = 1 << 19, 1 << 40


class Replaced(NamedTuple):
    """A function in whose place the runtime's is taken, and why."""

    symbol: Symbol
    why: str


class Families:
    """The families of a program's exported functions that the runtime has too."""

    def __init__(self, program: Program):
        self.program = program
        self.candidates = [symbol for symbol in program.exported.values()
                           if symbol.raw in program.runtime.places and is_offered(symbol.raw) and symbol.is_function()
                           and symbol.raw not in NAMED_BY_PROGRAMS]
        self.beside = set(self.candidates)
        self.named = {raw for unit in program.units for definition in unit.text.definitions
                      for raw in references(definition) if raw not in unit.own}
        self.reached = {symbol: program.reached_from([symbol], self.beside) for symbol in self.candidates}
        self.state = {symbol: {other for other in self.reached[symbol] if self.is_state(other)}
                      for symbol in self.candidates}

    def replaced(self) -> list[Replaced]:
        found = []
        for family in self.families():
            causes = {symbol: why for symbol in family if (why := self.why_not_own(symbol))}
            for symbol in family if causes else []:
                first = next(iter(causes))
                found.append(Replaced(symbol, causes.get(symbol, f"shares state with {first.raw}")))
        return found

    def families(self) -> list[list[Symbol]]:
        """The candidates, with those together that belong to one heap or use the same data that changes."""
        family_of: dict[Symbol, list[Symbol]] = {}
        for symbol in self.candidates:
            joined = [symbol]
            for other in list(family_of):
                if other not in joined and self.is_shared(symbol, other):
                    joined = family_of[other] + joined
            for member in joined:
                family_of[member] = joined
        unique = {id(family): family for family in family_of.values()}
        return [sorted(family, key=lambda symbol: symbol.raw) for family in unique.values()]

    def is_shared(self, one: Symbol, other: Symbol) -> bool:
        if any(one.raw in names and other.raw in names for names in HEAP):
            return True
        return not self.state[one].isdisjoint(self.state[other])

    def is_state(self, symbol: Symbol) -> bool:
        """Whether data of a text changes: it is zero when the program begins, or stored to by its name."""
        definition = symbol.definition
        if not isinstance(definition, Data) or symbol.is_of_runtime():
            return False
        return all(item.letter == "z" or item.value == 0 for item in definition.items) or \
            symbol.raw in self.program.stored_in(symbol.home())

    def why_not_own(self, symbol: Symbol) -> str | None:
        """Why a function of a text can't be its own, or None."""
        reached = self.reached[symbol]
        if any(other.is_outside() for other in reached):
            return "needs functions from outside"
        if symbol.raw not in HEAP_NAMES:
            return None
        lacking = self.lacking(symbol)
        if lacking:
            return f"comes without a {lacking} of the text's own"
        size = max((size for other in reached for size in self.mappings_of(other)), default=0)
        return f"asks the system for {size} bytes at once" if size > LARGEST_MAPPING else None

    def lacking(self, symbol: Symbol) -> str | None:
        """What the texts name of a heap and don't have, though they have its malloc: it couldn't know their blocks."""
        prefix, point, name = symbol.raw.rpartition(".")
        if (name or symbol.raw).lstrip("$") != "malloc":
            return None
        front = prefix + point or "$"
        wanted = [f"{front}realloc", f"{front}free"]
        return next((raw for raw in wanted if raw not in self.program.exported and raw in self.named), None)

    def mappings_of(self, symbol: Symbol) -> Iterator[int]:
        """The numbers that a function of a text gives to calls that lead to memory of the system."""
        if not isinstance(symbol.definition, Function) or symbol.is_of_runtime():
            return
        numbers = constants_of(symbol.definition, lambda raw: self.constant_data(symbol, raw))
        for call in calls_of(symbol.definition):
            given = [value if isinstance(value, int) else numbers.get(value, 0) for _, value in call.arguments]
            sizes = [size for size in given if LARGEST_MAPPING < size < MOST_SIZE]
            if sizes and type(call.target) is str and call.target[0] == "$" \
                    and self.leads_to_memory(symbol, call.target):
                yield max(sizes)

    def constant_data(self, symbol: Symbol, raw: str) -> int:
        """The number that data of a text begins with and keeps, else 0."""
        found = self.program.resolve(symbol.home(), raw)
        definition = found.definition
        if not isinstance(definition, Data) or not definition.items or self.is_state(found) or found.is_of_runtime():
            return 0
        value = definition.items[0].value
        return value if isinstance(value, int) and definition.items[0].letter == "l" else 0

    def leads_to_memory(self, symbol: Symbol, raw: str) -> bool:
        target = self.program.resolve(symbol.home(), raw)
        return any(other.raw in MAPPING for other in self.program.reached_from([target], self.beside))


def calls_of(function: Function) -> Iterator[Call]:
    for block in function.blocks:
        yield from (each for each in block.instructions if isinstance(each, Call))


def constants_of(function: Function, loaded: Callable[[str], int]) -> dict[str, int]:
    """The temporaries that are copies of a number, or loads of one that data keeps."""
    found: dict[str, int] = {}
    for block in function.blocks:
        for each in block.instructions:
            if not isinstance(each, Instruction) or not each.result or each.name not in ("copy", "loadl", "load"):
                continue
            value, is_load = each.operands[0], each.name != "copy"
            if is_load:
                value = loaded(value) if isinstance(value, str) and value[0] == "$" else 0
            if isinstance(value, int):
                found[each.result] = max(value, found.get(each.result, 0))
    return found


def constant(function: Function, value: Value) -> int | None:
    """A number, or what a temporary always is a copy of."""
    if type(value) is int:
        return value
    values = [each.operands[0] if isinstance(each, Instruction) and each.name == "copy" else None
              for block in function.blocks for each in block.instructions if each.result == value]
    return values[0] if len(values) == 1 and type(values[0]) is int else None


def stored_data(definitions: list[Function | Data]) -> set[str]:
    """The globals that are stored to by their names."""
    return {each.operands[1] for definition in definitions if isinstance(definition, Function)
            for block in definition.blocks for each in block.instructions
            if isinstance(each, Instruction) and each.name in STORES and type(each.operands[1]) is str
            and each.operands[1][0] == "$"}
