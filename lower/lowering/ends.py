"""What runs before and after the entry: the functions of the sections `.preinit_array`, `.init_array` and
`.fini_array`, as with a linker and a C library, and those of `atexit`."""
from __future__ import annotations

from typing import TYPE_CHECKING, NamedTuple

from terminal.reading.tree import Block, Call, Data, Function, Item, Jump, Text, Value

from .symbols import Symbol, Unit, carried_class, references

if TYPE_CHECKING:
    from .linking import Program

SECTIONS = (".preinit_array", ".init_array", ".fini_array")
# A section without a number comes behind those that have one.
LAST = 1 << 16
HANDLERS = ("$atexit",)
# The name by which the function in the place of an entry calls it.
INNER = "$entry.itself"
EXIT, FINALIZED, FINALIZERS, ARRAY = "$exit", "$exit.finalized", "$run.finalizers", "$run.array"


class Placed(NamedTuple):
    """A function in a section, by its number."""

    number: int
    symbol: Symbol


def section_of(data: Data) -> tuple[str, int] | None:
    """The section of an object that is one of these, and its number."""
    for section in SECTIONS:
        name = data.section or ""
        if name == section:
            return section, LAST
        if name.startswith(section + "."):
            number = name[len(section) + 1:]
            return section, int(number) if number.isdecimal() else LAST
    return None


def array_names(section: str) -> tuple[str, str]:
    """The globals that a linker defines for a section: where it begins and where it ends."""
    return f"$__{section[1:]}_start", f"$__{section[1:]}_end"


def uses_finalizers(program: Program) -> bool:
    """Whether a text has something to run after the entry."""
    for unit in program.units:
        for definition in unit.text.definitions:
            if isinstance(definition, Function):
                if any(name in definition.callees | definition.addresses for name in HANDLERS):
                    return True
            elif (section_of(definition) or ("",))[0] == SECTIONS[2]:
                return True
    return False


class Ends:
    """The functions that run before the entry of a program and after it."""

    def __init__(self, program: Program):
        self.program = program
        self.first: list[Symbol] = []
        self.finalizers: Symbol | None = None

    def of(self, section: str) -> list[Symbol]:
        """The functions of a section, in the texts that something is kept of, in a linker's order."""
        program, found = self.program, []
        kept = {symbol.unit for symbol in program.kept}
        for unit in program.units:
            for definition in unit.text.definitions if unit in kept else []:
                placed = section_of(definition) if isinstance(definition, Data) else None
                if isinstance(definition, Data) and placed and placed[0] == section:
                    symbols = [program.resolve(unit, str(item.value)) for item in definition.items if item.is_global]
                    found += [Placed(placed[1], symbol) for symbol in symbols if symbol.is_function()]
        return [placed.symbol for placed in sorted(found, key=lambda placed: placed.number)]

    def keep(self) -> None:
        """Keeps what runs before and after, and what that needs."""
        program = self.program
        while True:
            before = len(program.kept)
            program.keep([symbol for section in SECTIONS for symbol in self.of(section)])
            self.fill_arrays()
            if program.uses_finalizers:
                self.finalizers = program.runtime.symbol(FINALIZERS)
                self.fill_calls()
                program.keep([self.finalizers])
            if len(program.kept) == before:
                break
        start = program.runtime.symbol(array_names(SECTIONS[1])[0])
        # A text that runs through the array itself calls what stands in it.
        self.first = [] if start in program.kept else self.of(SECTIONS[0]) + self.of(SECTIONS[1])

    def fill_arrays(self) -> None:
        """Fills the arrays that a text names, and keeps beginning and end together."""
        program = self.program
        for section in SECTIONS:
            start, end = (program.runtime.symbol(name) for name in array_names(section))
            if start not in program.kept and end not in program.kept:
                continue
            names = self.given_names(start, section)
            array = start.definition
            if isinstance(array, Data):
                array.items = [Item(array.line, "l", name, True) for name in names]
                array.addresses = set(names)
            program.keep([start, end])

    def given_names(self, user: Symbol, section: str) -> list[str]:
        """Names by which the runtime's text knows the functions of a section."""
        names = []
        for number, symbol in enumerate(self.of(section)):
            names.append(f"${section[1:]}.{number}")
            user.home().scope[names[-1]] = symbol
        return names

    def fill_calls(self) -> None:
        """Fills the function that calls those of `.fini_array`, the last one first."""
        array = self.program.runtime.symbol(ARRAY)
        names = self.given_names(array, SECTIONS[2])[::-1]
        function = array.definition
        if not isinstance(function, Function):
            return
        function.callees = set(names)
        function.blocks[0].instructions = [
            Call(function.line, None, None, None, name, zeros(array.home().scope[name]), None, None) for name in names]


def is_named(program: Program, symbol: Symbol) -> bool:
    """Whether a definition of the texts names a function, which so may run again."""
    return any(symbol.raw in references(definition) and program.resolve(unit, symbol.raw) is symbol
               for unit in program.units for definition in unit.text.definitions)


def has_ends(program: Program) -> bool:
    """Whether a text has something to run before or after the entry."""
    return program.uses_finalizers or any(isinstance(definition, Data) and section_of(definition)
                                          for unit in program.units for definition in unit.text.definitions)


def wrapped(program: Program, entry: Symbol) -> Symbol:
    """A function in the place of an entry that may be called again, so that its arguments are set only once, and that
    the functions before and after it run only once."""
    function = entry.definition
    assert isinstance(function, Function)
    unit = Unit(Text(entry.home().text.path, [], {}, []), False)
    unit.scope[INNER] = entry
    result = "%given" if function.returns else None
    arguments: list[tuple[str, Value]] = [(kind, name) for kind, name in function.parameters]
    call = Call(function.line, None, result, function.returns, INNER, arguments, None, None)
    block = Block(function.line, "@start", [], [call], Jump(function.line, None, "ret", result, ()))
    outer = Function(function.line, entry.raw, True, function.returns, list(function.parameters), None, False, [block],
                     function.aggregates, {INNER}, set(), [block])
    symbol = Symbol(entry.raw, unit, outer, entry.signature)
    unit.own[entry.raw] = program.exported[entry.raw] = symbol
    program.keep([symbol])
    return symbol


def zeros(symbol: Symbol) -> list[tuple[str, Value]]:
    """Arguments for a function that is called without any."""
    return [(carried_class(kind), 0) for kind in symbol.signature.parameters] if symbol.signature else []
