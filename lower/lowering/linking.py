"""Makes one program of several texts: what each name stands for, and what is kept of it.

What isn't exported is known only in its own text. A name that a text doesn't define is what another text exports, else
what the runtime has, else built in, else a function from outside, which halts.
"""
from collections.abc import Iterable

from terminal.reading.refusals import Refused
from terminal.reading.tree import Block, Call, Data, Definition, Function, Text, Value

from .aliases import OTHERS
from .calls_of_system import ANSWERED, ANSWERED_WITH_FILES, CALLERS, told
from .ends import EXIT, FINALIZED, Ends, uses_finalizers
from .families import HEAP_NAMES, OF_ONE_HEAP, Families, calls_of, constant, stored_data
from .folders import FILES, folders_of
from .names import Names
from .report import Report, Weight
from .runtime import Runtime
from .symbols import BUILT_IN, Symbol, Unit, references, signature_at, signature_of

# What the mathematical library of C has beyond what is exact here.
INEXACT = frozenset(f"${name}{end}" for end in ("", "f") for name in "j0 j1 jn y0 y1 yn".split())
# The runtime's own function in the place of the built-in one, where its result or its address is used.
COUNTED_PUTS = "$puts.counted"


class Program:
    """The symbols of the texts; `kept` are those that are written, in the order in which they were met."""

    def __init__(self, texts: list[Text], report: Report):
        self.report = report
        folders = folders_of(texts)
        self.opens_files = FILES in folders
        self.runtime = Runtime(folders)
        self.names = Names()
        self.kept: dict[Symbol, None] = {}
        self.exported: dict[str, Symbol] = {}
        self.outside: dict[str, Symbol] = {}
        self.built_in = {raw: Symbol(raw, None, None, signature, True, raw) for raw, signature in BUILT_IN.items()}
        self.replaced: dict[Symbol, Symbol] = {}
        self.units = [self.unit_of(text) for text in texts]
        # The data of a text that is stored to by its name.
        self.stored: dict[Unit, set[str]] = {}
        # What can be reached from the entry; without an entry all.
        self.reached: dict[Symbol, None] = {}
        self.uses_finalizers = uses_finalizers(self)
        self.ends = Ends(self)
        self.replace_families()

    def unit_of(self, text: Text) -> Unit:
        unit = Unit(text, False)
        for definition in text.definitions:
            signature = signature_of(definition, False) if isinstance(definition, Function) else None
            symbol = Symbol(definition.name, unit, definition, signature)
            unit.own[definition.name] = symbol
            if definition.is_exported:
                self.export(symbol)
        return unit

    def export(self, symbol: Symbol) -> None:
        known = self.exported.setdefault(symbol.raw, symbol)
        if known is not symbol:
            first = f"{known.home().text.path}:{known.defined().line}"
            raise Refused(symbol.home().text.path, symbol.defined().line,
                          f"{symbol.raw} is exported a second time, after {first}")

    # What names stand for.

    def resolve(self, unit: Unit, raw: str) -> Symbol:
        symbol = unit.scope.get(raw)
        if symbol is None:
            symbol = self.exported.get(raw) if unit.is_runtime and raw in HEAP_NAMES else None
            is_covered = unit.is_runtime and self.runtime.is_covered(raw)
            symbol = symbol or (None if is_covered else unit.own.get(raw)) or self.resolve_beyond(unit, raw)
            symbol = self.replaced.get(symbol, symbol)
            unit.scope[raw] = symbol
        return symbol

    def resolve_beyond(self, unit: Unit, raw: str) -> Symbol:
        if unit.is_runtime:
            return self.built_in.get(raw) or self.runtime.symbol(raw)
        found = self.exported.get(raw)
        if found is None and raw in OTHERS:
            return self.resolve_beyond(unit, OTHERS[raw])
        if found is None and not (raw in OF_ONE_HEAP and self.has_own_heap()):
            found = self.runtime.offered(raw) or self.built_in.get(raw)
        if raw == EXIT and found is self.built_in[EXIT] and self.uses_finalizers:
            found = self.runtime.symbol(FINALIZED)
        if found is None:
            found = self.outside.setdefault(raw, Symbol(raw, None, None, None))
        return found

    def has_own_heap(self) -> bool:
        """Whether the blocks are those of a malloc of the texts."""
        own = self.exported.get("$malloc")
        return own is not None and own not in self.replaced

    def refer(self, unit: Unit, raw: str, as_address: bool) -> Symbol:
        """What a name stands for where it isn't called for its effect alone."""
        symbol = self.resolve(unit, raw)
        if as_address and symbol is self.built_in["$puts"] and not unit.is_runtime:
            return self.runtime.symbol(COUNTED_PUTS)
        return symbol

    def runtime_symbol(self, raw: str) -> Symbol:
        """A function of the runtime that the text doesn't name: it is kept from here on."""
        symbol = self.runtime.symbol(raw)
        self.keep([symbol])
        self.give_names()
        return symbol

    def address_name(self, unit: Unit, raw: str) -> str:
        symbol = self.refer(unit, raw, True)
        if not symbol.name:
            self.keep([symbol])
            self.give_names()
        return symbol.name

    def called(self, unit: Unit, call: Call) -> Symbol | None:
        """The function that a call names, or None where it is known by its address alone."""
        if type(call.target) is not str or call.target[0] != "$":
            return None
        symbol = self.refer(unit, call.target, call.result is not None)
        if symbol.is_data():
            return None
        if symbol.signature is None:
            symbol.signature = signature_at(call)
        if not symbol.name:
            self.keep([symbol])
            self.give_names()
        return symbol

    # What is kept.

    def references_of(self, symbol: Symbol) -> Iterable[Symbol]:
        if symbol.definition is None:
            return []
        return [self.resolve(symbol.home(), raw) for raw in sorted(references(symbol.definition))]

    def reached_from(self, symbols: Iterable[Symbol], beside: Iterable[Symbol] = ()) -> dict[Symbol, None]:
        """What these name, and what that names, and so on; not by way of those beside."""
        reached = dict.fromkeys(symbols)
        todo = list(reached)
        while todo:
            for symbol in self.references_of(todo.pop()):
                if symbol not in reached:
                    reached[symbol] = None
                    if symbol not in beside:
                        todo.append(symbol)
        return reached

    def keep(self, symbols: Iterable[Symbol]) -> None:
        for symbol in self.reached_from(symbol for symbol in symbols if symbol not in self.kept):
            self.kept[symbol] = None

    def keep_from(self, entry: Symbol) -> None:
        """Keeps what is reachable from the entry, and what runs before and after it."""
        self.keep([entry])
        self.ends.keep()

    def give_names(self) -> None:
        """Names for all that is kept and has none: first those with no other choice."""
        nameless = [symbol for symbol in self.kept if not symbol.name]
        # What the runtime calls as built in can't be hidden by a definition of the same name.
        self.names.taken.update(symbol.name for symbol in self.kept if symbol.is_built_in)
        for symbol in sorted(nameless, key=lambda symbol: name_order(symbol, self)):
            symbol.name = self.names.give(symbol.raw)
            if symbol.name != symbol.raw:
                self.report.count("names that were changed")
                if symbol.unit is not None and not symbol.is_of_runtime():
                    self.report.note(symbol.unit.text.path, symbol.defined().line,
                                     f"{symbol.raw} is written as {symbol.name}")

    # What would halt.

    def replace_families(self) -> None:
        """Of functions that share state all are replaced by the runtime's where one can't be the text's own."""
        families = Families(self)
        found = families.replaced()
        self.left_state = {symbol for replaced in found for symbol in families.state[replaced.symbol]}
        self.replaced = {replaced.symbol: self.runtime.symbol(replaced.symbol.raw) for replaced in found}
        for unit in [*self.units, *self.runtime.units.values()]:
            unit.scope.clear()
        self.outside.clear()
        self.report.count("functions that need the system, replaced by the runtime's", len(found))
        for symbol, why in found:
            self.report.note(symbol.home().text.path, symbol.defined().line,
                             f"{symbol.raw} {why}: the runtime's is taken", Weight.OTHER)

    def note_state_left(self) -> None:
        """A note for each function that is kept and looks at what a replaced one changed."""
        for user in self.kept:
            if user.is_data() or user.unit is None or user.is_of_runtime() or not self.left_state:
                continue
            shared = next((symbol for symbol in self.references_of(user) if symbol in self.left_state), None)
            if shared is not None:
                self.report.note(user.unit.text.path, user.defined().line,
                                 f"{user.raw} uses {shared.raw}, which functions that were replaced don't change",
                                 Weight.OTHER)

    def stored_in(self, unit: Unit) -> set[str]:
        if unit not in self.stored:
            self.stored[unit] = stored_data(unit.text.definitions)
        return self.stored[unit]

    def note_calls_of_system(self) -> None:
        """A note for each call of the system that can be reached, by a number that isn't answered."""
        answered = ANSWERED_WITH_FILES if self.opens_files else ANSWERED
        for user in self.reached:
            if not isinstance(user.definition, Function) or user.is_of_runtime():
                continue
            unit = user.home()
            for call in calls_of(user.definition):
                target = call.target
                if isinstance(target, str) and target in CALLERS and call.arguments and \
                        self.resolve(unit, target).is_of_runtime():
                    number = constant(user.definition, call.arguments[0][1])
                    if number is not None and number not in answered:
                        self.report.note(unit.text.path, call.line, told(number), Weight.OTHER)

    def weight_in(self, symbol: Symbol) -> Weight:
        """What it means that something halts in what a symbol stands for."""
        return Weight.HALTS if symbol in self.reached else Weight.OTHER

    def note_outside(self) -> None:
        """A note for each function from outside, at its first use in the texts: one that can be reached, if there is
        one."""
        told: set[Symbol] = set()
        order = {unit: number for number, unit in enumerate(self.units)}
        users = [user for user in self.kept if user.unit in order]
        users.sort(key=lambda user: (user not in self.reached, order[user.home()], user.defined().line))
        for user in users:
            fresh = [symbol for symbol in self.references_of(user) if symbol.is_outside() and symbol not in told]
            lines = lines_of_use(user.defined()) if fresh else {}
            for symbol in sorted(fresh, key=lambda symbol: lines[symbol.raw]):
                why = "isn't exact, so that the runtime doesn't have it" if symbol.raw in INEXACT else \
                    "is defined nowhere"
                self.report.note(user.home().text.path, lines[symbol.raw], f"{symbol.raw} {why}: a function that halts",
                                 self.weight_in(symbol))
            told.update(fresh)
        self.report.count("functions from outside, which halt", len(told))


def name_order(symbol: Symbol, program: Program) -> int:
    """Functions from outside and exported ones keep their names before the others of the texts, these before the
    runtime's."""
    if symbol.is_outside() or program.exported.get(symbol.raw) is symbol:
        return 0
    return 2 if symbol.is_of_runtime() else 1


def lines_of_use(definition: Definition) -> dict[Value | None, int]:
    """The line at which a definition first names each global."""
    named: list[tuple[Value | None, int]]
    if isinstance(definition, Data):
        named = [(item.value, item.line) for item in definition.items if item.is_global]
    else:
        named = [(value, line) for block in definition.blocks for value, line in values_of(block)]
    found: dict[Value | None, int] = {}
    for value, line in named:
        found.setdefault(value, line)
    return found


def values_of(block: Block) -> Iterable[tuple[Value | None, int]]:
    """All values of a block, and their lines."""
    for phi in block.phis:
        yield from ((value, phi.line) for _, value in phi.sources)
    for instruction in block.instructions:
        if isinstance(instruction, Call):
            yield instruction.target, instruction.line
            yield instruction.environment, instruction.line
            yield from ((value, instruction.line) for _, value in instruction.arguments)
        else:
            yield from ((value, instruction.line) for value in instruction.operands)
    yield block.jump.value, block.jump.line
