"""What a program is given: its input, and its command line as texts, which native code finds in `argc` and `argv` of
`main`.

The debugger gives the entry numbers. So the entry is written without parameters, and sets them at its beginning: the
count, and the address of a table of texts. The first is the program's name, and 0 follows the last.
"""
import os

from terminal.reading.refusals import Refused
from terminal.reading.tree import Data, Function, Instruction, Item, Text, Value

from .runtime import Runtime
from .symbols import Signature, Symbol, Unit

TABLE = "$arguments"
# The runtime's function that gives the input, and its data.
TAKE_INPUT, INPUT, INPUT_END = "$take.input", "$input", "$input.end"
# The runtime's data with the name of the program, and with that without its folder.
NAME, SHORT_NAME = "$program.name", "$program.short.name"


def table_of(words: list[str]) -> Unit:
    """A text with the table and the words."""
    texts = [os.fsencode(word).decode("latin-1") for word in words]
    unit = Unit(Text("", [], {}, []), False)
    names = [f"$argument.{number}" for number in range(len(texts))]
    objects = {name: Data(0, name, False, None, 1, [Item(0, "b", text), Item(0, "b", 0)], set())
               for name, text in zip(names, texts)}
    items = [Item(0, "l", name, True) for name in names] + [Item(0, "l", 0)]
    objects[TABLE] = Data(0, TABLE, False, None, None, items, set(names))
    for name, definition in objects.items():
        unit.own[name] = Symbol(name, unit, definition, None)
    return unit


def takes_texts(entry: Symbol) -> bool:
    """Whether a function has the parameters of a `main` with `argc` and `argv`."""
    function = entry.definition
    return isinstance(function, Function) and [kind for kind, _ in function.parameters] == ["w", "l"] and \
        not function.has_dots and not function.environment


def give_arguments(entry: Symbol, words: list[str]) -> None:
    """Makes the entry set its parameters by itself."""
    function = entry.definition
    if not isinstance(function, Function) or len(function.parameters) > 2 or \
            any(kind not in ("w", "l") for kind, _ in function.parameters) or function.has_dots or function.environment:
        raise Refused(entry.home().text.path, entry.defined().line, f"{entry.raw} isn't a function of argc and argv")
    values: list[Value] = [len(words), TABLE]
    sets = [Instruction(function.line, None, name, kind, "copy", [value])
            for (kind, name), value in zip(function.parameters, values)]
    function.blocks[0].instructions[:0] = sets
    if len(sets) == 2:
        entry.home().scope[TABLE] = table_of(words).own[TABLE]
        function.addresses.add(TABLE)
    function.parameters = []
    entry.signature = Signature(function.returns, ())


def give_input(runtime: Runtime, given: bytes) -> None:
    """Puts the bytes that the program reads into the runtime's data."""
    if not given:
        return
    unit = runtime.symbol(TAKE_INPUT).home()
    for raw, items in ((INPUT, [Item(0, "b", given.decode("latin-1"))]),
                       (INPUT_END, [Item(0, "l", INPUT, True, len(given))])):
        definition = unit.own[raw].definition
        if isinstance(definition, Data):
            definition.items = items


def give_name(runtime: Runtime, name: str) -> None:
    """Puts the name of the program into the runtime's data, if a program has that."""
    unit = runtime.units.get(runtime.places[NAME])
    for raw, text in ((NAME, name), (SHORT_NAME, name.rpartition("/")[2])):
        definition = unit.own[raw].definition if unit else None
        if isinstance(definition, Data):
            definition.items = [Item(0, "b", os.fsencode(text).decode("latin-1")), Item(0, "b", 0)]
