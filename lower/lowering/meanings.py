"""What the names of a lowered text stand for: a file beside the text, for those who show it.

Each line is a kind and words, with tabulators between:

    outside $f                a function from outside, which halts
    runtime $f                a function of the runtime, or data of it
    instruction $f NAME C C*  the runtime's function for an instruction on floats: the classes of its result and its
                              operands
    result $f C               a function that gives a float: s or d
    float $f %x C             a temporary that holds a float
    data $x OFFSET C COUNT    floats in data, from an offset on
    cell $f %x N C            a float in a cell of memory for arguments behind dots, by the address of the first cell
    stored LINE C             a line of the text, whose store writes a constant of a float
    name NEW OLD              a temporary or a label that is written by a shorter name, in all functions
    files $x WHAT             of the files that a program opens: their table, or the address of its end
"""
from collections.abc import Iterator
from typing import TYPE_CHECKING

from terminal.reading.instructions import FLOATS, WITH_RESULT
from terminal.reading.tree import Data, Function, Instruction

from .data import size_of
from .files import FILES, FILES_END
from .functions import FLOAT_CALLS
from .symbols import Symbol

if TYPE_CHECKING:
    from .writing import Chunk

# The instruction that each function of the runtime stands for, and the class of its result.
INSTRUCTIONS = {function: (name, cls) for (name, cls), (function, _) in reversed(FLOAT_CALLS.items())}


def line(*words: str | int) -> str:
    return "\t".join(map(str, words)) + "\n"


def told_function(symbol: Symbol, function: Function) -> Iterator[str]:
    if symbol.is_of_runtime():
        yield line("runtime", symbol.name)
        if symbol.raw in INSTRUCTIONS:
            name, cls = INSTRUCTIONS[symbol.raw]
            yield line("instruction", symbol.name, name, cls, *WITH_RESULT[name, cls])
        return
    if function.returns in FLOATS:
        yield line("result", symbol.name, function.returns)
    for name, cls in function.classes.items():
        if cls in FLOATS:
            yield line("float", symbol.name, name, cls)


def told_data(symbol: Symbol, data: Data) -> Iterator[str]:
    """The floats of an object, those of one class on end together."""
    if symbol.is_of_runtime():
        yield line("runtime", symbol.name)
        if symbol.raw in (FILES, FILES_END):
            yield line("files", symbol.name, "table" if symbol.raw == FILES else "end")
    at = 0
    runs: list[tuple[int, str, int]] = []
    for item in data.items:
        if item.is_float:
            cls = "s" if item.letter == "w" else "d"
            begin, known, count = runs[-1] if runs else (0, "", 0)
            if known == cls and begin + count * size_of(item) == at:
                runs[-1] = (begin, cls, count + 1)
            else:
                runs.append((at, cls, 1))
        at += size_of(item)
    yield from (line("data", symbol.name, *run) for run in runs)


def told_stores(chunk: "Chunk", function: Function, before: int) -> Iterator[str]:
    """The stores of constants of floats, by the lines of the text, given how many lines precede the function's."""
    stores = {each.line: each.name[-1] for block in function.blocks for each in block.instructions
              if isinstance(each, Instruction) and each.name in ("stores", "stored")
              and isinstance(each.operands[0], int)}
    for index, (text, (origin, _)) in enumerate(zip(chunk.texts, chunk.origins) if stores else ()):
        if origin in stores and text.lstrip().startswith("store"):
            yield line("stored", before + index + 1, stores[origin])


def meanings_of(chunks: list["Chunk"], renamed: dict[str, str]) -> str:
    """The lines of all definitions that are written, and the old names of what has new ones."""
    told = [line("name", new, old) for new, old in renamed.items()]
    before = 0
    for chunk in chunks:
        definition = chunk.symbol.definition
        if definition is None:
            told.append(line("outside", chunk.symbol.name))
        elif isinstance(definition, Function):
            told += told_function(chunk.symbol, definition)
            if not chunk.symbol.is_of_runtime():
                told += told_stores(chunk, definition, before)
                told += (line("cell", chunk.symbol.name, cells, number, "d") for cells, number in chunk.doubles)
        else:
            told += told_data(chunk.symbol, definition)
        before += len(chunk.texts)
    return "".join(told)
