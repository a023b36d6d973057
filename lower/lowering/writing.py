"""Writes a program: the text that qrev runs, and beside it the map that says where each line comes from."""
import os
from dataclasses import dataclass, field

from terminal.reading.tree import Data, Item, Place

from .adapters import Adapters
from .data import DEFAULT_ALIGNMENT, size_of_data, written_data, written_section
from .ends import SECTIONS, array_names
from .functions import FunctionWriter
from .linking import Program
from .report import Report
from .runtime import ENCODING
from .symbols import Signature, Symbol, carried_class

MOST_BYTES = MOST_DATA = 1 << 20
MOST_FUNCTIONS = 1000
# How many of the largest data are named where all of it is too much.
MOST_DATA_TOLD = 4
FIRST_FUNCTION, FUNCTION_STEP, FIRST_DATA = 4096, 16, 65536
# The data of the runtime from which memory is given: as much as the other data leaves, up to what it has.
HEAP, HEAP_ENDS = "$heap", ("$heap.end", "$heap.top")
# The data of the runtime's mappings, which is there where a program has them.
MAPPED = "$pages.free"
PAGE = 4096


@dataclass(slots=True)
class Chunk:
    """The lines of a definition, and of each the line and the place that it comes from; its path; its cells with
    doubles."""

    symbol: Symbol
    texts: list[str]
    origins: list[tuple[int, Place | None]]
    path: str
    doubles: list[tuple[str, int]] = field(default_factory=list)


class ProgramWriter:
    """Writes what a program keeps; the entry has the calls of what runs before and after it."""

    def __init__(self, program: Program, report: Report, entry: Symbol | None):
        self.program, self.report, self.entry = program, report, entry
        addressed = [symbol for symbol in self.addressed() if symbol.is_function() and not symbol.is_outside()]
        program.keep(addressed)
        program.give_names()
        self.adapters = Adapters(program, addressed)
        self.data: list[Symbol] = []
        self.chunks: list[Chunk] = []
        self.addresses: dict[Symbol, int] = {}

    def addressed(self) -> list[Symbol]:
        """What has its address taken somewhere in what is kept."""
        found: dict[Symbol, None] = {}
        for symbol in self.program.kept:
            if symbol.definition is not None:
                for raw in sorted(symbol.definition.addresses):
                    found[self.program.refer(symbol.home(), raw, True)] = None
        return list(found)

    def write(self) -> list[Chunk]:
        """The chunks: the texts' definitions in their order, then those of the runtime that these need."""
        for symbol in self.in_order():
            self.write_symbol(symbol)
        done = set(self.in_order())
        self.write_adapters()
        while more := [symbol for symbol in self.program.kept if symbol not in done]:
            for symbol in more:
                self.write_symbol(symbol)
            done.update(more)
            # The runtime calls by an address as well, as `qsort` does.
            self.write_adapters()
        self.join_arrays()
        self.fit_heap()
        self.lay_out()
        self.chunks[:0] = [self.data_chunk(symbol) for symbol in self.data]
        return self.chunks

    def write_adapters(self) -> None:
        """Writes those that aren't written yet. What one does is told where it is called."""
        for adapter in self.adapters.take_new():
            self.write_function(adapter, Report())

    def in_order(self) -> list[Symbol]:
        """What is kept of the texts, in their order."""
        symbols = [unit.own[definition.name] for unit in self.program.units for definition in unit.text.definitions]
        return [symbol for symbol in dict.fromkeys(symbols) if symbol in self.program.kept]

    def write_symbol(self, symbol: Symbol) -> None:
        if symbol.is_built_in:
            return
        if symbol.is_data():
            self.data.append(symbol)
        elif symbol.definition is None:
            self.write_outside(symbol)
        else:
            self.write_function(symbol, self.report)

    def write_function(self, symbol: Symbol, report: Report) -> None:
        writer = FunctionWriter(self.program, self.adapters, symbol, report)
        writer.write(self.program.ends if symbol is self.entry else None)
        self.chunks.append(Chunk(symbol, writer.texts, writer.origins, symbol.home().text.path, writer.doubles))

    def write_outside(self, symbol: Symbol) -> None:
        """A function that halts, of the shape of its first call."""
        signature = symbol.signature or Signature(None, ())
        parameters = ["l %result"] if signature.gives_aggregate() else []
        parameters += ["l %environment"] if signature.has_environment else []
        parameters += [f"{carried_class(kind)} %a{number}" for number, kind in enumerate(signature.parameters, 1)]
        gives = signature.carried_result()
        head = f"function {gives + ' ' if gives else ''}{symbol.name}({', '.join(parameters)}) {{"
        texts = [head, "@is.not.there", "\thlt", "}"]
        self.chunks.append(Chunk(symbol, texts, [(0, None)] * len(texts), ""))

    # Data.

    def data_chunk(self, symbol: Symbol) -> Chunk:
        definition, unit = symbol.data(), symbol.home()
        text = written_data(definition, symbol.name, lambda raw: self.program.address_name(unit, raw),
                            lambda raw: self.addresses[self.program.refer(unit, raw, True)])
        texts = [*written_section(definition), text]
        return Chunk(symbol, texts, [(definition.line, None)] * len(texts), unit.text.path)

    def join_arrays(self) -> None:
        """Puts the end of an array of functions right after it."""
        symbols = {symbol.raw: symbol for symbol in self.data if symbol.is_of_runtime()}
        for start, end in map(array_names, SECTIONS):
            if start in symbols and end in symbols:
                self.data.remove(symbols[end])
                self.data.insert(self.data.index(symbols[start]) + 1, symbols[end])

    def fit_heap(self) -> None:
        """Makes the heap as large as the other data leaves room for; without mappings of the system no larger than it
        is."""
        heap = next((symbol for symbol in self.data if symbol.raw == HEAP and symbol.is_of_runtime()), None)
        if heap is None:
            return
        others = self.data_end([symbol for symbol in self.data if symbol is not heap]) - FIRST_DATA
        most = MOST_DATA if any(symbol.raw == MAPPED for symbol in self.data) else size_of_data(heap.data())
        size = max(min(most, (MOST_DATA - others - PAGE) // PAGE * PAGE), 0)
        heap.definition = with_items(heap.data(), [Item(heap.data().line, "z", size)])
        for raw in HEAP_ENDS:
            end = heap.home().own[raw]
            end.definition = with_items(end.data(), [Item(end.data().line, "l", HEAP, True, size)])
        # The heap is the last, so that it may be cut.
        self.data.remove(heap)
        self.data.append(heap)

    def data_end(self, symbols: list[Symbol]) -> int:
        """Lays objects out as qrev does, and gives where they end."""
        at = FIRST_DATA
        for symbol in symbols:
            alignment = symbol.data().alignment or DEFAULT_ALIGNMENT
            at = -(-at // alignment) * alignment
            self.addresses[symbol] = at
            at += size_of_data(symbol.data())
        return at

    def lay_out(self) -> None:
        for index, chunk in enumerate(self.chunks):
            self.addresses[chunk.symbol] = FIRST_FUNCTION + FUNCTION_STEP * index
        for number, symbol in enumerate(self.program.built_in.values()):
            self.addresses[symbol] = 1024 + 16 * number
        self.data_bytes = self.data_end(self.data) - FIRST_DATA

    def overflows(self, size: int) -> list[str]:
        """What qrev will refuse in a text of this many bytes."""
        found = []
        for what, number, most in (("bytes", size, MOST_BYTES), ("bytes of data", self.data_bytes, MOST_DATA),
                                   ("functions", len(self.chunks) - len(self.data), MOST_FUNCTIONS)):
            if number > most:
                found.append(f"the program has {number} {what}, and qrev takes at most {most}")
        if self.data_bytes > MOST_DATA:
            largest = sorted(((size_of_data(symbol.data()), symbol.name) for symbol in self.data), reverse=True)
            found.append("the largest data: " +
                         ", ".join(f"{size} of {name}" for size, name in largest[:MOST_DATA_TOLD]))
        return found


def with_items(data: Data, items: list[Item]) -> Data:
    return Data(data.line, data.name, data.is_exported, data.section, data.alignment, items,
                {str(item.value) for item in items if item.is_global})


def size_of_text(chunks: list[Chunk]) -> int:
    return sum(len(line) + 1 for chunk in chunks for line in chunk.texts)


def text_of(chunks: list[Chunk]) -> str:
    return "".join("\n".join(chunk.texts) + "\n" for chunk in chunks)


def escape(path: str) -> str:
    """A path without a tabulator and a newline in it."""
    return path.replace("\\", "\\\\").replace("\t", "\\t").replace("\n", "\\n")


def map_of(chunks: list[Chunk]) -> str:
    """A line for each line of the text: the file and the line that it comes from, then the file, the line and the
    column of the source in the debug lines, separated by tabs. A line without an origin is empty."""
    lines = []
    for chunk in chunks:
        # A path as its bytes, each a character, as the text itself is.
        path = escape(os.fsencode(chunk.path).decode(ENCODING))
        for line, place in chunk.origins:
            if line == 0:
                lines.append("")
            elif place is None:
                lines.append(f"{path}\t{line}")
            else:
                lines.append(f"{path}\t{line}\t{escape(place.file)}\t{place.line}\t{place.column}")
    return "\n".join(lines) + "\n" if lines else ""
