"""The command line of qrev-lower."""
import argparse
import errno
import gc
import os
import pathlib
import stat
import sys
from typing import NoReturn

from terminal.reading.refusals import Refused
from terminal.reading.tree import Text

from .arguments import give_arguments, give_input, give_name, takes_texts
from .ends import has_ends, is_named, wrapped
from .files import files_found, give_files
from .jumps import Jumps
from .linking import Program
from .meanings import meanings_of
from .reader import TextReader
from .report import Report
from .runtime import ENCODING
from .sizes import LARGE, told_bytes
from .squeezing import squeeze_names, squeeze_spaces
from .symbols import Symbol
from .unreached import cut_unreached
from .writing import MOST_BYTES, ProgramWriter, map_of, size_of_text, text_of

BAD_COMMAND_LINE, NOT_READ, LEFT_OVER = 64, 2, 1


class Parser(argparse.ArgumentParser):
    def error(self, message: str) -> NoReturn:
        self.exit(BAD_COMMAND_LINE, f"qrev-lower: {message}\n")


def options() -> Parser:
    parser = Parser(prog="qrev-lower", description="Brings texts of QBE 1.2 into the language that qrev runs.",
                    epilog="Status 1: a text was refused, and nothing was written; or something that would halt can be "
                    "reached, or the program is too large. 2: a file can't be read or written. 64: a bad command line.")
    parser.add_argument("--link", action="store_true", help="keep only what can be reached from the entry")
    parser.add_argument("--entry", metavar="NAME", default="main", help="the function that is run, without its sigil")
    parser.add_argument("--report", action="store_true", help="say on standard error what was rewritten")
    parser.add_argument("--output", "-o", metavar="FILE", help="write the text there, and the map beside it")
    parser.add_argument("--map", metavar="FILE", help="write the map there")
    parser.add_argument("--input", metavar="FILE", help="what the program reads")
    parser.add_argument("--file", metavar="FILE", action="append", default=[],
                        help="a file that the program finds by this name; those that its words or its texts name, it "
                        "finds anyway")
    parser.add_argument("--argv", metavar="NAME", help="the name of the program in argv, which an entry of argc and "
                        "argv is given without --arguments, too")
    parser.add_argument("--arguments", metavar="WORD", nargs=argparse.REMAINDER,
                        help="all that follows are words for the argc and argv of the entry")
    parser.add_argument("files", metavar="FILE", nargs="+",
                        help="a text of QBE, or a folder, which stands for the texts *.ssa in it")
    return parser


def read_text(path: str) -> Text:
    return TextReader(pathlib.Path(path).read_bytes().decode(ENCODING), path).read()


def texts_in(path: str) -> list[str]:
    """The text itself, or the texts of a folder by their names, such as a compiler makes of several sources."""
    if not os.path.isdir(path):
        return [path]
    found = sorted(os.path.join(path, name) for name in os.listdir(path) if name.endswith(".ssa"))
    if not found:
        raise FileNotFoundError(errno.ENOENT, "no text *.ssa is in this folder", path)
    return found


def map_beside(output: str | None) -> str | None:
    """Where the map goes: beside the text, where this goes to a file."""
    if output is not None:
        return output + ".map"
    opened = os.fstat(sys.stdout.fileno())
    if not stat.S_ISREG(opened.st_mode):
        return None
    try:
        path = os.readlink(f"/proc/self/fd/{sys.stdout.fileno()}")
        # A file without a name, as one that was removed, has no map.
        return path + ".map" if os.path.samestat(opened, os.stat(path)) else None
    except OSError:
        return None


class Lowering:
    """One run: the texts in, the text and its map out."""

    def __init__(self, texts: list[Text], entry: str, is_linked: bool, words: list[str] | None = None,
                 input_bytes: bytes = b"", name: str | None = None, files: list[str] | None = None):
        """`words` are the arguments of the entry as texts, without the name of the program. If that is given and they
        aren't, an entry that takes texts has no other. `files` are those that it was given."""
        self.report, self.is_linked = Report(), is_linked
        self.program = Program(texts, self.report)
        give_input(self.program.runtime, input_bytes)
        if self.program.opens_files:
            give_files(self.program.runtime, files_found(texts, words or [], files or [], self.report))
        self.entry = self.entry_symbol("$" + entry)
        if is_linked and self.entry is None:
            raise Refused(texts[0].path, 1, f"no text exports a function ${entry}")
        if name is not None and words is None and self.entry is not None and takes_texts(self.entry):
            words = []
        if self.entry is not None and (words is not None or has_ends(self.program)) \
                and is_named(self.program, self.entry):
            self.entry = wrapped(self.program, self.entry)
        own_name = name or pathlib.Path(texts[0].path).stem
        if words is not None and self.entry is not None:
            give_arguments(self.entry, [own_name, *words])
        if is_linked and self.entry is not None:
            self.program.keep_from(self.entry)
        else:
            self.keep_all()
        give_name(self.program.runtime, own_name)
        Jumps(self.program).write(self.entry)
        self.program.give_names()
        self.report.count("functions that are called before the entry", len(self.program.ends.first))
        self.count_dropped(texts)
        self.program.reached = self.reached()
        writer = ProgramWriter(self.program, self.report, self.entry)
        self.chunks = writer.write()
        self.program.note_outside()
        self.program.note_calls_of_system()
        self.program.note_state_left()
        bytes_told = told_bytes(self.chunks)
        self.renamed = self.fit()
        self.text, self.map = text_of(self.chunks), map_of(self.chunks)
        self.meanings = meanings_of(self.chunks, self.renamed)
        self.overflows = writer.overflows(len(self.text))
        if self.overflows or bytes_told.total > LARGE:
            self.report.note_size(bytes_told.lines())

    def fit(self) -> dict[str, str]:
        """Makes a text that is too large smaller, and gives the old names of what has new ones for that."""
        if size_of_text(self.chunks) <= MOST_BYTES:
            return {}
        squeeze_spaces(self.chunks)
        self.report.count("texts that are written without spaces, to fit")
        if size_of_text(self.chunks) <= MOST_BYTES:
            return {}
        renamed = squeeze_names(self.chunks)
        self.report.count("temporaries and labels with short names, to fit", len(renamed))
        if self.is_linked and self.entry is not None and size_of_text(self.chunks) > MOST_BYTES:
            self.report.count("functions that no call can reach, cut to fit",
                              cut_unreached(self.chunks, self.entry.name))
        return renamed

    def entry_symbol(self, raw: str) -> Symbol | None:
        """The entry; of one text also a function that isn't exported."""
        units = self.program.units
        symbol = self.program.exported.get(raw) or (units[0].own.get(raw) if len(units) == 1 else None)
        return symbol if symbol is not None and symbol.is_function() else None

    def keep_all(self) -> None:
        program = self.program
        program.keep(program.resolve(unit, definition.name) for unit in program.units
                     for definition in unit.text.definitions)
        if self.entry is not None:
            program.ends.keep()

    def reached(self) -> dict[Symbol, None]:
        """What can be reached from the entry; without one all."""
        ends = self.program.ends
        return self.program.kept if self.entry is None else \
            self.program.reached_from([self.entry, *ends.first, *([ends.finalizers] if ends.finalizers else [])])

    def count_dropped(self, texts: list[Text]) -> None:
        for text in texts:
            for what, number in text.dropped.items():
                self.report.count({"debug lines": "debug lines as places of the map",
                                   "thread data": "thread data as plain data",
                                   "line ends": "line ends of two bytes, which QBE refuses"}[what], number)
            for line in text.cut_numbers:
                self.report.note(text.path, line, "a number of more than 64 bits is cut, as QBE does")


def write_all(lowering: Lowering, output: str | None, map_path: str | None) -> None:
    """Writes the text, its map, and beside the text what its names stand for."""
    text = lowering.text.encode(ENCODING)
    beside = map_beside(output)
    if output is None:
        sys.stdout.buffer.write(text)
        sys.stdout.buffer.flush()
    else:
        pathlib.Path(output).write_bytes(text)
    map_file = map_path or beside
    if map_file:
        pathlib.Path(map_file).write_bytes(lowering.map.encode(ENCODING))
    if beside:
        pathlib.Path(beside.removesuffix(".map") + ".names").write_bytes(lowering.meanings.encode(ENCODING))


def main(words: list[str]) -> int:
    # A run is short, and its trees have no cycles worth collecting.
    gc.disable()
    # All that follows are words for the entry, also those that would be options here.
    at = words.index("--arguments") if "--arguments" in words else len(words)
    given = options().parse_args(words[:at])
    if at < len(words):
        given.arguments = words[at + 1:]
    try:
        input_bytes = pathlib.Path(given.input).read_bytes() if given.input is not None else b""
        paths = [path for file in given.files for path in texts_in(file)]
        lowering = Lowering([read_text(path) for path in paths], given.entry, given.link, given.arguments,
                            input_bytes, given.argv, given.file)
        write_all(lowering, given.output, given.map)
    except Refused as refused:
        print(refused, file=sys.stderr)
        return LEFT_OVER
    except OSError as error:
        print(f"qrev-lower: {error.filename or 'standard output'}: {error.strerror}", file=sys.stderr)
        return NOT_READ
    for line in lowering.overflows:
        print(f"qrev-lower: {line}", file=sys.stderr)
    if lowering.overflows and len(input_bytes) > MOST_BYTES // 4:
        print(f"qrev-lower: {given.input}, which it reads, has {len(input_bytes)} bytes, and is part of its data",
              file=sys.stderr)
    for line in lowering.report.lines() if given.report else lowering.report.told():
        print(line, file=sys.stderr)
    return LEFT_OVER if lowering.overflows or lowering.report.would_halt() else 0
