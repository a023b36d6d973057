"""Files that a lowered program finds: those that it was given, those that its words name, and those that its texts do.

They are bytes in memory. What the program writes, it finds again, and the files of this machine stay as they are.
"""
import os
import pathlib
import re

from terminal.reading.tree import Data, Item, Text

from .report import Report, Weight
from .runtime import ENCODING, Runtime
from .symbols import Symbol

FIND_FILE, FILES, FILES_END = "$file.named", "$files", "$files.end"
# The bytes of a file's record, and how many files there may be beside those that are given.
RECORD, FREE_RECORDS = 40, 32
# Files that nobody gave by name are taken up to so many bytes.
MOST_FOUND = 1 << 18
# No text has more bytes, nor has its data.
MOST_BYTES = 1 << 20
# What may be the name of a file, in the data of a text.
NAME = re.compile(r"[\x20-\x7e]{1,255}")


def names_in(texts: list[Text]) -> list[str]:
    """The texts in data that end with a zero, each once."""
    found: dict[str, None] = {}
    for text in texts:
        for definition in text.definitions:
            if isinstance(definition, Data):
                joined = "".join(item.value if isinstance(item.value, str) and not item.is_global else "\0"
                                 for item in definition.items)
                found.update(dict.fromkeys(part for part in joined.split("\0") if NAME.fullmatch(part)))
    return list(found)


def files_found(texts: list[Text], words: list[str], given: list[str], report: Report) -> dict[str, bytes]:
    """The bytes of the files that were given, and of those that the words of the program or its texts name."""
    found = {name: pathlib.Path(name).read_bytes() for name in given}
    left = MOST_FOUND
    for name in [*words, *names_in(texts)]:
        if name in found or not os.path.isfile(name) or not os.access(name, os.R_OK):
            continue
        size = os.path.getsize(name)
        if size > left:
            way = f": --file {name} gives it all the same" if size < MOST_BYTES // 2 else ""
            report.note(texts[0].path, 1, f"{name} has {size} bytes, so the program doesn't find it{way}", Weight.APART)
            continue
        found[name] = pathlib.Path(name).read_bytes()
        left -= size
    return found


def give_files(runtime: Runtime, files: dict[str, bytes]) -> None:
    """Puts files into the runtime's table: a record for each, with its name and its bytes beside."""
    if not files:
        return
    unit = runtime.symbol(FIND_FILE).home()
    table = unit.own[FILES].data()
    records: list[Item] = []
    for number, (name, content) in enumerate(files.items()):
        name_of, bytes_of = f"$file.name.{number}", f"$file.bytes.{number}"
        # A byte in front is nobody's: see runtime/files/table.ssa.
        for raw, text in ((name_of, os.fsencode(name) + b"\0"), (bytes_of, b"\0" + content)):
            data = Data(0, raw, False, None, 1, [Item(0, "b", text.decode(ENCODING))], set())
            unit.own[raw] = Symbol(raw, unit, data, None)
            table.addresses.add(raw)
        records += [Item(0, "l", name_of, True), Item(0, "l", bytes_of, True, 1), Item(0, "l", len(content)),
                    Item(0, "l", 0), Item(0, "w", 0), Item(0, "w", 1)]
    table.items = [*records, Item(0, "z", RECORD * FREE_RECORDS)]
    unit.own[FILES_END].data().items = [Item(0, "l", FILES, True, RECORD * (len(files) + FREE_RECORDS))]
