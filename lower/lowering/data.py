"""Writes data in the language of qrev, an object on a line."""
import re
from collections.abc import Callable

from terminal.reading.tree import Data, Item

SIZES = {"b": 1, "h": 2, "w": 4, "l": 8}
ESCAPES = {"\n": "\\n", "\t": "\\t", "\r": "\\r", "\\": "\\\\", '"': '\\"'}
# A byte that isn't shown, and whether an octal digit follows, which would be read with it.
ESCAPED = re.compile(r'[\x00-\x1f\x7f"\\](?=([0-7])?)')
# So many zeros on end are told by their count.
FEWEST_ZEROS = 8
WHOLE = (1 << 64) - 1
DEFAULT_ALIGNMENT = 16
# A store into data of a section whose name begins so is suspicious.
READ_ONLY = ".rodata"


def size_of(item: Item) -> int:
    if item.letter == "z":
        return int(item.value)
    if type(item.value) is str and not item.is_global:
        return len(item.value)
    return SIZES[item.letter]


def size_of_data(data: Data) -> int:
    return sum(map(size_of, data.items))


def fields_of(items: list[Item]) -> list[tuple[str, list[Item]]]:
    """The items as fields of one letter each, with zeros on end as one field."""
    fields: list[tuple[str, list[Item]]] = []
    at = 0
    while at < len(items):
        end, zeros = at, 0
        while end < len(items) and items[end].value == 0 or end < len(items) and items[end].letter == "z":
            zeros += size_of(items[end])
            end += 1
        if end > at and (zeros >= FEWEST_ZEROS and end > at + 1 or items[at].letter == "z"):
            fields.append(("z", [Item(items[at].line, "z", zeros)]))
            at = end
            continue
        item = items[at]
        if fields and fields[-1][0] == item.letter != "z":
            fields[-1][1].append(item)
        else:
            fields.append((item.letter, [item]))
        at += 1
    return fields


def escape(match: re.Match[str]) -> str:
    byte: str = match.group()
    return ESCAPES.get(byte) or (f"\\{ord(byte):03o}" if match.group(1) else f"\\{ord(byte):o}")


def written_item(item: Item, name_of: Callable[[str], str], address_of: Callable[[str], int]) -> str:
    """An item. The language has addresses of 8 bytes: a shorter one is written as its number."""
    if not item.is_global:
        return str(item.value) if isinstance(item.value, int) else f'"{ESCAPED.sub(escape, item.value)}"'
    if item.letter != "l":
        mask = (1 << 8 * SIZES[item.letter]) - 1
        return str(address_of(str(item.value)) + item.offset & mask)
    behind = f" + {item.offset & WHOLE}" if item.offset else ""
    return name_of(str(item.value)) + behind


def written_data(data: Data, name: str, name_of: Callable[[str], str], address_of: Callable[[str], int]) -> str:
    """The line of an object; two calls give its globals, as names and as addresses."""
    fields = []
    for letter, items in fields_of(data.items):
        fields.append(f"{letter} " + " ".join(written_item(item, name_of, address_of) for item in items))
    align = f"align {data.alignment} " if data.alignment is not None else ""
    return f"data {name} = {align}{{ {', '.join(fields)} }}" if fields else f"data {name} = {align}{{ }}"


def written_section(data: Data) -> list[str]:
    """The line before that of an object which isn't to be written to; what else its section is called says nothing
    here."""
    return [f'section "{READ_ONLY}"'] if (data.section or "").startswith(READ_ONLY) else []
