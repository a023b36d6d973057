"""Reads the tokens of a text as a tree: the definitions. The bodies of functions are read by `bodies`.

Newlines count where QBE counts them: they end labels, phis, instructions and jumps, and may be anywhere in data and
types.
"""
from .bodies import BodyReader
from .refusals import Refused
from .tokens import QBE, Language, tokens_of
from .tree import Aggregate, Data, Definition, Function, Item, Text

SIZES = {"b": 1, "h": 2, "w": 4, "s": 4, "l": 8, "d": 8}
LETTERS = {"b": "b", "h": "h", "w": "w", "l": "l", "s": "w", "d": "l", "z": "z"}
MOST_ALIGNMENT = 4096


class Links:
    """What stands before a definition: `export`, `thread`, `section`."""

    def __init__(self) -> None:
        self.is_exported = self.is_thread = self.are_any = False
        self.section: str | None = None


class TextReader(BodyReader):
    """Reads one text, as QBE takes it."""

    def __init__(self, text: str, path: str, language: Language = QBE, are_written: bool = False):
        super().__init__(tokens_of(text, path, language), path, are_written)

    def read(self) -> Text:
        definitions: list[Definition] = []
        while True:
            links = self.read_links()
            line, kind, word = self.line(), self.kind(), self.words[self.at]
            self.at += 1
            if kind == "end":
                if links.are_any:
                    self.refuse("data or a function expected", line)
                break
            if kind != "word" or word not in ("dbgfile", "function", "data", "type"):
                self.refuse("a definition expected", line)
            if links.are_any and word in ("dbgfile", "type"):
                self.refuse("only data and functions have linkage", line)
            if word == "dbgfile":
                self.count("debug lines")
                self.file = self.expect("string")
            elif word == "type":
                self.read_type()
            elif word == "data":
                definitions.append(self.read_data(links))
            else:
                definitions.append(self.read_function(links, line))
        self.check_names(definitions)
        return Text(self.path, definitions, self.dropped, self.cut_numbers)

    def read_links(self) -> Links:
        links = Links()
        while True:
            self.skip_newlines()
            word = self.words[self.at] if self.kind() == "word" else None
            if word not in ("export", "thread", "section"):
                return links
            self.at += 1
            links.are_any = True
            if word == "export":
                links.is_exported = True
            elif word == "thread":
                links.is_thread = True
            else:
                self.check_section(links)
                links.section = self.expect("string", "the name of the section")
                if self.kind() == "string":
                    self.at += 1

    def check_section(self, links: Links) -> None:
        if links.section is not None:
            self.refuse("only one section is allowed")

    def check_names(self, definitions: list[Definition]) -> None:
        known: dict[str, int] = {}
        for definition in definitions:
            name = definition.name
            if name in known:
                raise Refused(self.path, definition.line, f"{name} is defined a second time, after line {known[name]}")
            known[name] = definition.line

    # Functions.

    def read_function(self, links: Links, line: int) -> Function:
        if links.is_thread:
            self.refuse("only data can be of a thread", line)
        returns = None if self.kind() == "$" else self.read_kind()
        name_line = self.line()
        name = self.expect("$", "the name of the function")
        self.begin_function(returns)
        parameters, environment, self.has_dots = self.read_parameters()
        self.skip_newlines()
        self.expect("{")
        blocks = self.read_blocks()
        function = Function(name_line, name, links.is_exported, returns, parameters, environment, self.has_dots, blocks,
                            self.used_aggregates, self.callees, self.addresses)
        self.check(function)
        return function

    def check(self, function: Function) -> None:
        """Refuses a function, if a user of the reader wants to."""

    # Types.

    def read_type(self) -> None:
        self.skip_newlines()
        name = self.expect(":", "the name of the type")
        self.expect_over_lines("=")
        alignment = 0
        self.skip_newlines()
        if self.is_word("align"):
            self.at += 1
            alignment = self.read_alignment_of_type()
        self.expect_over_lines("{")
        self.skip_newlines()
        if self.kind() == "number":
            if not alignment:
                self.refuse("an opaque type needs an alignment")
            size = self.expect_number()
            self.expect_over_lines("}")
            self.aggregates[name] = Aggregate(name, size, alignment, "opaque")
        elif self.kind() == "{":
            self.aggregates[name] = self.read_union(name, alignment)
        else:
            size, alignment = self.read_fields(0, alignment)
            self.aggregates[name] = Aggregate(name, size, alignment, "struct")

    def read_alignment_of_type(self) -> int:
        """The power of two that QBE makes of it: the greatest that isn't above, without the sign, and 1 for 0."""
        self.skip_newlines()
        number = self.expect_number("the alignment")
        return 1 << max(number.bit_length() - 1, 0)

    def read_union(self, name: str, alignment: int) -> Aggregate:
        size = 0
        while True:
            self.skip_newlines()
            if self.kind() == "}":
                self.at += 1
                return Aggregate(name, size, alignment, "union")
            self.expect("{", "a member of the union")
            size, alignment = self.read_fields(size, alignment)

    def read_fields(self, least: int, alignment: int) -> tuple[int, int]:
        """The size and the alignment of fields up to their brace. A written alignment can raise that of the fields, and
        not lower it."""
        size, alignment = 0, max(alignment, 1)
        while True:
            self.skip_newlines()
            if self.kind() == "}":
                break
            field_size, field_alignment = self.read_field()
            self.skip_newlines()
            count = self.expect_number() if self.kind() == "number" else 1
            size = -(-size // field_alignment) * field_alignment + max(count, 0) * field_size
            alignment = max(alignment, field_alignment)
            self.skip_newlines()
            if self.kind() != ",":
                break
            self.at += 1
        self.expect_over_lines("}", "`,` or `}`")
        return -(-max(size, least) // alignment) * alignment, alignment

    def read_field(self) -> tuple[int, int]:
        if self.kind() == ":":
            aggregate = self.aggregate(self.expect(":"))
            return aggregate.size, aggregate.alignment
        if self.kind() != "word" or self.words[self.at] not in SIZES:
            self.refuse("the type of a field expected")
        self.at += 1
        size = SIZES[self.words[self.at - 1]]
        return size, size

    # Data.

    def read_data(self, links: Links) -> Data:
        self.skip_newlines()
        line = self.line()
        name = self.expect("$", "the name of the data")
        self.expect_over_lines("=")
        alignment = None
        self.skip_newlines()
        if self.is_word("align"):
            self.at += 1
            alignment = self.read_alignment_of_data()
        self.expect_over_lines("{")
        self.addresses = set()
        items = self.read_items()
        if links.is_thread:
            self.count("thread data")
        return Data(line, name, links.is_exported, links.section, alignment, items, self.addresses)

    def read_alignment_of_data(self) -> int:
        self.skip_newlines()
        line = self.line()
        alignment = self.expect_number("the alignment")
        if alignment < 0 or alignment & alignment - 1:
            self.refuse("the alignment isn't a power of two", line)
        if alignment > MOST_ALIGNMENT:
            self.refuse(f"the alignment is above {MOST_ALIGNMENT}", line)
        return max(alignment, 1)

    def read_items(self) -> list[Item]:
        items: list[Item] = []
        while True:
            self.skip_newlines()
            if self.kind() == "}":
                break
            word = self.words[self.at]
            letter = LETTERS.get(word) if self.kind() == "word" else None
            if letter is None:
                self.refuse("the size of a part of the data expected")
            self.at += 1
            self.skip_newlines()
            first = len(items)
            items.append(self.read_item(letter))
            self.read_more(items, letter)
            if letter != word:
                for item in items[first:]:
                    item.is_float = not item.is_global
            if self.kind() == "}":
                break
            self.expect(",", "`,` or `}`")
        self.at += 1
        return items

    def read_more(self, items: list[Item], letter: str) -> None:
        """The items after the first of a letter."""
        kinds, values, lines = self.kinds, self.values, self.lines
        while True:
            kind = kinds[self.at]
            if kind == "number" and letter != "z":
                items.append(Item(lines[self.at], letter, values[self.at]))
                self.at += 1
            elif kind == "newline":
                self.at += 1
            elif kind in ("number", "float", "string", "$"):
                items.append(self.read_item(letter))
            else:
                return

    def read_item(self, letter: str) -> Item:
        line, kind, value = self.line(), self.kind(), self.values[self.at]
        if kind not in ("number", "float", "string", "$"):
            self.refuse("a constant expected")
        self.at += 1
        if kind == "string" and letter != "b":
            self.refuse("strings are only supported for `b`", line)
        if letter == "z" and (kind != "number" or self.numbers[self.at - 1] < 0):
            self.refuse("a number of zeros expected", line)
        if kind != "$":
            return Item(line, letter, value)
        self.addresses.add(self.words[self.at - 1])
        return Item(line, letter, value, True, self.read_offset())

    def read_offset(self) -> int:
        """What is added to an address, if something is."""
        if self.kind() != "+":
            return 0
        self.at += 1
        return self.expect_number("what is added to the address")
