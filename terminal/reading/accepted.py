"""Reads a text that the debugger has accepted, by the grammar of docs/LANGUAGE.md.

It is QBE's grammar without floats, aggregates and dots, with what QBE refuses and runs here: other names and spacing,
words and names with nothing between, a section twice, newlines anywhere in data, and any size of a blit. Constants and
strings are kept as written.
"""
import re
import string

from .reader import Links, TextReader
from .tokens import Language
from .tree import Value

IN_NAME = frozenset(string.ascii_letters + string.digits + "._$")
NAME = r"[A-Za-z0-9._$]+"
LOCAL = re.compile(rf"[%@]{NAME}")
ACCEPTED = Language(r" \t\r", NAME, r"[A-Za-z][A-Za-z0-9._]*")


class AcceptedReader(TextReader):
    """Reads one text."""

    def __init__(self, text: str):
        super().__init__(text, "", ACCEPTED, are_written=True)

    def check_section(self, links: Links) -> None:
        """The last one counts."""

    def check_blit(self, size: Value, line: int) -> None:
        """Any number is its size."""

    def read_offset(self) -> int:
        self.skip_newlines()
        if self.kind() != "+":
            return 0
        self.at += 1
        self.skip_newlines()
        return self.expect_number()
