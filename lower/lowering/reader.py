"""Reads a text as QBE does, and refuses what QBE refuses in a function. Lines may end in two bytes, as some editors
write them, which QBE itself doesn't take."""
from terminal.reading.reader import TextReader as Reader
from terminal.reading.tree import Function

from .checks import check_function


class TextReader(Reader):
    """Reads one text."""

    def __init__(self, text: str, path: str):
        super().__init__(text.replace("\r\n", "\n"), path)
        if "\r\n" in text:
            self.dropped["line ends"] = text.count("\r\n")

    def check(self, function: Function) -> None:
        check_function(function, self.path)
