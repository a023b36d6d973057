"""As much of a terminal like xterm as a full screen needs: a program's output becomes letters in rows and columns."""
from __future__ import annotations

import codecs
import re

# A control sequence, one of a character set, or another escape of one letter.
SEQUENCE = re.compile(r"\x1b(?:\[([?>=!]?)([0-9;]*)([@-~])|([()])(.)|\](?:[^\x07\x1b]*)(?:\x07|\x1b\\)|([=>78DEMc]))")
LINES = {"q": "-", "x": "|", "l": "+", "k": "+", "m": "+", "j": "+", "n": "+", "t": "+", "u": "+", "v": "+", "w": "+"}
DRAWN = {"\u2500": "-", "\u2502": "|"}


class Cells:
    def __init__(self, rows: int, columns: int):
        self.decode = codecs.getincrementaldecoder("utf-8")("replace").decode
        self.left, self.is_drawing, self.is_other = "", False, False
        self.kept: list[list[str]] = []
        self.resize(rows, columns)

    def resize(self, rows: int, columns: int) -> None:
        self.rows, self.columns = rows, columns
        self.cells = [[" "] * columns for _ in range(rows)]
        self.y = self.x = 0
        self.top, self.bottom = 0, rows - 1

    def lines(self) -> list[str]:
        return ["".join(row).rstrip() for row in self.cells]

    def take(self, piece: bytes) -> None:
        text = self.left + self.decode(piece)
        at = 0
        while at < len(text):
            if text[at] != "\x1b":
                self.letter(text[at])
                at += 1
                continue
            found = SEQUENCE.match(text, at)
            if not found:
                break
            self.sequence(*found.groups())
            at = found.end()
        self.left = text[at:]

    def letter(self, letter: str) -> None:
        if letter == "\r":
            self.x = 0
        elif letter == "\n":
            self.down()
        elif letter == "\b":
            self.x = max(min(self.x, self.columns - 1) - 1, 0)
        elif letter == "\t":
            self.x = min((self.x // 8 + 1) * 8, self.columns - 1)
        elif letter in "\x0e\x0f":
            self.is_drawing = letter == "\x0e"
        elif letter >= " ":
            if self.x >= self.columns:
                self.x = 0
                self.down()
            self.cells[self.y][self.x] = LINES.get(letter, letter) if self.is_drawing else DRAWN.get(letter, letter)
            self.last, self.x = letter, self.x + 1

    def down(self) -> None:
        if self.y == self.bottom:
            del self.cells[self.top]
            self.cells.insert(self.bottom, [" "] * self.columns)
        else:
            self.y = min(self.y + 1, self.rows - 1)

    def up(self) -> None:
        if self.y == self.top:
            del self.cells[self.bottom]
            self.cells.insert(self.top, [" "] * self.columns)
        else:
            self.y = max(self.y - 1, 0)

    def sequence(self, private: str | None, numbers: str | None, final: str | None, charset: str | None,
                 kind: str | None, simple: str | None) -> None:
        if charset:
            self.is_drawing = kind == "0"
        elif simple == "M":
            self.up()
        elif final and private:
            self.mode(numbers or "", final)
        elif final:
            given = [int(number) for number in (numbers or "").split(";") if number]
            self.control(final, given[0] if given else 0, given)

    def mode(self, numbers: str, final: str) -> None:
        """Another screen is shown, or the first one again."""
        if numbers in ("1049", "47") and final in "hl":
            if (final == "h") != self.is_other:
                self.is_other = final == "h"
                if self.is_other:
                    self.kept, self.cells = self.cells, [[" "] * self.columns for _ in range(self.rows)]
                else:
                    self.cells = self.kept

    def control(self, final: str, number: int, given: list[int]) -> None:
        count, row = max(number, 1), self.cells[self.y]
        moves = {"A": (-count, 0), "B": (count, 0), "C": (0, count), "D": (0, -count)}
        if final in moves:
            self.y = min(max(self.y + moves[final][0], 0), self.rows - 1)
            self.x = min(max(min(self.x, self.columns - 1) + moves[final][1], 0), self.columns - 1)
        elif final in "Hf":
            self.y = min((given + [1])[0], self.rows) - 1
            self.x = min((given + [1, 1])[1] if len(given) > 1 else 1, self.columns) - 1
        elif final == "G":
            self.x = min(count, self.columns) - 1
        elif final == "d":
            self.y = min(count, self.rows) - 1
        elif final == "K":
            begin, end = {0: (self.x, self.columns), 1: (0, self.x + 1), 2: (0, self.columns)}[number]
            row[begin:end] = [" "] * (end - begin)
        elif final == "J":
            self.erase(number)
        elif final == "X":
            row[self.x:self.x + count] = [" "] * min(count, self.columns - self.x)
        elif final == "P":
            row[self.x:] = (row[self.x + count:] + [" "] * count)[:self.columns - self.x]
        elif final == "@":
            row[self.x:] = ([" "] * count + row[self.x:])[:self.columns - self.x]
        elif final == "b":
            for _ in range(count):
                self.letter(self.last)
        elif final == "r":
            self.top, self.bottom = (given + [1])[0] - 1, (given[1] if len(given) > 1 else self.rows) - 1
            self.y = self.x = 0
        elif final in "LMST":
            self.shift(final, count)

    def erase(self, number: int) -> None:
        if number == 2 or number == 3:
            self.cells = [[" "] * self.columns for _ in range(self.rows)]
            return
        begin, end = ((self.y, self.x), (self.rows, 0)) if number == 0 else ((0, 0), (self.y, self.x + 1))
        for y in range(self.rows):
            for x in range(self.columns):
                if begin <= (y, x) < end:
                    self.cells[y][x] = " "

    def shift(self, final: str, count: int) -> None:
        """Lines are put in or taken away at the cursor, or the whole region moves."""
        top = self.y if final in "LM" else self.top
        for _ in range(min(count, self.bottom - top + 1)):
            if final in "LT":
                del self.cells[self.bottom]
                self.cells.insert(top, [" "] * self.columns)
            else:
                del self.cells[top]
                self.cells.insert(self.bottom, [" "] * self.columns)
