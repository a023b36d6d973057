"""The map beside a text, as lower/qrev-lower writes it: the source and the line that each of its lines came from
(docs/REAL_COMPILERS.md)."""
from __future__ import annotations

import os
import pathlib
import re
from dataclasses import dataclass, field
from functools import cached_property
from typing import Iterator, NamedTuple, Sequence

ESCAPE = re.compile(r"\\([\\tn])")


def unescaped(match: re.Match[str]) -> str:
    """A character that would part the fields or the lines of a map."""
    return {"t": "\t", "n": "\n"}.get(match.group(1), "\\")


class Line(NamedTuple):
    """A line of a source."""
    file: str
    number: int


@dataclass
class SourceMap:
    """The map of a text: the n-th line is about the text's n-th."""
    file: pathlib.Path
    lines: list[str]
    # Where sources are looked for first, and the lines of those that were read.
    folders: list[pathlib.Path] = field(default_factory=list)
    kept: dict[str, list[str]] = field(default_factory=dict)

    @classmethod
    def beside(cls, file: str, folders: Sequence[str] = ()) -> SourceMap:
        named = [pathlib.Path(folder) for folder in folders]
        try:
            return cls(pathlib.Path(file), pathlib.Path(file + ".map").read_text(errors="replace").split("\n"), named)
        except OSError:
            return cls(pathlib.Path(file), [], named)

    def look_in(self, folders: Sequence[pathlib.Path]) -> None:
        """Sources are looked for in these folders first from now on, also those that were read already."""
        self.folders = list(folders)
        self.kept.clear()

    def fields(self, line: int) -> list[str]:
        return self.lines[line - 1].split("\t") if 1 <= line <= len(self.lines) else []

    def place(self, line: int) -> str:
        """`FILE:LINE`, and `: FILE:LINE:COLUMN` of the source if the map has that; nothing for a line without a
        place."""
        fields = self.fields(line)
        places = [f"{ESCAPE.sub(unescaped, fields[at])}:{fields[at + 1]}" for at in range(0, len(fields) - 1, 2)]
        if len(fields) == 5 and fields[4] != "0":
            places[1] += f":{fields[4]}"
        return ": ".join(places)

    def origins(self, line: int) -> list[Line]:
        """Where a line of the text comes from: in the source of its debug lines, and in the text before lowering."""
        fields = self.fields(line)
        return [Line(ESCAPE.sub(unescaped, fields[at]), int(fields[at + 1])) for at in (2, 0)
                if len(fields) > at + 1 and fields[at] and fields[at + 1].isdigit()]

    def source(self, line: int) -> Line | None:
        """The line of the source, or None if debug lines have none."""
        return next(iter(self.origins(line)), None) if len(self.fields(line)) == 5 and self.fields(line)[2] else None

    def files(self) -> dict[str, int]:
        """The files of the sources, each with how many of its lines are in the text."""
        found: dict[str, set[int]] = {}
        for line in range(1, len(self.lines) + 1):
            source = self.source(line)
            if source:
                found.setdefault(source.file, set()).add(source.number)
        return {file: len(numbers) for file, numbers in found.items()}

    def lines_from(self, file: str, number: int) -> tuple[Line, list[int]] | None:
        """The least line of a file that isn't before a number, with the lines of the text that came from it. The file
        is one that is told so, or ends so."""
        found: dict[Line, list[int]] = {}
        for line in range(1, len(self.lines) + 1):
            for origin in self.origins(line):
                if origin.number >= number and (origin.file == file or origin.file.endswith("/" + file)):
                    found.setdefault(origin, []).append(line)
        # A file that is named whole goes before those that end so.
        whole = [origin for origin in found if origin.file == file] or list(found)
        first = min(whole, key=lambda origin: origin.number, default=None)
        return (first, found[first]) if first else None

    @cached_property
    def beside_texts(self) -> list[pathlib.Path]:
        """The folders of the texts that were lowered."""
        texts = (ESCAPE.sub(unescaped, line.split("\t")[0]) for line in self.lines if "\t" in line)
        return list(dict.fromkeys(pathlib.Path(text).parent for text in dict.fromkeys(texts)))

    def tried(self, file: str) -> Iterator[pathlib.Path]:
        """Where a source may be, the likeliest first: in the folders that were named, under as much of its path as is
        there; where its path leads; and beside the text that was lowered."""
        parts = [part for part in pathlib.PurePath(os.path.normpath(file)).parts if part not in ("/", "..")]
        for folder in self.folders:
            yield from (folder.joinpath(*parts[begin:]) for begin in range(len(parts)))
        yield pathlib.Path(file)
        for folder in self.beside_texts:
            yield from (folder / name for name in dict.fromkeys((file, os.path.basename(file))))

    def path_of(self, file: str) -> pathlib.Path | None:
        """Where a source is, or None where it isn't found."""
        for path in self.tried(file):
            try:
                if path.is_file():
                    return path
            except OSError:
                continue
        return None

    def read(self, file: str) -> list[str]:
        """The lines of a source, as they were when it was first read; none where it isn't found."""
        if file not in self.kept:
            self.kept[file] = self.read_anew(file)
        return self.kept[file]

    def read_anew(self, file: str) -> list[str]:
        """Only newlines part the lines of a source, as a compiler counts: a form feed is a part of its line."""
        path = self.path_of(file)
        try:
            text = path.read_bytes().decode(errors="replace") if path else ""
        except OSError:
            return []
        lines = text.replace("\r\n", "\n").split("\n")
        return lines if lines[-1] else lines[:-1]

    def text_of(self, line: int) -> str:
        """What the source has for a line of the text, without the blanks around it."""
        source = self.source(line)
        lines = self.read(source.file) if source else []
        return lines[source.number - 1].strip() if source and 1 <= source.number <= len(lines) else ""
