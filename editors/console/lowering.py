"""Lowers texts of whole QBE for the debugger: what a launch says about it, and the folder with the result."""
from __future__ import annotations

import os
import pathlib
import re
import shlex
import subprocess
import sys
from dataclasses import dataclass, field
from typing import Any

from terminal.sourcemap import ESCAPE, Line, SourceMap, unescaped

from .questions import TOP

LOWER = TOP / "lower" / "qrev-lower"
# Where texts of the runtime stand in a map, and where they are.
RUNTIME = "lower/runtime/"
# The members of a launch that are for what stands between an editor and the adapter. A map is that of the text before.
OWN = frozenset(("lower", "input", "files", "argv", "check"))
# Makes a folder and tells its path; takes it away when the end of the input comes, also where nobody asks for that.
KEEPS = """trap '' HUP INT TERM
folder=$(mktemp -d "${TMPDIR:-/tmp}/qrev-XXXXXX") || exit
echo "$folder"
read -r end
rm -rf -- "$folder"
"""
# Seconds that taking a folder away may take.
REMOVING = 5.0
# A line of a map that tells something, and the most bytes that a map has.
PLACE = re.compile(rb"[^\t]+\t([0-9]+)(?:\t[^\t]*\t[0-9]+\t[0-9]+)?", re.DOTALL)
MOST_OF_MAP = 1 << 24
# What a line that qrev-lower tells is about: `FILE:LINE: what`.
ABOUT = re.compile(r"(.*?):(\d+): ")


class BadLaunch(Exception):
    """What is wrong with a launch, in the words that it fails with."""


@dataclass(frozen=True)
class Wanted:
    """What a launch says about lowering; if nothing, it is found out whether the text must be lowered."""

    program: str
    entry: str = "main"
    is_asked: bool | None = None
    files: tuple[str, ...] = ()
    input: str | None = None
    found: tuple[str, ...] = ()
    texts: tuple[str, ...] | None = None
    has_numbers: bool = False
    map: str | None = None

    @property
    def folder(self) -> str:
        """That of the program, from which the paths of other files go."""
        return os.path.dirname(os.path.abspath(self.program))

    @property
    def name(self) -> str:
        """What a `main` of `argc` and `argv` has as its own name."""
        return os.path.basename(self.program).rpartition(".")[0] or os.path.basename(self.program)

    def words(self, output: str) -> list[str]:
        """The words of qrev-lower, which runs in the folder."""
        return ["--link", f"--entry={self.entry}", f"--output={output}",
                *([] if self.input is None else [f"--input={self.input}"]),
                *(f"--file={file}" for file in self.found),
                *([] if self.has_numbers else [f"--argv={self.name}"]),
                *map(as_file, (os.path.basename(self.program), *self.files)),
                *([] if self.texts is None else ["--arguments", *self.texts])]

    def command_line(self) -> tuple[str, str]:
        """The words with which `qrev` lowers the same: those instead of the program, and those after all others."""
        files = (self.program, *(self.path(file) for file in self.files))
        given = [*([] if self.input is None else [("--input", self.input)]), *(("--file", file) for file in self.found)]
        words = ["--lower", *(word for name, file in given for word in (name, self.path(file))), *files]
        return shlex.join(words), "" if self.texts is None else " " + shlex.join(["--", *self.texts])

    def path(self, file: str) -> str:
        """The path of another file, as the launch has that of the program."""
        return os.path.join(os.path.dirname(self.program), file)


def as_file(path: str) -> str:
    """A path that is no option."""
    return f"./{path}" if path.startswith("-") else path


def wanted_of(launch: dict[str, Any]) -> Wanted | None:
    """What a launch says of lowering; nothing if the adapter refuses it anyway. A BadLaunch says what is wrong."""
    lower, given = launch.get("lower"), launch.get("input")
    files = lower if isinstance(lower, list) else []
    if "lower" in launch and not (isinstance(lower, bool) or isinstance(lower, list) and are_texts(files)):
        raise BadLaunch("lower: no flag and no list of paths")
    if "input" in launch and not (isinstance(given, str) and given):
        raise BadLaunch("input: no path")
    found = launch.get("files", [])
    if not (isinstance(found, list) and are_texts(found)):
        raise BadLaunch("files: no list of paths")
    texts = launch.get("argv")
    if "argv" in launch and not (isinstance(texts, list) and are_texts(texts, may_be_empty=True)):
        raise BadLaunch("argv: no list of texts")
    if "check" in launch and not isinstance(launch["check"], bool) and launch["check"] != "strict":
        raise BadLaunch('check: no flag and no "strict"')
    implied = [name for name in ("input", "files", "argv") if name in launch]
    if implied and lower is False:
        raise BadLaunch(f"{implied[0]}: not without lowering")
    if texts is not None and launch.get("args"):
        raise BadLaunch("argv: not beside args")
    program, entry, named = launch.get("program"), launch.get("entry", "main"), launch.get("map")
    if not isinstance(program, str) or not isinstance(entry, str) or "map" in launch and not isinstance(named, str):
        return None
    is_asked = True if implied or isinstance(lower, list) else lower
    return Wanted(program, entry, is_asked, tuple(files), given, tuple(found), None if texts is None else tuple(texts),
                  bool(launch.get("args")), named)


def are_texts(items: list[Any], may_be_empty: bool = False) -> bool:
    """Whether all of them are texts that a word of a command line can be."""
    return all(isinstance(item, str) and "\0" not in item and (item or may_be_empty) for item in items)


def without_own(launch: dict[str, Any]) -> dict[str, Any]:
    """A launch without the members that are looked after here."""
    return {name: value for name, value in launch.items() if name not in OWN}


class Folder:
    """A folder that is there until it is removed, or until this process ends, in whatever way."""

    def __init__(self) -> None:
        self.keeper = subprocess.Popen(["/bin/sh", "-c", KEEPS], stdin=subprocess.PIPE, stdout=subprocess.PIPE,
                                       stderr=subprocess.DEVNULL, start_new_session=True)
        assert self.keeper.stdout is not None
        told = os.fsdecode(self.keeper.stdout.readline().rstrip(b"\n"))
        if not told:
            raise BadLaunch("lowering needs a folder for what it writes; TMPDIR can name another one")
        self.path = os.path.abspath(told)

    def remove(self) -> None:
        assert self.keeper.stdin is not None
        try:
            self.keeper.stdin.close()
            self.keeper.wait(REMOVING)
        except (OSError, subprocess.TimeoutExpired):
            # It goes on by itself.
            pass


@dataclass
class Lowered:
    """A lowered text, its map of places, and the messages about it."""

    wanted: Wanted
    folder: Folder
    program: str
    map: SourceMap
    told: list[str] = field(default_factory=list)

    def launch(self, launch: dict[str, Any]) -> dict[str, Any]:
        """The launch that is sent to the adapter."""
        rest = {name: value for name, value in without_own(launch).items() if name != "map"}
        return {**rest, "program": self.program}

    def origin(self, line: int) -> Line | None:
        """Where a line of the lowered text came from."""
        return next(iter(self.map.origins(line)), None)

    def remarks(self) -> list[str]:
        """The messages for the console: that the text was lowered, and what qrev-lower writes by itself."""
        name, files = os.path.basename(self.wanted.program), ", ".join(map(os.path.basename, self.wanted.files))
        was = "is of whole QBE: it was lowered" if self.wanted.is_asked is None else \
            f"was lowered{files and ' with '}{files}"
        return [f"{name} {was}, and is shown by its own lines", *self.told]

    def replayed(self, line: str) -> str:
        """The line of the console that replays the record, by the text that was lowered."""
        front, behind = self.wanted.command_line()
        line = line.replace(f"qrev {self.program} ", f"qrev {front} ", 1)
        at = line.rfind(" < ")
        return line[:at] + behind + line[at:]


class Lowering:
    """A text that is being lowered, which can be ended."""

    def __init__(self, wanted: Wanted) -> None:
        for file in (wanted.program, *map(wanted.path, wanted.files),
                     *([] if wanted.input is None else [wanted.path(wanted.input)]), *map(wanted.path, wanted.found)):
            if "\0" in file or os.path.isdir(file) or not os.access(file, os.R_OK):
                raise BadLaunch(f"cannot read {file}")
        self.wanted, self.folder, self.is_over = wanted, Folder(), False
        # By another name, so that the path of the text that is lowered doesn't end as this one does.
        name = os.path.basename(wanted.program).removesuffix(".ssa")
        self.program = os.path.join(self.folder.path, f"{name}.lowered.ssa")
        try:
            self.process = subprocess.Popen(
                [sys.executable, str(LOWER), *wanted.words(self.program)], cwd=wanted.folder,
                stdin=subprocess.DEVNULL, stdout=subprocess.DEVNULL, stderr=subprocess.PIPE, text=True,
                errors="replace")
        except (OSError, ValueError):
            self.folder.remove()
            raise

    def lowered(self) -> Lowered:
        """What comes of it; a BadLaunch says why nothing does."""
        told = self.process.communicate()[1].splitlines()
        try:
            is_there = os.stat(self.program).st_size > 0
        except OSError:
            is_there = False
        if not is_there:
            self.folder.remove()
            is_wrong = bool(told) and told[0].startswith("Traceback")
            raise BadLaunch(told[-1 if is_wrong else 0] if told else "lowering was ended")
        try:
            return Lowered(self.wanted, self.folder, self.program, placed(self.program, self.wanted), told)
        except BadLaunch:
            self.folder.remove()
            raise

    def end(self) -> None:
        self.process.kill()


# The map of places.

def placed(program: str, wanted: Wanted) -> SourceMap:
    """The map of a lowered text, written with absolute paths.

    A missing source is left out, so that the text itself is shown. If a map is beside that text, it leads the lines on.
    """
    file = pathlib.Path(program + ".map")
    paths, maps = Paths(wanted.folder), maps_of(wanted)
    told: list[str] = []
    for line in file.read_bytes().decode("latin-1").split("\n"):
        fields = line.split("\t")
        if len(fields) >= 2:
            source = paths.of_source(fields[2]) if len(fields) == 5 and fields[2] else ""
            fields = [paths.of_text(fields[0]), fields[1],
                      *([source, *fields[3:]] if source else led_on(fields, maps.get(fields[0])))]
        told.append("\t".join(fields))
    text = "\n".join(told).encode("latin-1")
    if len(text) > MOST_OF_MAP:
        # Lines behind the end are shown as they are.
        text = text[:MOST_OF_MAP].rpartition(b"\n")[0]
    file.write_bytes(text)
    return SourceMap(pathlib.Path(program), text.decode("utf-8", "replace").split("\n"))


def maps_of(wanted: Wanted) -> dict[str, SourceMap]:
    """The maps of the texts that are lowered, each by what the map of what comes of them has for its text."""
    found = {}
    for at, file in enumerate((os.path.basename(wanted.program), *wanted.files)):
        own = own_map(os.path.join(wanted.folder, file), None if at else wanted.map)
        if own is not None:
            found[as_bytes(escaped(as_file(file)))] = own
    return found


def own_map(text: str, named: str | None) -> SourceMap | None:
    """The map beside a text, or the one that the launch names, as the adapter chooses."""
    if named == "":
        return None
    file = pathlib.Path(os.path.abspath(named or f"{text}.map"))
    try:
        given = file.read_bytes()
    except OSError:
        if named is not None:
            raise BadLaunch(f"cannot read {named}") from None
        return None
    if len(given) > MOST_OF_MAP:
        raise BadLaunch(f"map: more than {MOST_OF_MAP} bytes")
    lines = given.split(b"\n")
    for number, line in enumerate(lines, 1):
        if line and not is_place(line):
            raise BadLaunch(f"map: no path and line in line {number}")
    return SourceMap(file, [line.decode() for line in lines])


def is_place(line: bytes) -> bool:
    """Whether a line of a map is a path and a line."""
    found = PLACE.fullmatch(line)
    try:
        line.decode()
    except UnicodeDecodeError:
        return False
    return found is not None and 1 <= int(found[1]) < 1 << 32


def led_on(fields: list[str], own: SourceMap | None) -> list[str]:
    """The fields of the source that a line of the text before lowering came from, if that text's map has one."""
    origins = own.origins(int(fields[1])) if own and fields[1].isdigit() else []
    if not own or not origins:
        return []
    path = os.path.normpath(own.file.parent.joinpath(origins[0].file))
    return [as_bytes(escaped(path)), str(origins[0].number), "0"]


class Paths:
    """Makes the paths of a map whole, from the folder of the text that was lowered."""

    def __init__(self, folder: str) -> None:
        self.folder = folder
        self.known: dict[str, str] = {}

    def of_text(self, path: str) -> str:
        """That of a text: one of the program, or of the runtime."""
        if path not in self.known:
            name = path_of(path)
            here = os.path.join(self.folder, name)
            is_runtime = name.startswith(RUNTIME) and not os.path.exists(here)
            self.known[path] = as_bytes(escaped(os.path.normpath(os.path.join(TOP, name) if is_runtime else here)))
        return self.known[path]

    def of_source(self, path: str) -> str:
        """That of a source, which is looked for at its path and beside the text; nothing if it is missing."""
        key = "\t" + path
        if key not in self.known:
            name = path_of(path)
            found = (os.path.abspath(each) for each in (name, os.path.join(self.folder, name),
                                                        os.path.join(self.folder, os.path.basename(name)))
                     if os.path.isfile(each))
            self.known[key] = as_bytes(escaped(next(found, "")))
        return self.known[key]


def as_bytes(text: str) -> str:
    """A path as the characters that its bytes are."""
    return os.fsencode(text).decode("latin-1")


def escaped(path: str) -> str:
    return path.replace("\\", "\\\\").replace("\t", "\\t").replace("\n", "\\n")


def path_of(field: str) -> str:
    """The path that a field of a map is, of characters that are bytes."""
    return ESCAPE.sub(unescaped, os.fsdecode(field.encode("latin-1")))
