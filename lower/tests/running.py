"""Lowers texts and runs them by the built program."""
import pathlib
import re
import subprocess
import sys
import tempfile
from collections.abc import Iterator
from typing import NamedTuple

from lowering.command import Lowering
from lowering.reader import TextReader
from terminal.reading.refusals import Refused

FOLDER = pathlib.Path(__file__).resolve().parent.parent
TOP = FOLDER.parent
LOWER = FOLDER / "qrev-lower"
DATA = FOLDER / "test-data"
LETTERS = {"n": "\n", "t": "\t", "r": "\r", "b": "\b", "f": "\f", '"': '"', "\\": "\\"}
ESCAPE = re.compile(r'\\([0-7]{3}|.)')
MOST_MOVES = 4_294_967_295

# What a test gives: its name, and what is wrong or None.
Result = tuple[str, str | None]


class Skipped(str):
    """In place of what is wrong: the tool that a test waits for."""


class Lowered(NamedTuple):
    """What qrev-lower did."""

    status: int
    text: str
    errors: str
    map: str


class Run(NamedTuple):
    """What qrev answered: the lines, and the last place line."""

    lines: list[str]

    @property
    def end(self) -> str:
        """How the run ends: the last place line without its position."""
        places = [line for line in self.lines if line.startswith("#")]
        return places[-1].partition(" ")[2] if places else "".join(self.lines[:1])

    @property
    def output(self) -> str:
        """What was written, of the last `out` of the script."""
        said = [line for line in self.lines if line.startswith("out ")]
        if not said:
            return "no answer to `out`"
        return ESCAPE.sub(unescaped, said[-1].partition('"')[2][:-1])


def unescaped(match: re.Match[str]) -> str:
    body: str = match.group(1)
    return chr(int(body, 8)) if len(body) == 3 else LETTERS[body]


class Running:
    """The program, and how long it may take."""

    def __init__(self, program: str, seconds: float = 60):
        self.program, self.seconds = program, seconds

    def lower(self, texts: dict[str, str], *options: str, beside: dict[str, str] | None = None) -> Lowered:
        """Lowers texts by their names, in a folder of their own, which has other files beside them."""
        with tempfile.TemporaryDirectory(prefix="lower-") as place:
            folder = pathlib.Path(place)
            for name, text in (*texts.items(), *(beside or {}).items()):
                (folder / name).write_bytes(text.encode("latin-1"))
            with open(folder / "out.ssa", "wb") as output:
                run = subprocess.run([sys.executable, str(LOWER), *options, *texts], stdout=output,
                                     stderr=subprocess.PIPE, cwd=folder, timeout=self.seconds)
            origins = folder / "out.ssa.map"
            return Lowered(run.returncode, (folder / "out.ssa").read_bytes().decode("latin-1"),
                           run.stderr.decode("latin-1"),
                           origins.read_bytes().decode("latin-1") if origins.exists() else "")

    def lower_here(self, text: str, entry: str = "main", is_linked: bool = True, name: str = "a") -> Lowering | str:
        """Lowers a text in this process, under a name of the program; a refusal is what it says."""
        try:
            return Lowering([TextReader(text, f"{name}.ssa").read()], entry, is_linked)
        except Refused as refused:
            return str(refused)

    def told_of_batch(self, program: str, records: int, planted: str) -> tuple[str | None, list[str]]:
        """Runs a text that checks records and prints the wrong ones, one of which was planted: gives a fault of the
        whole, if there is one, and the printed lines except the planted one's."""
        lowered = self.lower_here(program)
        if isinstance(lowered, str):
            return lowered, []
        if lowered.overflows:
            return lowered.overflows[0], []
        run = self.run(lowered.text)
        if run.end != f"done {records}":
            return run.end, []
        told = run.output.split("\n")[:-1]
        if planted not in told:
            return "the planted record isn't told", []
        told.remove(planted)
        return None, told

    def suspicion(self, text: str) -> str | None:
        """The first suspicion that a check of a text has, or what else it says where it doesn't end well."""
        lowered = self.lower_here(text)
        if isinstance(lowered, str):
            return lowered
        with tempfile.NamedTemporaryFile(suffix=".ssa") as file:
            file.write(lowered.text.encode("latin-1"))
            file.flush()
            run = subprocess.run([sys.executable, str(TOP / "check" / "main"), "--debugger", self.program, file.name],
                                 capture_output=True, text=True, timeout=5 * self.seconds)
        return " ".join((run.stdout + run.stderr).splitlines()[:2]) if run.returncode else None

    def run(self, text: str, script: str = "continue\nout\n", words: tuple[str, ...] = (),
            keeps_history: bool = False) -> Run:
        """Runs a lowered text under a script."""
        with tempfile.NamedTemporaryFile(suffix=".ssa") as file:
            file.write(text.encode("latin-1"))
            file.flush()
            bounds = ["--limit", str(MOST_MOVES)] + ([] if keeps_history else ["--history", "1"])
            run = subprocess.run(["qrev", file.name, *words, *bounds], executable=self.program, input=script.encode(),
                                 capture_output=True, timeout=self.seconds)
        return Run(run.stdout.decode("latin-1").split("\n")[:-1])


def differ(what: str, wanted: object, given: object) -> str | None:
    return None if wanted == given else f"{what}: {given!r} in place of {wanted!r}"


Results = Iterator[Result]
