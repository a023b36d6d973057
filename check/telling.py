"""The report of a suspicion: the lines for a reader, and the same for editors (as gcc writes it) and machines
(SARIF)."""
from __future__ import annotations

import json
from dataclasses import dataclass
from typing import AbstractSet, Any, Callable, Iterable, Iterator, Sequence
from urllib.parse import quote

from terminal.text import Instruction

from .shadow import Object, Origin

# A place of a text: function, label and index, with its instruction.
Place = tuple[str, str, int, Instruction]
SARIF = "https://json.schemastore.org/sarif-2.1.0.json"


@dataclass
class Suspicion:
    """A kind at a place of the text: its first move, what was done there, and how often it came."""

    kind: str
    position: int
    function: str
    label: str
    index: int
    instruction: Instruction
    text: str
    count: int = 1
    # The calls that were open at the first move, the innermost one first, if they are known.
    calls: tuple[Place, ...] = ()

    @property
    def at(self) -> tuple[str, str, int, str]:
        """The place and the kind."""
        return self.function, self.label, self.index, self.kind

    def call_from(self, others: AbstractSet[str]) -> Place | None:
        """Of a move in one of these functions, as those of a runtime, the call by the program itself that led there."""
        if self.function not in others:
            return None
        return own_call(self.calls, others)

    def call_lines(self, others: AbstractSet[str], source: Callable[[int], str]) -> list[str]:
        """That call, if there is one, as a line."""
        place = self.call_from(others)
        if not place:
            return []
        function, label, index, instruction = place
        told = source(instruction.line)
        return [f"  called at {function} {label} {index}  line {instruction.line}: {instruction.written()}"
                + (f"  ({told})" if told else "")]

    def lines(self, source: str = "") -> list[str]:
        times = f"  ({self.count} times)" if self.count > 1 else ""
        return [f"#{self.position} {self.function} {self.label} {self.index}  line {self.instruction.line}: "
                f"{self.instruction.written()}" + (f"  ({source})" if source else ""),
                f"  {self.kind}: {self.text}{times}"]


@dataclass
class Error:
    """An error by its code, at a line of the text, or of none; and where in the run, if it was one of a run."""

    code: str
    line: int
    text: str
    place: str = ""

    def gnu(self, file: str, source: Callable[[int], str]) -> str:
        """The same as compilers write it."""
        at = gnu_place(source, file, self.line) if self.line else file
        return f"{at}: error: {self.text}" + (f" [{self.place}]" if self.place else "")


def own_call(calls: Iterable[Place], others: AbstractSet[str]) -> Place | None:
    """Of calls, the innermost one first, the first that isn't made in one of these functions."""
    return next((place for place in calls if place[0] not in others), None)


def counted(number: int, what: str) -> str:
    return f"{number} {what}" if number == 1 else f"{number} {what}s"


def object_told(thing: Object) -> str:
    """An object with its size, and when it was made and ended."""
    if thing.is_code:
        return f"{thing.name}, a function"
    said = [counted(thing.size, "byte")]
    if thing.kind != "data":
        said.append(f"made at #{thing.born}")
    if thing.died is not None:
        said.append(f"{'freed' if thing.kind == 'block' else 'whose frame returned'} at #{thing.died}")
    return f"{thing.name} ({', '.join(said)})"


def distance_told(thing: Object, address: int, count: int) -> str:
    """Where an access lies, as seen from an object."""
    if address < thing.address:
        return f"{counted(thing.address - address, 'byte')} before"
    if thing.contains(address, count):
        return "in"
    if address < thing.end:
        return "across the end of"
    return "at the end of" if address == thing.end else f"{counted(address - thing.end, 'byte')} past the end of"


def bits_told(bits: int) -> str:
    """Which bits are open."""
    first, last = (bits & -bits).bit_length() - 1, bits.bit_length() - 1
    if first == last:
        return f"bit {first} is open"
    whole = bits == (1 << last + 1) - (1 << first)
    return f"bits {first} to {last} are open" if whole else f"some of the bits {first} to {last} are open"


def origin_told(origin: Origin | None) -> str:
    return f": {origin.told} at #{origin.position}" if origin else ""


def summary(suspicions: Sequence[Suspicion], moves: int, end: str, full: int | None = None) -> str:
    """The last line; it says so if only the first moves were looked at for all kinds."""
    number = counted(len(suspicions), "suspicion") if suspicions else "no suspicion"
    kinds = f", {full} of them for all kinds" if full is not None else ""
    return f"{number} in {counted(moves, 'move')}{kinds}, {end}"


def at_own_places(suspicions: Sequence[Suspicion], others: AbstractSet[str]) -> list[Suspicion]:
    """The same, with each suspicion in one of these functions reported at the program's own call."""
    told = []
    for each in suspicions:
        place = each.call_from(others)
        text = f"{each.text}, in {each.function}"
        told.append(Suspicion(each.kind, each.position, *place, text, each.count) if place else each)
    return told


def as_sarif(suspicions: Sequence[Suspicion], errors: Sequence[Error], file: str, version: str,
             source: Callable[[int], str]) -> str:
    """The same as a log that continuous integration shows beside the lines, with what ended the run badly."""
    results: list[dict[str, Any]] = []
    for each in suspicions:
        place = physical(place_of(source(each.instruction.line), file, each.instruction.line))
        results.append({"ruleId": each.kind, "level": "warning", "message": {"text": f"{each.kind}: {each.text}"},
                        "occurrenceCount": each.count, "locations": [{"physicalLocation": place, "logicalLocations": [
                            {"fullyQualifiedName": f"{each.function} {each.label} {each.index}"}]}],
                        "properties": {"position": each.position}})
    for error in errors:
        place = physical(place_of(source(error.line) if error.line else "", file, error.line))
        results.append({"ruleId": error.code, "level": "error", "message": {"text": error.text},
                        "locations": [{"physicalLocation": place}]})
    rules = [{"id": code} for code in sorted({result["ruleId"] for result in results})]
    tool = {"driver": {"name": "qrev", "version": version, "rules": rules}}
    return json.dumps({"$schema": SARIF, "version": "2.1.0", "runs": [{"tool": tool, "results": results}]}, indent=1)


def physical(place: dict[str, Any]) -> dict[str, Any]:
    """A place with its file as a reference to it, in which a blank is %20."""
    return {**place, "artifactLocation": {"uri": quote(place["artifactLocation"]["uri"])}}


def as_gnu(suspicions: Sequence[Suspicion], file: str, source: Callable[[int], str]) -> Iterator[str]:
    """The same in the form in which editors find the places of warnings."""
    for each in suspicions:
        times = f", {each.count} times" if each.count > 1 else ""
        place = f"#{each.position} {each.function} {each.label} {each.index}{times}"
        yield f"{gnu_place(source, file, each.instruction.line)}: warning: {each.kind}: {each.text} [{place}]"


def gnu_place(source: Callable[[int], str], file: str, line: int) -> str:
    """A line as `FILE:LINE` or `FILE:LINE:COLUMN`."""
    place = place_of(source(line), file, line)
    region = place["region"]
    column = f":{region['startColumn']}" if "startColumn" in region else ""
    return f"{place['artifactLocation']['uri']}:{region['startLine']}{column}"


def place_of(told: str, file: str, line: int) -> dict[str, Any]:
    """The place in the compiler's own source if there is a map, else in the text; the last of several counts."""
    name, number, column = file, line, 0
    if told:
        parts = told.split(": ")[-1].rsplit(":", 2)
        if len(parts) == 3 and parts[1].isdigit() and parts[2].isdigit():
            name, number, column = parts[0], int(parts[1]), int(parts[2])
        else:
            name, _, text = told.split(": ")[-1].rpartition(":")
            number = int(text) if text.isdigit() else line
    region = {"startLine": max(number, 1), **({"startColumn": column} if column else {})}
    return {"artifactLocation": {"uri": name}, "region": region}
