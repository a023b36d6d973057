"""Whether the sessions see wrong behaviour: each kind is planted in a copy of the adapter of tests/oracle. The copy
must then fail the named session, and pass it without."""
from __future__ import annotations

import pathlib
import shutil
import tempfile
from collections.abc import Iterator
from typing import NamedTuple

from harness.running import TOP

from .driver import play
from .sessions import FOLDER, Case

ORACLE = TOP / "tests" / "oracle"
PROGRAM = TOP / "tests" / "dap_tests" / "oracle_adapter"
# An adapter that keeps a message back is waited for no longer; and one that has nothing planted, on a busy machine.
SECONDS, PATIENCE = 5, 300


class Plant(NamedTuple):
    """A wrong behaviour: what is changed in which file, and the session that sees it."""

    file: str
    old: str
    new: str
    session: str


ANSWER_MESSAGES = """        for message in adapter.answer(request) if request else []:
            number += 1
"""
PLANTS = {
    # Messages.
    "a frame of a byte more": Plant("messages.py", "% len(body) + body", "% (len(body) + 1) + body", "outside"),
    "a frame of a byte fewer": Plant("messages.py", "% len(body) + body", "% (len(body) - 1) + body", "outside"),
    "an event before its response": Plant("adapter.py", "return [response] + self.events",
                                          "return self.events + [response]", "back"),
    "a response to the request before": Plant(
        "adapter.py", '"request_seq": request["seq"]',
        '"request_seq": request["seq"] - (request["command"] == "scopes")', "recursion"),
    "a response after the next one": Plant("adapter.py", ANSWER_MESSAGES,
                                           """        late, kept = locals().get("kept", []), []
        answers = adapter.answer(request) if request else []
        if request and request["command"] == "scopes":
            answers, kept = [], answers
        for message in answers + late:
            number += 1
""", "recursion"),
    "two responses to a request": Plant("adapter.py", "return [response] + self.events",
                                        "return [response, response] + self.events", "back"),
    "no response to a failure": Plant("adapter.py", "return [response] + self.events",
                                      "return [response] * response['success'] + self.events", "outside"),
    "a number given twice": Plant("adapter.py", ANSWER_MESSAGES, ANSWER_MESSAGES.replace("+= 1", "+= number < 9"),
                                  "back"),
    "an event that nobody asked for": Plant(
        "adapter.py", '            self.by_line("step")\n\n    def goes_by_lines',
        '            self.by_line("step")\n            self.tell("continued", threadId=1)\n\n    def goes_by_lines',
        "first"),
    # The record.
    "a line that isn't recorded": Plant("debuggee.py", '        self.script.append(text + "\\n")\n',
                                        '        if not text.startswith("delete"):\n            '
                                        'self.script.append(text + "\\n")\n', "map"),
    "a look that is recorded": Plant("adapter.py", '        return {"threads"',
                                     '        self.debuggee.line("where")\n        return {"threads"', "record"),
    "one move more recorded": Plant("debuggee.py", 'self.line(f"{word} {made}")', 'self.line(f"{word} {made + 1}")',
                                    "record"),
    # Frames and variables.
    "a variable of the wrong frame": Plant("shown.py", "        frame = self.frame(reference)\n",
                                           "        frame = self.frame(1)\n", "recursion"),
    "a value of the wrong frame": Plant("shown.py", "self.view.frame(self.number)", "self.view.frame(1)", "recursion"),
    "a float as its bits": Plant("shown.py", 'if letter in "sd" and not self.is_hex', "if False", "floats"),
    "an operator that binds too tightly": Plant("expressions.py", '("+", "-"), ("*", "/", "%"))',
                                                '("*", "/", "%"), ("+", "-"))', "expressions"),
    "memory of the wrong width": Plant("expressions.py", "scene.bytes(address.whole() % 2**64, WIDTHS[self.letter])",
                                       "scene.bytes(address.whole() % 2**64, 1)", "expressions"),
    "the outermost frame first": Plant("shown.py", "self.now.frames[::-1]", "self.now.frames", "recursion"),
    "a caller on the line after its call": Plant("shown.py", "frame.at - (number > 1)", "frame.at", "recursion"),
    "a page that begins one late": Plant("adapter.py", "found[start:start + count if count else None]",
                                         "found[start + bool(count):start + count if count else None]", "recursion"),
    # Breakpoints.
    "a breakpoint one place late": Plant("places.py", "if line <= mark.line", "if line < mark.line", "lines"),
    "a breakpoint on the line that was asked for": Plant(
        "adapter.py", '{"line": self.debuggee.told(self.debuggee.line_of(*place)), ', '{"line": wanted["line"], ',
        "lines"),
    "stops of all requests taken away": Plant("debuggee.py", "        for number in sorted(self.made[kind]):",
                                              "        for number in sorted(sum(self.made.values(), [])):", "map"),
    "a breakpoint in a source that nobody knows": Plant("adapter.py",
                                                        '            raise Failure("another file")\n'
                                                        '        return found',
                                                        "            return None\n        return found", "map"),
    "a condition that nobody looks at": Plant("adapter.py", "if rule.condition and not is_true(",
                                              "if False and not is_true(", "conditions"),
    "hits counted from one more": Plant("asked.py", "len(before) + 1, self.hits", "len(before) + 2, self.hits",
                                        "conditions"),
    "a message that stops the run": Plant("adapter.py", "log += self.log_of(rule.message)",
                                          "hits.append(one)\n                    log += self.log_of(rule.message)",
                                          "conditions"),
    "a watch of the first bytes alone": Plant("adapter.py", "            return list(self.whole_object(name)), {}",
                                              "            return list(self.whole_object(name))[:1], {}", "conditions"),
    "one breakpoint told of several": Plant("debuggee.py", "        return sorted(found)\n",
                                            "        return sorted(found)[:1]\n", "stops"),
    # Maps of places.
    "a breakpoint at the first place of its line alone": Plant(
        "adapter.py", "places = self.debuggee.entries(path, line) or",
        "places = self.debuggee.entries(path, line)[:1] or", "source_lines"),
    "steps by places in place of lines": Plant("adapter.py", "return self.debuggee.sources is not None and",
                                               "return False and", "source_lines"),
    "the line of the text for that of the source": Plant("adapter.py", '{"line": self.debuggee.told(line), "source"',
                                                         '{"line": self.debuggee.told(text_line), "source"', "map"),
    "a line without a source in that of the line before": Plant(
        "debuggee.py", "origin = self.sources.origin(line) if self.sources else None\n",
        "origin = self.sources and next(filter(None, map(self.sources.origin, range(line, 0, -1))), None)\n", "map"),
    "a source line before the one asked for": Plant("mapping.py", "if at >= line), None)", "if at >= line - 1), None)",
                                                    "map"),
    "a bad line that is passed over": Plant("mapping.py",
                                            '                raise BadMap(f"map: no path and line in '
                                            'line {number}") from None',
                                            "                self.origins.append(None)", "maps"),
    "a line 0": Plant("mapping.py", "not 1 <= int(fields[1])", "not 0 <= int(fields[1])", "maps"),
    "a source in place of what it was made from": Plant("mapping.py", "if len(fields) == 5 and",
                                                        "if len(fields) == 6 and", "maps"),
    "paths that go from the folder of the adapter": Plant("mapping.py", 'posixpath.dirname(self.file) + "/" + path',
                                                          '"./" + path', "maps"),
    "a map that isn't there let through": Plant("launching.py",
                                                "            if self.map is None:\n                return None\n",
                                                "            return None\n", "maps"),
}


def fault_with(folder: pathlib.Path, session: str, seconds: float) -> str | None:
    """How an adapter in a folder differs from what a session says, or None."""
    run = pathlib.Path(folder) / "run"
    run.mkdir()
    for program in [*FOLDER.glob("*.ssa"), *(TOP / "examples").glob("*.ssa")]:
        shutil.copy(program, run)
    return play(str(folder / "dap_tests" / PROGRAM.name), session, (FOLDER / f"{session}.dap").read_text(), run,
                seconds)[0]


def copy_into(folder: pathlib.Path) -> None:
    """A copy of the adapter in a folder."""
    shutil.copytree(ORACLE, folder / "oracle")
    (folder / "dap_tests").mkdir()
    shutil.copy(PROGRAM, folder / "dap_tests")


def plant_fault(program: str, seconds: float, plant: Plant) -> str | None:
    """What is wrong with a planted behaviour: it can't be planted, or isn't seen; or None. The program plays no
    part."""
    with tempfile.TemporaryDirectory(prefix="dap-") as place:
        folder = pathlib.Path(place).resolve()
        copy_into(folder)
        path = folder / "oracle" / plant.file
        text = path.read_text()
        if text.count(plant.old) != 1:
            return f"{plant.file} has {plant.old!r} {text.count(plant.old)} times"
        path.write_text(text.replace(plant.old, plant.new))
        fault = fault_with(folder, plant.session, SECONDS)
    return None if fault else f"{plant.session}.dap doesn't see it"


def sound_fault(program: str, seconds: float, session: str) -> str | None:
    """How the adapter differs from what a session says with nothing planted, or None."""
    with tempfile.TemporaryDirectory(prefix="dap-") as place:
        folder = pathlib.Path(place).resolve()
        copy_into(folder)
        return fault_with(folder, session, PATIENCE)


def cases() -> Iterator[Case]:
    """Each case: its name, a function of the program and the seconds, and what else that takes."""
    for session in sorted({plant.session for plant in PLANTS.values()}):
        yield f"nothing, in {session}", sound_fault, (session,)
    for name, plant in PLANTS.items():
        yield name, plant_fault, (plant,)
