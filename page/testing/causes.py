"""The page's causes against those of `why` at the terminal (terminal/causes.py): the same moves, the same next
questions.

The page's modules answer in node, or in a browser without node. Each question is about a random state of a run: every
temporary of the function there, the way that led there, bytes of data and of the stack, the end, bytes of the output.
"""
from __future__ import annotations

import base64
import json
import pathlib
import random
import re
import shutil
import subprocess
import sys
import tempfile
from dataclasses import dataclass, field
from typing import Any, Callable, Iterator, Sequence

from terminal.answers import Place
from terminal.causes import Cause, Causes, Question
from terminal.frames import Frames
from terminal.lowered import Lowered, lowered_of
from terminal.scratch import Launch, Scratch
from terminal.text import LOADED, STORED, Program
from terminal.timeline import Poke, Timeline
from terminal.values import Names, as_float, bits_of
from terminal.waiting import Waiting

from ..exporting import joined
from ..gathering import Gathering
from ..lowering import Lowering
from ..table import Table

HERE = pathlib.Path(__file__).resolve().parent
TOP = HERE.parent.parent
CORE = ("program.js", "workedout.js", "run.js", "memory.js", "causes.js")
COMPARER = TOP / "release" / "qrev-compare-x86_64-linux"
IN_NODE = """
import {readFileSync, writeSync} from "node:fs";
const found = JSON.parse(readFileSync(0, "utf8")).map(({told, stream, questions}) =>
  answersOf(told, Uint8Array.from(Buffer.from(stream, "base64")), questions));
const bytes = Buffer.from(JSON.stringify(found));
for (let at = 0; at < bytes.length;) at += writeSync(1, bytes, at);
"""
TOLD_MOVE = re.compile(r"^(?:  |.* by hand: )#(\d+) ")
NOT_SURE = "  stores of the same value behind that weren't looked for"
# Moves that a random program is followed for; one that goes on is left out.
MOST_MOVES = 2_000
# What a program and a question are to a test: the state, and what is asked there.
Asked = list[Any]


@dataclass
class Case:
    """A run with questions about it, and what the terminal answers to each."""
    name: str
    told: dict[str, Any]
    stream: bytes
    questions: list[Asked] = field(default_factory=list)
    wanted: list[Any] = field(default_factory=list)

    def given(self) -> dict[str, Any]:
        return {"told": self.told, "stream": base64.b64encode(self.stream).decode(), "questions": self.questions}


class Terminal:
    """The terminal's `why`, asked about states of a run."""

    def __init__(self, launch: Launch, program: Program, run: Timeline, lowered: Lowered | None = None):
        self.program, self.scratch, self.run = program, Scratch(launch, Waiting()), run
        names = Names(program)
        self.frames = Frames(program, names, self.scratch)
        self.causes = Causes(program, names, self.frames, self.scratch, lowered=lowered)

    def answer(self, asked: Asked) -> Any:
        """The answer expected of the page, or None for a question that the terminal doesn't answer for sure."""
        of, position = asked[:2]
        at = self.run.at(position)
        if of == "byte":
            return self.scratch.go(at).memory(asked[2], 1)[0]
        cause = self.cause(of, at, asked)
        return None if any(line.startswith(NOT_SURE) for line in cause.lines) else told_of(cause)

    def cause(self, of: str, at: Timeline, asked: Asked) -> Cause:
        if of == "end":
            return self.causes.of_end(at)
        if of == "output":
            return self.causes.of_output(asked[2], at)
        if of == "temporary":
            return self.causes.of(self.causes.temporary(asked[2], self.frames.before_end(at)))
        if of == "memory":
            return self.causes.of(self.causes.memory(asked[2], asked[3], at))
        return self.causes.of(self.causes.control(at, self.place(at)))

    def place(self, at: Timeline) -> Place:
        return self.frames.where(at)[0]


def told_of(cause: Cause) -> dict[str, Any]:
    """Moves and next questions of a cause, in the form in which testing/causes.js gives those of the page."""
    split = next((n for n, line in enumerate(cause.lines) if line.startswith("  but memory")), len(cause.lines))
    moves = [int(match.group(1)) for match in map(TOLD_MOVE.match, cause.lines[:split]) if match]
    changed = [int(match.group(1)) for match in map(TOLD_MOVE.match, cause.lines[split:]) if match]
    return {"moves": moves, "next": list(map(key_of, cause.questions)), "changed": changed[0] if changed else None,
            "note": note_of(cause)}


def note_of(cause: Cause) -> str | None:
    """Where a dead address lies, if not by a frame: the page numbers no frames, and names none that is over."""
    if not cause.lines[0].startswith("fault dead address ") or re.search(r"\bframe\b", cause.lines[2]):
        return None
    return cause.lines[2].strip()


def key_of(question: Question) -> str:
    where = f"{question.name}{question.address or ''}" + (f" {question.count}" if question.count else "")
    value = re.search(r" = (\d+)( \(|$)", question.text)
    told = value.group(1) if value else "unset" if question.text.endswith(" unset") else ""
    if question.of == "memory" and question.count not in (1, 2, 4, 8):
        told = ""
    return f"{question.of} {question.at.position} {where} {told}".strip()


def same(wanted: Any, given: Any) -> bool:
    if not isinstance(wanted, dict):
        return bool(wanted == given)
    return all(sorted(set(wanted[name])) == sorted(set(given[name])) for name in ("moves", "next")) \
        and wanted["changed"] == given["changed"] and wanted["note"] in (None, given["note"])


def questions_of(program: Program, gathering: Gathering, chosen: random.Random, states: int,
                 live: Live) -> Iterator[Asked]:
    """Questions about random states: temporaries, the way, bytes and words of memory, the end, the output."""
    moves = len(gathering.places) - 1
    last = moves - (gathering.places[-1] == gathering.table.end)
    for position in chosen.sample(range(last + 1), min(states, last + 1)):
        function, _, _, instruction = gathering.table.places[gathering.places[position]]
        for name in program.functions[function].temporaries:
            yield ["temporary", position, name]
        yield ["control", position]
        for address in live(position, chosen):
            yield ["byte", position, address]
            yield ["memory", position, address, 1]
        size = STORED.get(instruction.operation) or LOADED.get(instruction.operation)
        for data in chosen.sample(program.data, min(len(program.data), 1)):
            if size and data.size >= size:
                yield ["memory", position, data.address + chosen.randrange(data.size - size + 1), size]
    if gathering.end:
        yield ["end", moves]
    for index in chosen.sample(range(len(gathering.output)), min(len(gathering.output), 4)):
        yield ["output", moves, index]


class Live:
    """Addresses of data and of the stack that are live in a state, chosen at random."""

    def __init__(self, terminal: Terminal, gathering: Gathering, run: Timeline):
        self.terminal, self.gathering, self.run = terminal, gathering, run

    def __call__(self, position: int, chosen: random.Random) -> list[int]:
        program, scratch = self.terminal.program, self.terminal.scratch
        found = [data.address + chosen.randrange(data.size)
                 for data in chosen.sample(program.data, min(2, len(program.data)))
                 if data.size]
        function = self.gathering.table.places[self.gathering.places[position]][0]
        made = {one.result for _, _, one in program.functions[function].places() if one.operation.startswith("alloc")}
        for name, value in scratch.go(self.run.at(position)).temporaries().items():
            if name in made and value is not None and scratch.memory(value, 1)[0] is not None:
                found.append(value)
        return found


def case_of(program_path: str, name: str, file: str, words: Sequence[str], states: int, seed: int, most: int = 1 << 21,
            pokes: tuple[Poke, ...] = ()) -> Case | None:
    """A run with questions and the terminal's answers; None of one that is refused or is too long."""
    launch = Launch(program_path, file, tuple(words))
    source, lowered = pathlib.Path(file).read_bytes(), lowered_of(file)
    lowering = Lowering(Program(source), source, launch, lowered)
    program = lowering.program
    table = Table(Program(source))
    gathering = Gathering(launch, table, most, pokes=pokes)
    gathering.gather()
    if not gathering.end:
        return None
    case = Case(name, table.told(name, lowering=lowering), b"".join(gathering.parts))
    run = Timeline(len(gathering.places) - 1, pokes)
    terminal = Terminal(launch, program, run, lowered)
    try:
        for asked in questions_of(program, gathering, random.Random(seed), states, Live(terminal, gathering, run)):
            wanted = terminal.answer(asked)
            if wanted is not None or asked[0] == "byte":
                case.questions.append(asked)
                case.wanted.append(wanted)
    finally:
        terminal.scratch.drop()
    return case


def random_cases(program_path: str, count: int, folder: str) -> Iterator[Case]:
    """Random programs of the whole language that run, a few states of each."""
    sys.path.insert(0, str(TOP / "tests"))
    from robustness_tests.programs import random_program
    seed = 0
    while count:
        seed += 1
        text, arguments = random_program(random.Random(seed))
        file = pathlib.Path(folder) / f"{seed}.ssa"
        file.write_bytes(text)
        words = list(map(str, arguments))
        if subprocess.run([program_path, str(file), *words], stdin=subprocess.DEVNULL,
                          stdout=subprocess.DEVNULL).returncode:
            continue
        case = case_of(program_path, f"random program {seed}", str(file), words, 2, seed, MOST_MOVES)
        if case:
            count -= 1
            yield case


def answered_in_node(cases: list[Case]) -> list[list[Any]]:
    with tempfile.TemporaryDirectory(prefix="page-") as folder:
        script = pathlib.Path(folder) / "causes.mjs"
        script.write_text(joined(CORE) + (HERE / "causes.js").read_text() + IN_NODE)
        run = subprocess.run(["node", str(script)], input=json.dumps([case.given() for case in cases]).encode(),
                             capture_output=True, timeout=900)
    if run.returncode:
        raise RuntimeError(run.stderr.decode()[-1500:])
    return list(json.loads(run.stdout))


def has_node() -> bool:
    return shutil.which("node") is not None


def faults_of(case: Case, given: list[Any]) -> Iterator[str]:
    for asked, wanted, answer in zip(case.questions, case.wanted, given):
        if not same(wanted, answer):
            yield f"{case.name}: {asked}: the page answers {answer} and the terminal {wanted}"


# Tests.

EXAMPLES = [*sorted((TOP / "examples").glob("*.ssa")), *sorted((TOP / "terminal" / "testing").glob("*.ssa"))]
STATES, RANDOM, MOST_LOWERED = 8, 500, 60_000


def faults(cases: list[Case]) -> str | None:
    """The first of the answers that differ, with how many do."""
    if not any(case.questions for case in cases):
        return "no question was asked"
    given = answered_in_node(cases) if has_node() else answered_in_browser(cases)
    found = [fault for case, answers in zip(cases, given) for fault in faults_of(case, answers)]
    return f"{found[0]} ({len(found)} of {sum(len(case.questions) for case in cases)})" if found else None


def answered_in_browser(cases: list[Case]) -> list[list[Any]]:
    from .browser import Browser
    browser = Browser()
    try:
        browser.run(f"(() => {{ {joined(CORE)} {(HERE / 'causes.js').read_text()} window.answersOf = answersOf; }})()")
        call = "answersOf(given.told, Uint8Array.from(atob(given.stream), sign => sign.charCodeAt(0)), given.questions)"
        return [browser.run(f"(given => {call})({json.dumps(case.given())})") for case in cases]
    finally:
        browser.close()


def of_examples(program: str) -> str | None:
    """Random states of the examples, which are the stories too, and of the terminal's own programs."""
    cases = [case_of(program, file.stem, str(file), (), STATES, 1) for file in EXAMPLES]
    return faults([case for case in cases if case])


LOWERED = [*sorted((TOP / "lower" / "test-data" / "real").glob("*.ssa")),
           *(TOP / "lower" / "test-data" / "programs" / f"{name}.ssa" for name in ("sorted", "strings", "matrix"))]


def of_lowered_texts(program: str) -> str | None:
    """Lowered texts: a function of the runtime is one instruction, and questions are about what it reads and sets."""
    with tempfile.TemporaryDirectory(prefix="page-") as folder:
        cases = []
        for text in LOWERED:
            file = f"{folder}/{text.stem}.ssa"
            subprocess.run([str(TOP / "lower" / "qrev-lower"), "--link", "--output", file, str(text)],
                           capture_output=True, stdin=subprocess.DEVNULL)
            cases.append(case_of(program, text.stem, file, (), STATES, 3, MOST_LOWERED))
        return faults([case for case in cases if case])


def float_texts(program: str) -> str | None:
    """Floats are written as at the terminal: doubles and singles of random bits, and those at the edges."""
    chosen = random.Random(4)
    edges = [0, 1, 1 << 63, 0x3ff0000000000000, 0x7fefffffffffffff, 0x7ff0000000000000, 0xfff0000000000000,
             0x7ff8000000000000, 0x4341c37937e08000, 0x4341c37937e07fff, 0x3f1a36e2eb1c432d, 0x3f1a36e2eb1c432c,
             0x000fffffffffffff]
    edges += [value >> 29 & 0xffffffff for value in edges] + [0x3dcccccd, 0x7f7fffff, 0x80000000, 0x7fc00000,
                                                              0x4b18967f]
    asked = [(value, cls) for value in edges for cls in "ds"]
    asked += [(chosen.getrandbits(64), "d") for _ in range(2000)] + [(chosen.getrandbits(32), "s") for _ in range(2000)]
    asked += [(bits_of(chosen.randrange(-10 ** 9, 10 ** 9) / 10 ** chosen.randrange(12), cls), cls) for cls in "ds"
              for _ in range(1000)]
    call = "given.map(([value, cls]) => floatText(BigInt(value), cls))"
    found = evaluated(call, [[str(value), cls] for value, cls in asked])
    wrong = [(value, cls, text, as_float(value, cls)) for (value, cls), text in zip(asked, found)
             if text != as_float(value, cls)]
    return f"{wrong[0]} ({len(wrong)} of {len(asked)})" if wrong or len(found) != len(asked) else None


def event_counts(program: str) -> str | None:
    """A run has as many events of each kind, and of all, as qrev-compare counts of it beside itself."""
    given, wanted = [], []
    for file in EXAMPLES:
        table = Table(Program(file.read_bytes()))
        gathering = Gathering(Launch(program, str(file), ()), table, MOST_LOWERED)
        gathering.gather()
        if not gathering.end:
            continue
        stream = base64.b64encode(b"".join(gathering.parts)).decode()
        for kinds in ("output", "writes", "calls", "end", "output,writes,calls,end"):
            told = subprocess.run(["qrev-compare", str(file), str(file), "--events", kinds], executable=COMPARER,
                                  stdin=subprocess.DEVNULL, capture_output=True, text=True).stdout
            given.append({"told": table.told(file.stem), "stream": stream, "kinds": kinds.split(",")})
            wanted.append([file.stem, kinds, int(told.split()[1])])
    call = (
        "given.map(({told, stream, kinds}) => { const run = runOf(told, "
        "Uint8Array.from(atob(stream), sign => sign.charCodeAt(0)));"
        " return eventsOf(run, new Memory(run), run.program, kinds).length; })")
    found = evaluated(call, given, (*CORE, "events.js"))
    wrong = [f"{name}, {kinds}: {count} events and not {number}" for (name, kinds, number), count in zip(wanted, found)
             if count != number]
    return "; ".join(wrong[:3]) or (None if len(found) == len(wanted) > 20 else f"{len(found)} counts")


def evaluated(call: str, given: Any, modules: tuple[str, ...] = CORE) -> Any:
    """The value of an expression over what is given, in node or in a browser."""
    if not has_node():
        return in_browser(call, given, modules)
    with tempfile.TemporaryDirectory(prefix="page-") as folder:
        script = pathlib.Path(folder) / "asked.mjs"
        script.write_text(joined(modules) + "import {readFileSync} from 'node:fs';\n"
                          f"const given = JSON.parse(readFileSync(0, 'utf8'));\nconsole.log(JSON.stringify({call}));\n")
        run = subprocess.run(["node", str(script)], input=json.dumps(given), capture_output=True, text=True,
                             timeout=600)
    if run.returncode:
        raise RuntimeError(run.stderr[-1500:])
    return json.loads(run.stdout)


def in_browser(call: str, given: Any, modules: tuple[str, ...] = CORE) -> Any:
    """The value of an expression over what is given, in a browser."""
    from .browser import Browser
    browser = Browser()
    try:
        return browser.run(f"(() => {{ {joined(modules)} const given = {json.dumps(given)}; return {call}; }})()")
    finally:
        browser.close()


def of_random_programs(program: str) -> str | None:
    with tempfile.TemporaryDirectory(prefix="page-") as folder:
        return faults(list(random_cases(program, RANDOM, folder)))


# Values by hand, each at a position, with the number of frames there.
POKES = {"squares": (Poke(45, "poke w $bias 0", 2), Poke(61, "set %sum 100", 1)),
         "account": (Poke(12, "poke w $balance 7", 2), Poke(14, "set %i 1", 1)),
         "digits": (Poke(40, "set %rest 77", 2),),
         # The word is 0 there already, and a byte of the table 1.
         "primes": (Poke(3, "poke w $sieve 0", 1),)}


def of_pokes(program: str) -> str | None:
    """The same where values were set by hand, also where one left a byte as it was."""
    cases = []
    for name, pokes in POKES.items():
        case = case_of(program, f"{name} with pokes", str(TOP / "examples" / f"{name}.ssa"), (), STATES, 2, pokes=pokes)
        if case:
            cases.append(case)
    return faults(cases)


CASES: dict[str, Callable[[str], str | None]] = {"examples": of_examples, "random programs": of_random_programs,
                                                 "values by hand": of_pokes, "lowered texts": of_lowered_texts,
                                                 "floats": float_texts, "events": event_counts}
