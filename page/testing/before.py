"""Long runs in a real browser: causes that lie before the window, which are the moves that `why` at the terminal names;
and values by hand, with the run that the debugger makes of them."""
from __future__ import annotations

import json
import pathlib
import random
import tempfile
from typing import Any, Callable, Iterator

from terminal.answers import read_place
from terminal.pipe import Pipe
from terminal.scratch import Launch
from terminal.text import Program
from terminal.timeline import Poke, Timeline, lines_between

from .browser import Browser
from .causes import Asked, Terminal, told_of
from .serving import Serving

# What is set at the beginning and read at the end of some 36,000 moves: by a copy, a store, an alloc, the arguments of
# a call and its result, in an outer frame too; and bytes of the output.
FAR = """data $cells = { w 3, z 60 }
export function w $main() {
@start
\t%early =w copy 7
\t%slot =l alloc8 16
\t%other =l add %slot, 4
\tstorew 5, %slot
\tstoreh 6, %other
\tstorew %early, $cells
\t%out =w call $putchar(w 72)
\t%kept =w call $doubled(w %early)
\t%back =w call $work(w %kept, l %slot)
\t%sum =w add %back, %kept
\t%all =w add %sum, %early
\tret %all
}
function w $doubled(w %given) {
@start
\t%twice =w add %given, %given
\tret %twice
}
function w $work(w %first, l %place) {
@start
\tjnz %first, @many, @none
@none
\tret 0
@many
\t%chosen =w phi @start 4
\tjmp @loop
@loop
\t%i =w phi @many 0, @loop %next
\t%next =w add %i, 1
\t%more =w csltw %next, 12000
\tjnz %more, @loop, @end
@end
\t%out =w call $putchar(w 73)
\t%read =l loadl %place
\t%cell =l loadl $cells
\t%sum =w add %chosen, %first
\tret %sum
}
"""
MOST = "20000"
WHOLE = "(async () => { while (!app.long.isDone) await new Promise(done => setTimeout(done, 5)); })()"
LOOKED = """(async question => {
  app.ask(question);
  const {root} = app.walk;
  const isBefore = root.cause.verb.startsWith("before this window");
  while (root.cause.verb.includes("being looked at")) await new Promise(done => setTimeout(done, 5));
  return {isBefore, verb: root.cause.verb, note: root.cause.note ?? "",
    moves: root.kids.filter(kid => kid.question.of === "there").map(kid => kid.question.move)}; })"""
# Goes to the first cause that was found, and back.
THERE = """(async () => {
  const here = [app.run.base + app.cursor, app.walk.root.question.label];
  app.choose(app.walk.root.kids[0]);
  await new Promise(done => setTimeout(done, 5));
  while (app.isReaching) await new Promise(done => setTimeout(done, 5));
  await new Promise(done => setTimeout(done, 20));
  const {root} = app.walk, cause = root.cause, there = {base: app.run.base, cursor: app.run.base + app.cursor,
    of: root.question.of, label: root.question.label, move: cause.move + app.run.base,
    next: root.kids.map(kid => kid.question.label)};
  app.effect();
  await new Promise(done => setTimeout(done, 5));
  while (app.isReaching) await new Promise(done => setTimeout(done, 5));
  await new Promise(done => setTimeout(done, 20));
  return {here, there, back: [app.run.base + app.cursor, app.walk.root.question.label]}; })()"""


def questions_of(program: Program, function: str, position: int, base: int) -> Iterator[tuple[str, Asked]]:
    """Each question that the page is asked at a state, and how the terminal is asked the same."""
    here = f"{position} - app.run.base"
    for name in program.functions[function].temporaries:
        yield f"app.causes.temporary({json.dumps(name)}, {here})", ["temporary", position, name]
    yield f"app.causes.control({here})", ["control", position]
    for data in program.data:
        for count in (1, 4, 8):
            yield f"app.causes.bytes({data.address}, {count}, {here})", ["memory", position, data.address, count]


def of_window(program: str) -> str | None:
    """At states of the last window whatever lies before it: the moves are those that the terminal names."""
    with tempfile.TemporaryDirectory(prefix="page-") as folder:
        file = pathlib.Path(folder) / "far.ssa"
        file.write_text(FAR)
        browser, text = Browser(), Program(file.read_bytes())
        terminal = Terminal(Launch(program, str(file), ()), text, Timeline())
        try:
            with Serving(program, str(file), options=("--most", MOST)) as serving:
                browser.open(serving.address)
                browser.run(WHOLE)
                return first_fault(browser, terminal, text) or "; ".join(browser.errors()) or None
        finally:
            terminal.scratch.drop()
            browser.close()


def first_fault(browser: Browser, terminal: Terminal, text: Program) -> str | None:
    end = browser.run("app.reach(app.long.moves).then(() => app.run.base + app.run.moves)")
    base, looked, gone = browser.run("app.run.base"), 0, 0
    for position in (end - 1, end - 3, end - 5, end - 8, base + 1):
        browser.run(f"app.goTo({position})")
        function = browser.run("app.run.placeAt(app.cursor).func.name")
        asked = [*questions_of(text, function, position, base),
                 *((f"app.causes.output({index})", ["output", position, index]) for index in range(2)
                   if position == end - 1)]
        for call, wanted in asked:
            fault, is_before, moves = one_fault(browser, terminal, call, wanted, base)
            if fault:
                return f"{wanted}: {fault}"
            looked += is_before
            if moves and gone < 12:
                gone += 1
                fault = gone_fault(browser, moves[0])
                if fault:
                    return f"{wanted}: {fault}"
    return None if looked > 30 and gone == 12 else f"{looked} lay before the window, and {gone} were gone to"


def one_fault(browser: Browser, terminal: Terminal, call: str, wanted: Asked,
              base: int) -> tuple[str | None, bool, list[int]]:
    """What is wrong with an answer, whether it lies before the window, and the moves."""
    given: dict[str, Any] = browser.run(f"{LOOKED}({call})")
    if not given["isBefore"]:
        return None, False, []
    terminal.run = Timeline(wanted[1])
    moves = sorted(set(told_of(terminal.cause(wanted[0], terminal.run.at(wanted[1]), wanted))["moves"]))
    # Of a result the call is told too.
    found = sorted(given["moves"])
    is_same = found == moves or (len(found) == 1 and found[0] in moves)
    if not is_same or any(move >= base for move in found) or not found and not given["note"]:
        return f"found are {found} {given['note']!r}, and the terminal has {moves}", True, []
    return None, True, found


def gone_fault(browser: Browser, move: int) -> str | None:
    given = browser.run(THERE)
    there = given["there"]
    if there["move"] != move or there["cursor"] != move or there["of"] != "move" or there["label"] != given["here"][1]:
        return f"#{move} was gone to, and there is {there}"
    return None if given["back"] == given["here"] else f"back is {given['back']} and not {given['here']}"


# Brings the session to where the cursor is, and tells how the page compares.
COMPARED = """(async position => {
  await app.goTo(position);
  while (app.isReaching) await new Promise(done => setTimeout(done, 5));
  await app.agreed.compare();
  const {className, textContent} = document.getElementById("agreed");
  return [className, textContent, app.run.base + app.cursor]; })"""
MADE = "(async line => { app.say(''); await app.make(line); return document.getElementById('said').textContent; })"
LINES = ("set %chosen 1000", "set %chosen 77", "poke w $cells 9", "poke b $cells+8 255", "set %first 3", "set %i 11000")


def by_hand(program: str) -> str | None:
    """Values by hand at random places of a long run, some taken back: the end is that of the plain debugger, and at
    random places the page shows what the session answers."""
    with tempfile.TemporaryDirectory(prefix="page-") as folder:
        file = pathlib.Path(folder) / "far.ssa"
        file.write_text(FAR)
        browser, chosen = Browser(), random.Random(9)
        try:
            with Serving(program, str(file), options=("--most", MOST)) as serving:
                browser.open(serving.address)
                pokes: list[tuple[int, str]] = []
                for number in range(10):
                    browser.run(WHOLE)
                    fault = changed_fault(browser, chosen, pokes, is_undone=number in (4, 7, 8)) \
                        or run_fault(browser, program, str(file), chosen, pokes)
                    if fault:
                        return f"after {pokes}: {fault}"
                return "; ".join(browser.errors()) or None
        finally:
            browser.close()


# Holds back the first answer to a request until it is let go.
HELD = """(path => {
  const ask = app.source.ask.bind(app.source), gate = new Promise(done => window.letGo = done);
  let isFirst = true;
  app.source.ask = async (asked, ...words) => {
    const answer = await ask(asked, ...words);
    if (asked !== path || !isFirst) return answer;
    isFirst = false;
    await gate;
    return answer;
  };
})"""
LATE = {"overview": "window.late = app.overviewed()", "window": "window.late = app.reach(200)"}


def late_answers(program: str) -> str | None:
    """An answer about the run before, or about another window, that comes after a value was set by hand: the page shows
    the run that the value leads to."""
    with tempfile.TemporaryDirectory(prefix="page-") as folder:
        file = pathlib.Path(folder) / "far.ssa"
        file.write_text(FAR)
        browser, chosen = Browser(), random.Random(9)
        try:
            for what, asked in LATE.items():
                with Serving(program, str(file), options=("--most", MOST)) as serving:
                    browser.open(serving.address)
                    browser.run(WHOLE)
                    browser.run(f"{COMPARED}(30000)")
                    browser.run(f"{HELD}('api/{what}')")
                    browser.run(f"(() => {{ {asked}; }})()")
                    # A value by hand is a move, so the new run has another length at least.
                    said = browser.run(f"{MADE}('set %i 11990')")
                    browser.run("(async () => { window.letGo(); await window.late; })()")
                    fault = "" if said.startswith("on the way") else said
                    fault = fault or run_fault(browser, program, str(file), chosen, [(30_000, "set %i 11990")])
                    if fault:
                        return f"a late {what}: {fault}"
            return "; ".join(browser.errors()) or None
        finally:
            browser.close()


def changed_fault(browser: Browser, chosen: random.Random, pokes: list[tuple[int, str]], is_undone: bool) -> str | None:
    """Sets a value, or takes the last one back; keeps what was done."""
    if is_undone:
        browser.run("app.unpoke()")
        pokes.pop()
        return None
    position = chosen.randrange(100, 30_000)
    line = chosen.choice(LINES)
    browser.run(f"{COMPARED}({position})")
    said = browser.run(f"{MADE}({json.dumps(line)})")
    # What came after it is no more.
    pokes[:] = [*(each for each in pokes if each[0] < position), (position, line)]
    return said or None


def run_fault(browser: Browser, program: str, file: str, chosen: random.Random,
              pokes: list[tuple[int, str]]) -> str | None:
    browser.run(WHOLE)
    pipe = Pipe([program, file])
    try:
        wanted = read_place(pipe.ask(*lines_between(Timeline(), Timeline(1 << 31, tuple(
            Poke(*each) for each in pokes))))[-1][-1])
    finally:
        pipe.close()
    end, moves = browser.run("[app.long.end, app.long.moves]")
    if (end, moves) != (wanted.end, wanted.position):
        return f"the end is {end} at #{moves}, and not {wanted.end} at #{wanted.position}"
    for position in (chosen.randrange(moves), max(0, pokes[-1][0] + 1) if pokes else 0, moves):
        given = browser.run(f"{COMPARED}({position})")
        if given[0] != "is-right" or given[2] != position:
            return f"#{position}: {given}"
    return None


CASES: dict[str, Callable[[str], str | None]] = {"causes before a window": of_window,
                                                 "values by hand in a long run": by_hand,
                                                 "answers that come late": late_answers}
