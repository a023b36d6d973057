"""Marks of the page: stops where the debugger itself stops, and marks as elements with names, reached by keys."""
from __future__ import annotations

import random
from typing import Any, Iterator, Sequence

from terminal.answers import read_place
from terminal.pipe import Pipe
from terminal.text import Program

from .acts import EXAMPLES, SQUARES, opened, played, waited
from .browser import Browser
from .serving import Serving

SAID = "document.getElementById('said').textContent"
# The stops of each example: lines of the debugger, and what sets them on the page.
CHOSEN, MOST_STOPS = 3, 12
# Where the page stops along the run, one way or the other, so many times at most. Nothing is drawn on the way.
WALKED = """((direction, most) => { const found = [], {draw} = app;
  app.draw = () => {};
  app.go(direction > 0 ? 0 : app.run.moves);
  while (found.length < most) {
    const before = app.cursor;
    app.marks.go(direction);
    if (app.cursor === before || document.getElementById("said").textContent.startsWith("no stop")) break;
    found.push(app.cursor);
  }
  app.draw = draw;
  return found; })"""
# The same of a run that is shown by windows.
WALKED_FAR = """(async (direction, most) => { const found = [];
  await app.reach(direction > 0 ? 0 : app.long.moves);
  app.move(direction > 0 ? 0 : app.run.moves);
  while (found.length < most) {
    await app.marks.go(direction);
    if (document.getElementById("said").textContent.startsWith("no stop")) break;
    found.push(app.cursor + app.run.base);
  }
  return found; })"""
# How many moves of a run a page shows whole that is to show a window.
FEW = "20000"
# The elements of the timeline's marks: kind, name and sign.
ELEMENTS = ("[...document.querySelectorAll('#marks .mark')].map(each => "
            "[each.className, each.getAttribute('aria-label'), each.textContent])")
FOCUSED = "document.activeElement.getAttribute('aria-label')"


def acts_of(text: Program, chosen: random.Random) -> Iterator[tuple[str, str]]:
    """Lines that set stops, and what sets the same on the page: breakpoints, watches of temporaries and of data."""
    functions = list(text.functions.values())
    for function in chosen.choices(functions, k=CHOSEN):
        block = chosen.choice(list(function.blocks.values()))
        index = chosen.randrange(len(block.body))
        place = f"{function.name} {block.label} {index}"
        yield f"break {place}", f"app.marks.toggle(app.marks.breakpoint(...'{place}'.split(' ')))"
    for function in functions[:CHOSEN]:
        for name in chosen.sample(sorted(function.temporaries), min(2, len(function.temporaries))):
            yield f"watch {function.name} {name}", \
                f"app.marks.toggle(app.marks.temporaryWatch('{function.name}', '{name}'))"
    for data in text.data[:CHOSEN]:
        if data.size >= 4:
            yield f"watch w {data.address}", f"app.marks.toggle(app.marks.bytesWatch({data.address}, 4))"
    yield "watch l 2147483648", "app.marks.toggle(app.marks.bytesWatch(2147483648, 8))"


def stopped(program: str, file: str, lines: Sequence[str], word: str) -> list[int]:
    """Where the debugger stops for some stops, by `continue` from the start or by `reverse` from the end."""
    pipe, found = Pipe([program, file]), list[int]()
    if word == "reverse":
        pipe.ask("step 4294967295")
    pipe.ask(*lines)
    while len(found) < MOST_STOPS:
        told = pipe.ask(word)[0]
        if not told[0].startswith(("stop: break", "stop: watch")):
            break
        found.append(read_place(told[-1]).position)
    pipe.close()
    return found


def stops(program: str) -> str | None:
    """Each kind of stop is met where the debugger stops for it, forward and back: alone, in two runs, and all
    together."""
    chosen = random.Random(3)
    for name, is_alone in (("squares", True), ("queens", True), ("account", False), ("digits", False),
                           ("buffers", False)):
        file = str(EXAMPLES / f"{name}.ssa")
        with open(file, "rb") as source:
            acts = list(acts_of(Program(source.read()), chosen))
        with opened(program, file) as browser:
            for some in [[each] for each in acts if is_alone] + [acts]:
                fault = stops_fault(browser, program, file, some)
                if fault:
                    return f"{name}: {fault}"
    return None


def far_stops(program: str) -> str | None:
    """In a long run too, where the debugger finds the stops that aren't in the window."""
    chosen, file = random.Random(4), str(EXAMPLES / "queens.ssa")
    with open(file, "rb") as source:
        text = Program(source.read())
    # These are met now and then, and are far apart.
    rare = [(f"break $main {label} 0", f"app.marks.toggle(app.marks.breakpoint('$main', '{label}', 0))")
            for label in text.functions["$main"].blocks]
    acts, browser = list(acts_of(text, chosen)), Browser()
    try:
        with Serving(program, file, options=("--most", FEW)) as serving:
            browser.open(serving.address)
            browser.run("(async () => { while (!app.long.isDone) await new Promise(done => setTimeout(done, 20)); })()")
            for some in [*([each] for each in rare + acts), acts]:
                fault = stops_fault(browser, program, file, some, WALKED_FAR)
                if fault:
                    return fault
            return f"{browser.errors()}" if browser.errors() else None
    finally:
        browser.close()


def stops_fault(browser: Browser, program: str, file: str, acts: Sequence[tuple[str, str]],
                walked_by: str = WALKED) -> str | None:
    """Sets stops, goes from one to the next as the debugger does, and takes them away."""
    lines = list(dict(acts))
    for line in lines:
        browser.run(dict(acts)[line])
    found = None
    for word, direction in (("continue", 1), ("reverse", -1)):
        given, wanted = browser.run(f"{walked_by}({direction}, {MOST_STOPS})"), stopped(program, file, lines, word)
        if given != wanted:
            found = f"{lines}, {word}: {given} and not {wanted}"
    for line in lines:
        browser.run(dict(acts)[line])
    left = browser.run("app.marks.stops.length")
    return found or (f"{lines}: {left} stops are left" if left else None)


def elements(program: str) -> str | None:
    """Marks of each kind are elements with names, in the timeline and in the text; keys lead from one to the next."""
    with opened(program, SQUARES) as browser:
        browser.run("app.suspect(app.run)")
        waited(browser, "app.suspicions.length", 1)
        browser.run("(app.go(45), app.make('poke w $bias 0'))")
        waited(browser, "app.run.isComplete && app.run.moves", 89)
        waited(browser, "app.suspicions.length", 1)
        waited(browser, "app.marks.trail.at(-1)", 46)
        browser.run("app.go(17)")
        browser.key("b")
        waited(browser, "app.marks.stops.length", 1)
        browser.run("app.go(35)")
        waited(browser, "app.marks.trail.at(-1)", 35)
        browser.settle()
        found = [[kind.split("-")[1], name.split("\n")[0].split(",")[0]] for kind, name, _ in browser.run(ELEMENTS)]
        # The store of #44 is suspected and has the breakpoint too; of both the suspicion is seen.
        wanted = [["stop", f"#{at} breakpoint at line 18"] for at in (8, 17, 26, 35)]
        wanted += [["suspicion", "#44 suspicion"], ["hand", "#45 by hand: poke w $bias 0"],
                   ["rest", "#46 you were here"]]
        if found != wanted:
            return f"the timeline has {browser.run(ELEMENTS)}"
        return walked(browser) or beside(browser) or again(browser, program)


def walked(browser: Browser) -> str | None:
    """`n` and Shift with it go from mark to mark, and give each the focus; Tab comes to the one at the cursor."""
    browser.key("Home")
    names: list[Any] = []
    for _ in range(3):
        browser.key("n")
        browser.settle()
        names.append([browser.run("app.cursor"), browser.run(FOCUSED)])
    browser.key("N", shift=True)
    browser.settle()
    back = [browser.run("app.cursor"), browser.run(FOCUSED), browser.run("document.activeElement.tabIndex")]
    stops = [(8, "#8 breakpoint at line 18"), (17, "#17 breakpoint at line 18"), (26, "#26 breakpoint at line 18")]
    is_right = all(at == position and name.startswith(told) for (at, name), (position, told) in zip(names, stops))
    return None if is_right and back[0] == 17 and back[1].startswith(stops[1][1]) and back[2] == 0 \
        else f"n leads to {names}, and back to {back}"


def beside(browser: Browser) -> str | None:
    """In the text: a breakpoint before its line, and beside a line what is suspected and what was done by hand."""
    browser.run("app.go(86)")
    told = browser.run("[...document.querySelectorAll('.beside .mark')].filter(each => !each.matches('.is-rest'))"
                       ".map(each => [Number(each.closest('.line').dataset.line), each.textContent, "
                       "each.getAttribute('aria-label').split(':')[0]])")
    spots = browser.run("[...document.querySelectorAll('.spot[aria-pressed=true]')].map(each => "
                        "each.getAttribute('aria-label'))")
    wanted = [[18, "▲ bounds", "#44 suspicion, bounds"], [19, "✎ poke w $bias 0", "#45 by hand"]]
    if told != wanted or spots != ["breakpoint at line 18"]:
        return f"beside the lines stand {told}, and before them {spots}"
    browser.click(".beside .mark.is-hand")
    return None if browser.run("app.cursor") == 45 else "a click on a mark beside a line doesn't lead to its move"


def again(browser: Browser, program: str) -> str | None:
    """`o` leads to where the cursor was, and Shift with it forward again; the script has the stops; a page that is
    opened anew knows them; a press takes one away."""
    for position in (60, 70):
        browser.run(f"app.go({position})")
        waited(browser, "app.marks.trail.at(-1)", position)
    browser.key("o")
    before = browser.run("app.cursor")
    browser.key("O", shift=True)
    if [before, browser.run("app.cursor")] != [60, 70]:
        return f"o leads to {before}, and back to {browser.run('app.cursor')}"
    waited(browser, "agreed.textContent.startsWith('session #70')", True)
    browser.key("s")
    waited(browser, "document.getElementById('scripted').open", True)
    script = str(browser.run("document.getElementById('lines').textContent"))
    place = played(program, SQUARES, script)
    if "break $fill @body 4" not in script.split("\n") or not place.startswith("#70 "):
        return f"the script {script!r} leads to {place}"
    browser.open(browser.run("location.href"))
    if browser.run("app.marks.stops.map(each => each.line)") != ["break $fill @body 4"]:
        return "a page that is opened anew doesn't know the stops"
    browser.run("app.go(9)")
    browser.click(".spot[aria-pressed=true]")
    told = waited(browser, SAID, "no breakpoint at line 18 any more")
    return None if told == "no breakpoint at line 18 any more" and not browser.run("app.marks.stops.length") else \
        f"a press on the breakpoint says {told!r}"


CASES = {"stops as the debugger has them": stops, "stops of a long run": far_stops, "elements with names": elements}
