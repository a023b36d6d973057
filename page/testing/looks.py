"""How the page looks, by its boxes and colours and not by its pixels; names for screen readers; long runs; times."""
from __future__ import annotations

import json
import pathlib
import random
import signal
import tempfile
import time
from typing import Any, Sequence

from .acts import LONG, MOVES_A_ROUND, opened, waited
from .browser import Browser
from .causes import TOP
from .serving import Serving, alive, children_of
from .states import REAL, SHOWN, Answers, lowered, state_faults

EXAMPLES = TOP / "examples"
WIDTHS = ((2560, 1440), (1440, 900), (1280, 800), (800, 1200), (520, 1200))
BOXES = """(() => {
  const found = [], box = each => each.getBoundingClientRect(), \
name = each => each.id || each.className || each.tagName;
  if (document.documentElement.scrollWidth > innerWidth) \
found.push(`the page is ${document.documentElement.scrollWidth} wide`);
  for (const section of document.querySelectorAll("section")) {
    const {width, height} = box(section);
    if (width < 190 || height < 60) found.push(`${section.className} is ${width} by ${height}`);
  }
  const parts = [...document.querySelectorAll("header > *, nav > *, .acts > *")]
    .filter(each => box(each).width && each.textContent.trim() + each.id);
  for (const each of parts) {
    const {left, right} = box(each);
    if (left < 0 || right > innerWidth + 1) found.push(`${name(each)} is cut: ${left} to ${right}`);
  }
  for (const one of parts) for (const other of parts) {
    const a = box(one), b = box(other);
    if (one === other || one.contains(other) || other.contains(one)) continue;
    const isApart = a.left >= b.right - 1 || b.left >= a.right - 1 || a.top >= b.bottom - 1 || b.top >= a.bottom - 1;
    if (!isApart) found.push(`${name(one)} lies on ${name(other)}`);
  }
  const line = box(document.querySelector(".line.is-now, .line.is-caller")), \
code = box(document.getElementById("code"));
  if (line.top < code.top - 1 || line.bottom > code.bottom + 1) found.push("the place is out of view");
  for (const each of document.querySelectorAll(".temp")) {
    const [label, number] = [each.querySelector(".name"), each.querySelector(".number")].map(box);
    if (label.width < 8 || number.width < 6 || label.right > number.left + 1) found.push(`${each.textContent} is cut`);
  }
  for (const each of document.querySelectorAll(".beside")) {
    if (each.scrollWidth > each.clientWidth + 1) found.push(`${each.textContent} is cut beside its line`);
  }
  const tab = box(document.querySelector(".frame.is-on")), frames = box(document.querySelector(".frames"));
  if (tab.top < frames.top || tab.bottom > frames.bottom + 1) found.push("the frame is out of view");
  if (document.getElementById("code").scrollTop % 20) found.push("a line is cut at the top of the text");
  for (const each of document.querySelectorAll(".text h2, .is-folded")) {
    if (box(each).height > 30) found.push(`${name(each)} has several lines`);
  }
  if (innerWidth - box(document.querySelector(".acts")).right > 20) found.push("the buttons aren't at the right");
  for (const each of document.querySelectorAll(".note")) {
    if (each.scrollWidth > each.clientWidth + 1) found.push(`${each.textContent.slice(0, 20)} is cut at the right`);
  }
  const height = parseFloat(document.getElementById("timeline").style.height);
  if (!(height > 120 && height < innerHeight / 2)) found.push(`the timeline is ${height} tall`);
  return found;
})()"""
# The least contrast between a text and what it stands on. What is still to come of the output is meant to be pale.
CONTRAST = """(() => {
  const numbers = text => { const all = text.match(/[\\d.]+/g).map(Number), unit = text.startsWith("color(") ? 255 : 1;
    return [...all.slice(0, 3).map(each => each * unit), all[3] ?? 1]; };
  const light = ([r, g, b]) => [r, g, b].map(each => each / 255)
    .map(each => each <= .03928 ? each / 12.92 : ((each + .055) / 1.055) ** 2.4)
    .reduce((sum, each, index) => sum + each * [.2126, .7152, .0722][index], 0);
  const ground = each => { for (let at = each; at; at = at.parentElement) {
    const color = numbers(getComputedStyle(at).backgroundColor);
    if (color[3] > .9) return color; } return [255, 255, 255, 1]; };
  const found = [];
  for (const each of document.querySelectorAll("body *")) {
    const own = [...each.childNodes].some(node => node.nodeType === 3 && node.data.trim());
    if (!own || !each.checkVisibility() || \
each.closest(".is-future, dialog, #tip, script, .heard, :disabled")) continue;
    const [one, other] = [light(numbers(getComputedStyle(each).color)), light(ground(each))].sort((a, b) => b - a);
    const ratio = (one + .05) / (other + .05);
    if (ratio < 4.5) \
found.push(`${each.className || each.tagName} ${each.textContent.slice(0, 20)}: ${ratio.toFixed(2)}`);
  }
  return found;
})()"""
NAMELESS = """[...document.querySelectorAll("button, input, canvas, [role=tree], section, dialog")].filter(each =>
  !["aria-label", "aria-labelledby", "aria-hidden"].some(name => each.getAttribute(name)) && !each.textContent.trim())
  .map(each => each.outerHTML.slice(0, 80))"""


def boxes(program: str) -> str | None:
    """At each width nothing is cut and nothing lies on something else, at the end and in the middle of a run."""
    browser = Browser()
    try:
        for name in ("squares", "digits", "buffers", "checksum"):
            with Serving(program, str(EXAMPLES / f"{name}.ssa")) as serving:
                fault = boxes_at(browser, name, serving, WIDTHS)
            if fault:
                return fault
        with tempfile.TemporaryDirectory(prefix="page-") as folder:
            for name, text in boxed_texts().items():
                file = pathlib.Path(folder, f"{name}.ssa")
                file.write_text(text)
                with Serving(program, str(file)) as serving:
                    fault = boxes_at(browser, name, serving, WIDTHS[::2])
                if fault:
                    return fault
            named = ("--lowered", str(REAL / "floaty.ssa"))
            with Serving(program, lowered("floaty", folder), options=named) as serving:
                return boxes_at(browser, "floaty", serving, WIDTHS[::2])
    finally:
        browser.close()
    return None


def boxes_at(browser: Browser, name: str, serving: Serving, widths: Sequence[tuple[int, int]]) -> str | None:
    """What is cut, or lies on something else, at some widths."""
    browser.open(serving.address)
    for width, height in widths:
        browser.resize(width, height)
        browser.settle(.1)
        for at in ("app.run.moves", "Math.floor(app.run.moves / 3)"):
            browser.run(f"app.go({at}); app.slice()")
            browser.settle(.02)
            found = browser.run(BOXES)
            if found:
                return f"{name} at {width}: {found}"
    return None


def boxed_texts() -> dict[str, str]:
    """Texts whose frames, or names, take much room."""
    long = "n" * 500
    return {"deep": DEEP, "long names": f"data $d{long} = {{ w 5 }}\nexport function w $main() {{\n@b{long}\n"
            f"\t%r =w call $f{long}(w 4, w 7)\n\tjmp @end\n@end\n\tstorew %r, $d{long}\n\tret %r\n}}\n"
            f"function w $f{long}(w %p, w %q) {{\n@b{long}\n\t%x =w add %p, %q\n\tret %x\n}}\n"}


def contrast(program: str) -> str | None:
    """Each text can be read on what it stands on, in the light and in the dark."""
    # The causes of a lost update; a value by hand beside what it was; pieces of memory that were written just now.
    for name, act in (("account", "app.slice(); app.go(38)"), ("squares", "app.go(45); app.make('poke w $bias 0')"),
                      ("buffers", "app.go(Math.floor(app.run.moves / 2))")):
        with opened(program, str(EXAMPLES / f"{name}.ssa")) as browser:
            browser.run(act)
            for theme in ("light", "dark"):
                waited(browser, "app.run.isComplete", True)
                browser.run(f"document.documentElement.dataset.theme = '{theme}'; app.recolor()")
                browser.settle(.4)
                found = browser.run(CONTRAST)
                if found:
                    return f"{name}, {theme}: {found[:4]}"
    return None


def readers(program: str) -> str | None:
    """Each part has a name for screen readers; a move is announced; the causes are a tree with levels."""
    with opened(program, str(EXAMPLES / "squares.ssa")) as browser:
        # An object of more pieces than have their numbers in them.
        browser.run("app.program.data[0].size = 400; app.cells.widths.set('$squares', 1); app.draw()")
        nameless = browser.run(NAMELESS)
        if nameless or browser.run("document.querySelectorAll('.cell.is-small').length") < 400:
            return f"without a name: {nameless[:3]}"
        browser.run("app.go(44)")
        heard = browser.run("document.getElementById('heard').textContent")
        tree = browser.run("[...document.querySelectorAll('[role=treeitem]')]"
                           ".map(each => ['aria-level', 'aria-expanded'].map(name => each.getAttribute(name)))")
        if heard != "#44 $fill @body 4, line 18: storew %square, %place":
            return f"a move is told as {heard!r}"
        wanted = [["1", "true"], ["2", "true"], ["3", "false"], ["3", "false"], ["3", "false"], ["2", "false"]]
        return None if tree == wanted else f"the tree is {json.dumps(tree)}"


def focused(program: str) -> str | None:
    """Who goes by Tab keeps the focus: on a value, through moves and questions, and then in the causes."""
    focus = "document.activeElement.getAttribute('aria-label')"
    with opened(program, str(EXAMPLES / "squares.ssa")) as browser:
        for _ in range(40):
            browser.key("Tab")
            if str(browser.run(focus)).startswith("%sum "):
                break
        # The last five moves are behind the loop, and the eight before these add 9 to the squares of 0, 1 and 2.
        for keys, wanted in ((("Enter",), "%sum 14: why"), (("ArrowLeft",) * 10, "%sum 5: why"),
                             (("End",), "%sum 14: why"), (("ArrowDown",), "causes"), (("Enter",), "causes"),
                             (("ArrowLeft",), "causes")):
            browser.keys(*keys)
            if browser.run(focus) != wanted or not browser.run("document.activeElement.matches(':focus-visible')"):
                return f"behind {keys} the focus is on {browser.run(focus)}"
    return None


# Texts whose value, or whose own name, is cut off by the other.
LOST = """[...document.querySelectorAll(".ask b, .ask-temp > .name, .key code")].filter(each => {
  const own = each.getBoundingClientRect(), around = each.parentNode.getBoundingClientRect();
  return own.width < 7 || own.left < around.left - 1 || own.right > around.right + 1;
}).map(each => each.textContent)"""


def long_names(program: str) -> str | None:
    """A name of forty characters leaves room for its value, and a value that is an address for the name."""
    name = "a_temporary_whose_name_has_forty_chars_x"
    text = (f"export function w $main() {{\n@start\n\t%{name} =l alloc8 16\n\t%b{name} =w add 1, 2\n"
            f"\tstorew %b{name}, %{name}\n\t%c{name} =w call $f(w %b{name})\n\tret %c{name}\n}}\n"
            f"function w $f(w %{name}) {{\n@start\n\t%d{name} =w mul %{name}, 3\n\tret %d{name}\n}}\n")
    with tempfile.TemporaryDirectory(prefix="page-") as folder:
        file = pathlib.Path(folder) / "names.ssa"
        file.write_text(text)
        with opened(program, str(file), width=1280, height=800) as browser:
            browser.settle(.2)
            shown = browser.run("document.querySelectorAll('.ask b, .ask-temp > .name, .key code').length")
            lost = browser.run(LOST)
            return f"{lost} of {shown} are cut off" if lost or shown < 5 else None


def windows(program: str) -> str | None:
    """A run that is shown by windows: the overview's length and stacks, and each view at states of four windows."""
    file, found = str(EXAMPLES / "queens.ssa"), []
    answers, chosen, browser = Answers(program, file, ()), random.Random(5), Browser()
    try:
        with Serving(program, file, options=("--most", "20000")) as serving:
            browser.open(serving.address)
            browser.run("(async () => { while (!app.long.isDone) await new Promise(done => setTimeout(done, 20)); })()")
            told = browser.run("[app.long.moves, app.long.end, app.long.stride, app.long.stacks.map(stack => "
                               "stack.map(index => app.program.functions[index].name))]")
            if told[:2] != [answers.length, "done 4"]:
                return f"the overview ends at {told[:2]}"
            for index, stack in enumerate(told[3]):
                answers.go(index * told[2])
                frames = [line.split(" ")[0] for line in reversed(answers.pipe.ask("where")[0])]
                if stack != frames:
                    return f"the stack at #{index * told[2]} is {stack} and not {frames}"
            found += span_faults(browser, answers, told[2], told[3])
            for position in (30_000, 2_000, 17_777, answers.length):
                base = browser.run(f"app.reach({position}).then(() => app.run.base)")
                moves = browser.run("app.run.moves")
                for at in chosen.sample(range(base, base + moves), 8):
                    shown = browser.run(f"{SHOWN}({at - base})")
                    hide_unknown(shown, answers, at)
                    found += [f"window {base}, #{at}: {fault}" for fault in state_faults(answers, shown, at)]
                browser.run("agreed.className = ''; app.agreed.compare()")
                if waited(browser, "agreed.className", "is-right", 30) != "is-right":
                    found.append(browser.run("agreed.textContent"))
            found += browser.errors()
    finally:
        browser.close()
        answers.pipe.close()
    return found[0] if found else None


def span_faults(browser: Browser, answers: Answers, stride: int, stacks: list[list[str]]) -> list[str]:
    """Each frame of the overview is there from where it begins to where it ends, and together they are its stacks."""
    browser.run("(async () => { while (app.long.isTracing) await new Promise(done => setTimeout(done, 20)); })()")
    spans = browser.run("app.long.spans?.map(([begin, end, func, depth]) => "
                        "[begin, end, app.program.functions[func].name, depth])")
    if not spans:
        return ["the overview has no frames"]

    def stack_at(position: int) -> list[str]:
        answers.go(position)
        return [line.split(" ")[0] for line in reversed(answers.pipe.ask("where")[0]) if line != "none"]
    found = []
    for begin, end, name, depth in spans:
        last = answers.length if end is None else end
        around = [(begin - 1, False), (begin, True), (last - 1, True)] + [(last, False)] * (end is not None)
        for position, is_there in around:
            if position >= 0 and (stack_at(position)[depth:depth + 1] == [name]) < is_there or \
                    position >= 0 and not is_there and len(stack_at(position)) > depth:
                found.append(f"{name} from #{begin} to #{end} isn't so at #{position}")
    for index, stack in enumerate(stacks):
        at = index * stride
        there = sorted((depth, name) for begin, end, name, depth in spans
                       if begin <= at and (end is None or at < end))
        if there != list(enumerate(stack)):
            found.append(f"the frames at #{at} are {there} and not {stack}")
    return found


def hide_unknown(shown: dict[str, Any], answers: Answers, position: int) -> None:
    """What a window doesn't know is shown as such; in its place stands what the debugger answers, so that the rest is
    compared."""
    values = answers.state(position)["values"]
    for name, value in shown["values"].items():
        if value == "?":
            shown["values"][name] = "unset" if values[name] is None else str(values[name])


TIMES = """(async act => { const all = [];
  for (let n = 0; n < 9; n++) {
    const begun = performance.now();
    act();
    cancelAnimationFrame(app.timeline.pending);
    app.timeline.paint();
    all.push(performance.now() - begun); await new Promise(done => setTimeout(done, 5)); }
  return all.sort((one, other) => one - other)[4]; })"""
ACTS = {"cursor to any place": "() => app.move(Math.floor(Math.random() * app.run.moves))",
        "a step": "() => app.move(app.cursor - 1)",
        "the whole run painted": "() => app.show(0, app.run.moves)", "counts of all lines": "() => app.code.heat()",
        "plots of all values": "() => app.values.sparks()",
        "why of a value": "() => { app.move(Math.floor(Math.random() * app.run.moves)); app.ask(app.firstQuestion()); "
                          "}"}
# Work that is always the same, and what it takes where nothing else runs: so the bounds grow with the load of the
# machine.
WORK = """(() => { const all = [];
  for (let n = 0; n < 7; n++) {
    const begun = performance.now(), cells = new Float64Array(1 << 16);
    for (let at = 0; at < 1e7; at++) cells[at & 65535] += at;
    all.push(performance.now() - begun + cells[0] * 0);
  }
  return all.sort((one, other) => one - other)[3]; })()"""
IDLE = 15
ENEMY_ACTS = {"why of a value": ACTS["why of a value"]}
BUDGET = 100


def million(folder: str, moves: int = 1_000_000) -> str:
    """A text whose run has a million moves, or another number."""
    file = pathlib.Path(folder) / f"long-{moves}.ssa"
    file.write_text(LONG.replace("COUNT", str(moves // MOVES_A_ROUND + 1)))
    return str(file)


def slowed(browser: Browser) -> float:
    """How many times longer the same work takes now than on an idle machine; at least once."""
    return max(1.0, float(browser.run(WORK)) / IDLE)


def over(browser: Browser, acts: dict[str, str], most: float) -> list[str]:
    """The acts that take longer than a number of milliseconds of an idle machine; they are repeated before they
    count."""
    slow: list[str] = []
    for _ in range(2):
        before = slowed(browser)
        taken = measured(browser, acts)
        bound = most * max(before, slowed(browser))
        slow = [f"{name} takes {time} ms, and {bound:.0f} are the bound" for name, time in taken.items()
                if time > bound]
        if not slow:
            break
    return slow


def measured(browser: Browser, acts: dict[str, str]) -> dict[str, float]:
    """Milliseconds of each act with all that it draws, the median of nine."""
    browser.run("app.show(0, app.run.moves)")
    return {name: round(browser.run(f"{TIMES}({act})"), 1) for name, act in acts.items()}


# What is told and drawn of a run while it is gathered.
GROWING = """(() => { app.timeline.paint(); const {canvas} = app.timeline, bar = document.getElementById("progress");
  const row = app.timeline.rows.flames + 4, pixels = canvas.getContext("2d").getImageData(90, row, 1, 1).data;
  return !app.run.isComplete && [bar.hidden, bar.value > 0 && bar.value < 1,
    / moves of [^ ]+ gathered(, \\d+ s more)?$/.test(document.getElementById("moves").textContent), pixels[3]]; })()"""


def times(program: str) -> str | None:
    """A million moves: drawn while they are gathered, and all within ten times the budget, by the load of the machine,
    so that a slow or a busy one passes and a square of the length doesn't."""
    with tempfile.TemporaryDirectory(prefix="page-") as folder, Serving(program, million(folder)) as serving:
        browser = Browser()
        try:
            browser.open(serving.address, "window.app?.run?.moves > 1000")
            growing = browser.run(GROWING)
            if growing != [False, True, True, 255]:
                return f"while it is gathered it shows {growing}"
            browser.open(serving.address)
            return slow_acts(browser) or slow_gathering(program, folder, browser.run("app.run.seconds"))
        finally:
            browser.close()


ENDLESS = """data $n = { w 0 }
export function w $main() {
@start
\tjmp @loop
@loop
\t%v =w loadw $n
\t%w =w add %v, 1
\tstorew %w, $n
\tjmp @loop
}
"""
# What is told of a run while its end is looked for.
LOOKING = """[document.getElementById("end").textContent, app.run.moves,
  (bar => !bar.hidden && bar.value > 0 && bar.value < 1)(document.getElementById("progress")),
  /^[^ ]+ moves, at most \\d+ (s|min) more$/.test(document.getElementById("moves").textContent)]"""


def endless(program: str) -> str | None:
    """A run without an end: its first window is there at once, the page tells how long its end is looked for, and
    Ctrl-C ends all."""
    with tempfile.TemporaryDirectory(prefix="page-") as folder:
        file = pathlib.Path(folder, "endless.ssa")
        file.write_text(ENDLESS)
        browser, wanted = Browser(), ["looking for the end", 20_000, True, True]
        try:
            with Serving(program, str(file)) as serving:
                browser.open(serving.address)
                told = waited(browser, LOOKING, wanted, 20)
                # A jump is answered while the end is looked for.
                there = browser.run("app.reach(1000000).then(() => app.cursor + app.run.base)")
                pids = children_of(serving.process.pid)
                begun = time.monotonic()
                serving.process.send_signal(signal.SIGINT)
                status = serving.process.wait(20)
                taken = time.monotonic() - begun
        finally:
            browser.close()
    is_right = told == wanted and there == 1_000_000 and status == 0 and not alive(pids)
    return None if is_right else f"{told}, #{there}; Ctrl-C: status {status} after {taken:.1f} s, {alive(pids)} left"


def slow_acts(browser: Browser) -> str | None:
    if browser.run("app.run.moves") < 1_000_000:
        return "the run is too short"
    return ", ".join(over(browser, ACTS, 10 * BUDGET)) or None


def slow_gathering(program: str, folder: str, seconds: float) -> str | None:
    """Ten times the moves are gathered in some ten times the time of a tenth, which is measured after it."""
    with Serving(program, million(folder, 100_000)) as serving:
        browser = Browser()
        try:
            browser.open(serving.address)
            tenth = browser.run("app.run.seconds")
        finally:
            browser.close()
    return f"the moves are gathered in {seconds} s, and a tenth of them in {tenth} s" \
        if seconds > 40 * max(tenth, .1) else None


# Texts that an enemy would write: each by its name, with the most milliseconds of a move with all that it draws.
DEEP = """export function w $main() {
@start
\t%result =w call $down(w 990)
\tret %result
}
function w $down(w %left) {
@start
\t%own =l alloc8 16
\tstorew %left, %own
\t%less =w sub %left, 1
\tjnz %less, @more, @end
@more
\t%found =w call $down(w %less)
\tret %found
@end
\t%last =w loadw %own
\tret %last
}
"""


def enemy_texts() -> dict[str, str]:
    long = "n" * 30_000
    body = "export function w $main() {{\n@start\n{}\tret 1\n}}\n"
    return {
        "names of 30,000 signs": f"data ${long} = {{ z 100000 }}\n" + body.format(
            f"\t%{long} =l add ${long}, 8\n\tstorew 7, ${long}\n\tblit ${long}, ${long}, 90000\n"),
        "8,000 temporaries": body.format("".join(f"\t%t{n} =w copy {n % 9}\n" for n in range(8_000))),
        "70,000 places": body.format("\t%a =w copy 1\n" * 70_000),
        "a line of 800,000 signs": "# " + "x%y " * 200_000 + "\n" + body.format("\t%a =w copy 1\n"),
        "2,000 objects": "".join(f"data $d{n} = {{ w {n} }}\n" for n in range(2_000)) + body.format(
            "".join(f"\tstorew {n}, $d{n}\n" for n in range(2_000))),
        "990 frames": DEEP,
    }


def enemies(program: str) -> str | None:
    """Texts of great names, lines, places, objects and depths: the page comes, agrees with the session, and isn't
    slow."""
    browser = Browser()
    try:
        with tempfile.TemporaryDirectory(prefix="page-") as folder:
            for name, text in enemy_texts().items():
                file = pathlib.Path(folder) / "enemy.ssa"
                file.write_text(text)
                with Serving(program, str(file)) as serving:
                    browser.open(serving.address)
                    slow = over(browser, ENEMY_ACTS, 10 * BUDGET)
                    browser.run("agreed.className = ''; app.go(Math.floor(app.run.moves * .7)); app.slice()")
                    waited(browser, "agreed.className", "is-right", 30)
                    agreed = browser.run("[agreed.className, agreed.textContent]")
                    if slow or agreed[0] != "is-right" or browser.errors():
                        return f"{name}: {slow} {agreed} {browser.errors()}"
                    browser.open("about:blank", "true")
    finally:
        browser.close()
    return None


CASES = {"enemy texts": enemies, "boxes": boxes, "contrast": contrast, "screen readers": readers,
         "focus": focused, "long names": long_names,
         "windows of a long run": windows, "a million moves": times,
         "a run without an end": endless}
