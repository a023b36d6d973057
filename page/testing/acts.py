"""What users do on the page: keys, the pointer, setting values, the script, the exported file, texts that would be
markup."""
from __future__ import annotations

import json
import pathlib
import subprocess
import sys
import tempfile
import time
from contextlib import contextmanager
from typing import Any, Iterator, Sequence

from terminal.answers import read_place
from terminal.pipe import Pipe

from .browser import Browser
from .causes import COMPARER, TOP
from .serving import MAIN, Serving

EXAMPLES = TOP / "examples"
SQUARES, DIGITS, QUEENS = (str(EXAMPLES / f"{name}.ssa") for name in ("squares", "digits", "queens"))
STATE = "[app.cursor, app.walk.chosen?.question.label ?? '', document.getElementById('place').textContent]"


# A load past the end of $d behind 400,000 moves, more than are looked at for all kinds: each of 133,334 rounds has
# three, and one comes before them and one behind.
BAD_LOAD = 400_004
TURNS = ("data $d = { w 5, w 6 }\ndata $e = { w 7 }\nexport function w $main() {\n@start\n\tjmp @loop\n@loop\n"
         "\t%i =l phi @start 0, @loop %n\n\t%n =l add %i, 1\n\t%c =w cultl %n, 133334\n\tjnz %c, @loop, @end\n@end\n"
         "\t%p =l add $d, 8\n\t%x =w loadw %p\n\tret %x\n}\n")


@contextmanager
def opened(program: str, *words: str, width: int = 1440, height: int = 900,
           options: Sequence[str] = ()) -> Iterator[Browser]:
    """The page of a program in a browser; what went wrong in it is raised at the end."""
    browser = Browser(width, height)
    try:
        with Serving(program, *words, options=options) as serving:
            browser.open(serving.address)
            yield browser
            if browser.errors():
                raise AssertionError(f"the page has errors: {browser.errors()}")
    finally:
        browser.close()


def first_fault(browser: Browser, steps: list[tuple[list[str], str, object]]) -> str | None:
    """Presses keys, and compares the value of an expression with the expected one, step by step."""
    for keys, script, wanted in steps:
        for key in keys:
            browser.key(key[2:] if key.startswith("S-") else key, shift=key.startswith("S-"))
        given = waited(browser, script, wanted)
        if given != wanted:
            return f"{' '.join(keys)}: {script} gives {json.dumps(given)} and not {json.dumps(wanted)}"
    return None


# Where the keys lead in examples/squares.ssa; positions as docs/TERMINAL.md and `step`, `back` have them.
KEYS: list[tuple[list[str], str, object]] = [
    (["ArrowDown", "ArrowDown", "ArrowDown", "Enter", "ArrowDown", "Enter"], STATE, [44, "w $bias+0", "$fill @body 4"]),
    (["Backspace"], STATE, [85, "%bias", "$main @end 0"]),
    (["g"], "document.activeElement.id", "position"),
    (["Escape"], "document.activeElement.id", ""),
    (["Home"], "app.cursor", 0), (["ArrowRight"], STATE, [1, "%bias", "$fill @start 0"]),
    (["ArrowLeft"], "app.cursor", 0),
    (["S-ArrowRight"], STATE, [50, "%bias", "$main @start 1"]), (["S-ArrowLeft"], "app.cursor", 0),
    (["ArrowRight", "ArrowRight", "ArrowRight", "]"], "app.cursor", 12), (["["], "app.cursor", 3),
    (["["], "document.getElementById('said').textContent", "this line didn't run before"),
    (["{"], "app.cursor", 0), (["ArrowRight", "}"], "app.cursor", 50),
    (["ArrowLeft", "u"], "document.getElementById('place').textContent", "$main @start 0"),
    (["d"], "document.getElementById('place').textContent", "$fill @end 0"),
    (["m"], "app.line", 22), (["ArrowLeft", "k"], "app.pins.map(id => app.program.names[id])", ["%more"]),
    (["Escape"], "[app.line, app.pins.length]", [0, 0]),
    (["w"], "app.walk.root.question.label", "%more"),
    (["End", "w", "e"], "app.walk.dots().nodes.some(({move}) => move === 44)", True),
    (["+"], "app.view[1] - app.view[0]", 44), (["-", "0"], "app.view", [0, 88]),
    (["?"], "document.getElementById('help').open", True), (["Escape"], "document.getElementById('help').open", False),
    (["s"], "document.getElementById('scripted').open", True),
    (["Escape"], "document.getElementById('scripted').open", False),
    (["t"], "document.documentElement.dataset.theme", "dark"),
    (["t"], "document.documentElement.dataset.theme", "light"),
    (["p"], "document.getElementById('said').textContent", "the run is over here; go back into it first"),
    (["i"], "[app.isFolded, document.getElementById('fold').hidden]", [False, True]),
    (["Home", "x"], "[app.cursor, document.getElementById('suspects').textContent]", [44, "▲ 1 suspicion"]),
    (["End"], "app.cursor", 88),
    (["z"], "document.getElementById('said').textContent", "nothing was set by hand"),
    (["Home", "b"], "app.marks.stops.map(each => each.line)", ["break $main @start 0"]),
    (["End", "S-C"], "app.cursor", 0), (["b"], "app.marks.stops.length", 0),
    (["End", "w", "ArrowDown", "v"], "app.marks.stops.map(each => each.line)", ["watch $main %total"]),
    (["Home", "c"], "app.cursor", 87), (["S-C"], "app.cursor", 86),
    (["v"], "app.marks.stops.length", 0),
    # The first mark is the suspicion of #44, or a place before it where a slow machine had the cursor rest.
    (["Home", "n"], "app.cursor === 44 || app.marks.rests.includes(app.cursor)", True),
    (["S-N"], "app.cursor < 44", True),
    (["o"], "app.marks.at < app.marks.trail.length", True), (["S-O"], "app.marks.at < app.marks.trail.length", True),
    (["End"], "app.cursor", 88),
    (["ArrowLeft", "p"], "[document.getElementById('poking').open, document.getElementById('line').value]",
     [True, "set %total "]),
]


def keys(program: str) -> str | None:
    """Each key of the list of keys; with keys alone from the page as it opens to the wrong store."""
    with opened(program, SQUARES) as browser:
        fault = first_fault(browser, KEYS)
        untried = browser.run("Object.keys(app.keys.acts)")
        pressed = {key[2:] if key.startswith("S-") else key for step in KEYS for key in step[0]}
        left = [key for key in untried if key not in pressed | {"ArrowUp", "="}]
        return fault or (f"no test presses {left}" if left else None)


def typed_position(program: str) -> str | None:
    """The field of the position: Enter goes there, and leaves the field also where nothing was typed; Escape leaves it
    as it was. And keys under Caps Lock."""
    with opened(program, SQUARES) as browser:
        for typed, key, wanted in (("44", "Enter", [44, "44", ""]), ("7", "Escape", [44, "44", ""]),
                                   ("", "Enter", [44, "44", ""]), ("#4", "Enter", [4, "4", ""])):
            browser.key("g")
            browser.type(typed)
            browser.key(key)
            given = browser.run("[app.cursor, document.getElementById('position').value, document.activeElement.id]")
            if given != wanted:
                return f"{typed!r} and {key} give {given} and not {wanted}"
        browser.run("document.body.dispatchEvent(new KeyboardEvent('keydown', {key: 'T', bubbles: true}))")
        theme = browser.run("document.documentElement.dataset.theme")
        return None if theme == "dark" else f"T under Caps Lock gives the theme {theme}"


def unlooked(program: str) -> str | None:
    """Before it is known whether something is suspicious no key says that nothing is; and no mark is left of a run that
    was changed by hand."""
    said, marks = "document.getElementById('said').textContent", "app.suspicions.map(each => each.position)"
    with opened(program, SQUARES) as browser:
        waited(browser, marks, [44])
        browser.run("app.source.suspicions = () => new Promise(done => { app.come = done; })")
        browser.run("(app.go(45), app.make('poke w $bias 0'))")
        waited(browser, "app.run.isComplete && app.cursor", 46)
        browser.key("x")
        lines = "document.querySelectorAll('.mark.is-suspicion').length"
        given = [browser.run(each) for each in (said, marks, lines, "document.getElementById('suspects').hidden")]
        if given != ["the run is still being looked at", [], 0, True]:
            return f"while it is looked at: {given}"
        browser.run("app.come({found: [], all: true})")
        waited(browser, "app.unlooked", "")
        browser.key("x")
        if browser.run(said) != "nothing in this run is suspected":
            return f"behind that {browser.run(said)!r}"
        # Two kinds of one line, of which one came twice.
        kinds = "['bounds', 'stray', 'bounds'].map(kind => ({position: 44, line: 18, kind, text: ''}))"
        beside = "[...document.querySelectorAll('.beside .is-suspicion')].map(each => each.dataset.kind)"
        shown = browser.run(f"(app.suspected({kinds}, ''), {beside})")
        if shown != ["bounds, stray"]:
            return f"beside a line of two kinds stands {shown}"
    return None


def far_suspected(program: str) -> str | None:
    """In a run that is too long to be looked at for all kinds the fast pass finds a suspicion, in one that is shown by
    windows too; and it knows where there is none."""
    said, marks = "document.getElementById('said').textContent", "app.suspicions.map(each => each.position)"
    names = ("[...document.querySelectorAll('#marks .is-suspicion')].map(each => "
             "each.getAttribute('aria-label').split('\\n')[0])")
    told = "bounds: loadsw at the end of $d (8 bytes), between objects"
    with tempfile.TemporaryDirectory(prefix="page-") as place:
        text = pathlib.Path(place, "turns.ssa")
        for is_wrong, options in ((True, ()), (True, ("--most", "20000")), (False, ())):
            text.write_text(TURNS if is_wrong else TURNS.replace("add $d, 8", "add $d, 4"))
            with opened(program, str(text), options=options) as browser:
                if not is_wrong:
                    waited(browser, "app.unlooked", "")
                    browser.key("x")
                    if browser.run(said) != "nothing in this run is suspected":
                        return f"of a right run it says {browser.run(said)!r}"
                    continue
                waited(browser, marks, [BAD_LOAD])
                browser.key("x")
                given = [waited(browser, "app.cursor + app.run.base", BAD_LOAD), waited(browser, said, told)]
                given += [waited(browser, names, [f"#{BAD_LOAD} suspicion, {told}"])]
                if given != [BAD_LOAD, told, [f"#{BAD_LOAD} suspicion, {told}"]]:
                    return f"with {options} it gives {given}"
    return None


def pointer(program: str) -> str | None:
    """A press in the timeline, in the overview, on a value, a byte of memory, of the output, a line's number, a plot, a
    cause."""
    with opened(program, DIGITS) as browser:
        box = browser.run("(box => [box.left, box.top])(document.getElementById('timeline').getBoundingClientRect())")
        x = browser.run("app.timeline.x(101)")
        browser.press(box[0] + x, box[1] + 60)
        found = {"timeline": browser.run("app.cursor") == 101}
        browser.click(".byte", 1)
        found["output"] = browser.run("app.walk.root.question.label") == "byte 1 of the output"
        browser.click(".temp .ask-temp", 2)
        found["value"] = browser.run("app.walk.root.question.of") == "temporary"
        browser.click(".cell[data-address]")
        found["memory"] = browser.run("app.walk.root.question.of") == "memory"
        browser.click(".temp .keep")
        found["plot"] = browser.run("app.pins.length") == 1
        browser.run("app.go(20)")
        browser.click(".line.is-now .gutter")
        found["line"] = browser.run(
            "app.line === Number(document.querySelector('.line.is-now').dataset.line) && app.cursor > 20")
        browser.run("app.ask(app.causes.root(app.run.moves))")
        browser.click(".node:not(.is-open)")
        found["cause"] = browser.run("app.walk.chosen !== app.walk.root && Boolean(app.walk.chosen.cause)")
        browser.run("app.show(0, app.run.moves)")
        row = browser.run("app.timeline.rows.flames + app.timeline.rowTall * 1.5")
        browser.move(box[0] + x + 2, box[1] + row)
        tip = browser.run("document.getElementById('tip').textContent")
        found["what a bar says"] = tip.startswith(
            "#101 $number @digit 3  line 17: storeb %t2, %at.next\n$number, 60 moves from #71")
        browser.press_twice(box[0] + x, box[1] + row)
        found["a call as wide as the window"] = browser.run("app.view.map(Math.round)") == [70, 132]
        browser.wheel(box[0] + x, box[1] + row, 120)
        found["wheel"] = browser.run("app.view[1] - app.view[0]") > 70
        browser.run("app.show(0, 20)")
        browser.press(box[0] + browser.run("84 + app.timeline.span / 2"), box[1] + 12)
        found["overview"] = abs(browser.run("(app.view[0] + app.view[1]) / 2") - browser.run("app.run.moves / 2")) < 2
        wrong = [name for name, is_right in found.items() if not is_right]
        return f"{', '.join(wrong)}: not what was wanted" if wrong else None


def waited(browser: Browser, script: str, wanted: object, seconds: float = 60) -> object:
    """The value of an expression, once it is the expected one, or the time is over."""
    end = time.monotonic() + seconds
    while (given := browser.run(script)) != wanted and time.monotonic() < end:
        time.sleep(.03)
    return given


def by_hand(program: str) -> str | None:
    """README's example set right by hand: it ends with 14, and the script of the page leads the debugger to the same
    place."""
    with opened(program, SQUARES) as browser:
        browser.run("app.go(45)")
        browser.key("p")
        browser.run("document.getElementById('line').value = ''")
        browser.type("poke w $bias 0")
        browser.key("Enter")
        steps: list[tuple[str, object]] = [
            ("document.getElementById('end').textContent", "done 14"),
            ("document.getElementById('was').textContent", "done 30 at #88"),
            ("app.ghost.end", "done 30"), ("app.cursor", 46),
            ("agreed.className + agreed.textContent", "is-rightsession #46 $fill @body 5")]
        for script, wanted in steps:
            given = waited(browser, script, wanted)
            if given != wanted:
                return f"{script} gives {given!r} and not {wanted!r}"
        # What was otherwise in the run before is struck out beside what it is.
        was = ("[...document.querySelectorAll('.temp')].filter(each => each.querySelector('.was')).map(each => "
               "[...each.querySelectorAll('.name, .was, .number')].map(one => one.textContent))")
        cells = ("[...document.querySelectorAll('.cell.is-other')].map(each => "
                 "[each.querySelector('.was').textContent, each.textContent])")
        for position, wanted in ((46, [[], [["16 ", "16 0"]]]),
                                 (88, [[["%bias", "16", "0"], ["%total", "30", "14"]], [["16 ", "16 0"]]])):
            given = browser.run(f"(app.go({position}), [{was}, {cells}])")
            if given != wanted:
                return f"at #{position} of the run before stand {given} and not {wanted}"
        browser.run("app.ask(app.causes.bytes(app.program.addresses['$bias'], 4, app.run.moves))")
        given = browser.run("[app.walk.root.cause.verb, app.walk.root.cause.move]")
        if given != ["by hand", 45]:
            return f"why of $bias gives {given}"
        browser.keys("End", "ArrowLeft", "ArrowLeft", "ArrowLeft")
        given = waited(browser, "agreed.className + agreed.textContent", "is-rightsession #86 $main @end 0")
        browser.key("s")
        waited(browser, "document.getElementById('scripted').open", True)
        script = browser.run("document.getElementById('lines').textContent")
        place = played(program, SQUARES, str(script))
        if given != f"is-rightsession {place}":
            return f"the page shows {given} and its script leads to {place}"
        return taken_back(browser, program)


def taken_back(browser: Browser, program: str) -> str | None:
    """`z` takes the value back: the run is the program's own again, and the script leads there too; then there is none
    left."""
    browser.keys("Escape", "z")
    waited(browser, "app.run.isComplete && app.run.moves", 88)
    ended = [browser.run(f"document.getElementById('{name}').textContent") for name in ("end", "was")]
    given = waited(browser, "agreed.className + agreed.textContent", "is-rightsession #45 $fill @body 5")
    browser.run("app.go(87)")
    waited(browser, "agreed.textContent", "session #87 $main @end 2")
    values = browser.run("[app.ghost, Object.keys(app.run.pokes), app.run.operand('%total', 87).toString()]")
    place = played(program, SQUARES, str(browser.run("app.source.ask('api/script').then(told => told.text())")))
    browser.key("z")
    said = waited(browser, "document.getElementById('said').textContent", "nothing was set by hand")
    found = [ended, given, values, place, said]
    return None if found == [["done 30", "done 14 at #89"], "is-rightsession #45 $fill @body 5", [None, [], "30"],
                             "#87 $main @end 2", "nothing was set by hand"] else f"taken back: {found}"


def other_way(program: str) -> str | None:
    """Where a value by hand has the run go another way, each round of a loop is beside the same round of the run
    before."""
    with opened(program, SQUARES) as browser:
        browser.run("app.go(31)")
        browser.run("app.make('set %i 1')")
        waited(browser, "app.ghost !== null && app.run.isComplete", True)
        # The states of the run before: the same place, in the same call, as often. The loop of $fill goes seven rounds
        # and not five.
        given = browser.run("[31, 32, 40, 49, 58, 68, 69, 70, 73, 107].map(each => app.ghost.stateOf(each))")
        places = browser.run(
            "[40, 49, 69, 70, 73].map(each => app.ghost.run.places[app.ghost.stateOf(each)] === app.run.places[each])")
    wanted = [31, 31, 39, 48, -1, 49, 50, 51, 54, 88]
    return None if given == wanted and all(places) else f"{given} and not {wanted}, {places}"


def played(program: str, file: str, script: str) -> str:
    """The place to which a script leads the debugger alone."""
    run = subprocess.run([program, file], input=script, capture_output=True, text=True, timeout=600)
    return str(read_place(run.stdout.strip().split("\n")[-1]))


def export(program: str) -> str | None:
    """The exported file, opened from the disk: the same run and causes, and no request."""
    with tempfile.TemporaryDirectory(prefix="page-") as folder:
        file = f"{folder}/queens.html"
        subprocess.run([sys.executable, "-B", str(MAIN), "--debugger", program, "--export", file, "--", QUEENS],
                       check=True, capture_output=True)
        browser = Browser()
        try:
            browser.send("Network.enable")
            browser.open(f"file://{file}")
            asked = [each["params"]["request"]["url"] for each in browser.events
                     if each.get("method") == "Network.requestWillBeSent"]
            foreign = [url for url in asked if not url.startswith(("file:", "data:", "blob:"))]
            browser.click(".byte", 2)
            given = browser.run("[app.run.moves, app.run.end, app.walk.root.cause.place.instruction.text]")
            blocked = browser.run("fetch('http://127.0.0.1:9/').then(() => 'sent', error => 'forbidden')")
            errors = [error for error in browser.errors() if "Content Security Policy" not in error
                      and "Fetch API" not in error]
        finally:
            browser.close()
    wanted = [37116, "done 4", "call $putchar(w %letter)"]
    if given[:2] != wanted[:2] or "call $putchar(w %letter)" not in given[2]:
        return f"the file shows {given}"
    return f"{foreign} {errors} {blocked}" if foreign or errors or blocked != "forbidden" else None


LONG = """data $cells = { z 64 }
export function w $main() {
@start
\tjmp @loop
@loop
\t%i =w phi @start 0, @loop %next
\t%mixed =w mul %i, 2654435761
\t%slot =w and %mixed, 15
\t%offset =l extuw %slot
\t%bytes =l shl %offset, 2
\t%place =l add $cells, %bytes
\tstorew %mixed, %place
\t%next =w add %i, 1
\t%more =w csltw %next, COUNT
\tjnz %more, @loop, @end
@end
\tret %mixed
}
"""
MOVES_A_ROUND = 9


def size(program: str) -> str | None:
    """100,000 moves that mix numbers are exported as less than a megabyte."""
    with tempfile.TemporaryDirectory(prefix="page-") as folder:
        file = pathlib.Path(folder) / "long.ssa"
        file.write_text(LONG.replace("COUNT", str(100_000 // MOVES_A_ROUND + 1)))
        subprocess.run([sys.executable, "-B", str(MAIN), "--debugger", program, "--export", f"{folder}/long.html", "--",
                        str(file)],
                       check=True, capture_output=True)
        moves = read_place(Pipe([program, str(file)]).ask("step 999999")[0][-1]).position
        size = pathlib.Path(f"{folder}/long.html").stat().st_size
    return None if moves >= 100_000 and size < 1_000_000 else f"{moves} moves are {size} bytes"


ROBUSTNESS = """# </script><script>window.hacked = 1</script> <img src=x onerror="window.hacked = 2">
data $text = { b "<script>window.hacked = 3</script><img src=x onerror='window.hacked = 4'>\\000" }
export function w $main() {
@script.alert.1
\t%__proto__ =w copy 1	# <b>bold</b> %constructor @toString
\t%constructor =w add %__proto__, 1
\t%hasOwnProperty =w call $puts(l $text)
\tjmp @__proto__
@__proto__
\t%toString =w phi @script.alert.1 %constructor
\tret %toString
}
"""


def hostile(program: str) -> str | None:
    """Names, comments, output and a file's name that would be markup are text, on the page and in the exported file."""
    with tempfile.TemporaryDirectory(prefix="page-") as folder:
        file = pathlib.Path(folder) / "<img src=x onerror=alert(1)>.ssa"
        file.write_text(ROBUSTNESS)
        export_file = f"{folder}/hostile.html"
        subprocess.run([sys.executable, "-B", str(MAIN), "--debugger", program, "--export", export_file, "--",
                        str(file)], check=True, capture_output=True)
        browser = Browser()
        try:
            with Serving(program, str(file)) as serving:
                for address in (serving.address, f"file://{export_file}"):
                    browser.open(address)
                    browser.keys("w", "e", "ArrowLeft", "ArrowLeft")
                    fault = hostile_fault(browser, file.name)
                    if fault:
                        return f"{address}: {fault}"
        finally:
            browser.close()
    return None


def hostile_fault(browser: Browser, name: str) -> str | None:
    given = browser.run("""({hacked: window.hacked ?? null, images: document.images.length,
        file: document.getElementById('file').textContent, output: document.getElementById('output').textContent,
        values: [...document.querySelectorAll('.temp .name')].map(each => each.textContent),
        first: document.querySelector('.line code').textContent})""")
    wanted = {"hacked": None, "images": 0, "file": name, "first": ROBUSTNESS.split("\n")[0],
              "values": ["%__proto__", "%constructor", "%hasOwnProperty", "%toString"]}
    wrong = [f"{key} {given[key]!r}" for key, value in wanted.items() if given[key] != value]
    if "<script>window.hacked = 3</script><img" not in given["output"]:
        wrong.append(f"output {given['output']!r}")
    return ", ".join(wrong + browser.errors()) or None


def ended(program: str) -> str | None:
    """Where the server has ended the page says so, and goes on showing the run."""
    browser = Browser()
    try:
        with Serving(program, SQUARES) as serving:
            browser.open(serving.address)
        browser.run("app.go(44)")
        given = waited(browser, "agreed.textContent", "the server has ended")
        return None if given == "the server has ended" and browser.run("app.cursor") == 44 else f"{given}"
    finally:
        browser.close()


def side_by_side(program: str) -> str | None:
    """README's example beside the one that is right: each side where qrev-compare says that they part."""
    with tempfile.TemporaryDirectory(prefix="page-") as folder:
        good = pathlib.Path(folder) / "good.ssa"
        good.write_text(pathlib.Path(SQUARES).read_text().replace("cslew %i, 4", "csltw %i, 4"))
        words = [str(good), SQUARES, "--events", "writes,end"]
        told = subprocess.run(["qrev-compare", *words], executable=COMPARER, stdin=subprocess.DEVNULL,
                              capture_output=True, text=True).stdout
        steps = [int(line.split()[1]) for line in told.split("\n") if line.startswith("step ")]
        browser = Browser(1600, 1000)
        try:
            with Serving(program, *words, options=("--compare", str(COMPARER))) as serving:
                browser.open(serving.address)
                ready = ("[...document.querySelectorAll('iframe')].map(each => "
                         "each.contentDocument?.documentElement?.dataset.ready).join()")
                waited(browser, ready, "yes,yes")
                sides = "[...document.querySelectorAll('iframe')].map(each => each.contentWindow.app"
                given = browser.run(f"{sides}.cursor)"), browser.run("document.getElementById('head').textContent")
                ends = browser.run(f"{sides}.run.end)")
                browser.run(f"{sides}.go(1))")
                browser.click("#there")
                again = browser.run(f"{sides}.cursor)")
                led = stepped(browser, sides)
                errors = browser.errors()
        finally:
            browser.close()
    if len(steps) != 2 or given != (steps, told.split("\n")[0]) or ends != ["done 14", "done 30"]:
        return f"the sides stand at {given} with {ends}, and the comparison says {told!r}"
    return f"back there: {again} {errors}" if again != steps or errors else led


def stepped(browser: Browser, sides: str) -> str | None:
    """Both runs go together: by events from the first to the end, and where one is moved; not so where that is switched
    off."""
    waited(browser, "document.documentElement.dataset.ready", "yes")
    where = "document.getElementById('where').textContent"
    events = browser.run("pair.events.map(each => Array.from(each))")
    if not browser.run("pair.isAligned") or min(map(len, events)) < 4:
        return f"the events are {events}"

    def both() -> Any:
        return browser.run(f"{sides}.cursor)")
    browser.run(f"{sides}.go(0))")
    for number, wanted in enumerate(zip(*events)):
        browser.click("#next")
        if both() != list(wanted) or browser.run(where) != f"behind {number} events":
            return f"before event {number} both stand at {both()} and not at {wanted}, {browser.run(where)}"
    browser.click("#before")
    if both() != [events[0][-2], events[1][-2]] and len(events[0]) == len(events[1]):
        return f"before the last event but one both stand at {both()}"
    # A key in one run, in the middle between two events.
    browser.run(f"pair.apps[1].go({events[1][1] + 2})")
    if both() != [events[0][1] + 1, events[1][1] + 2]:
        return f"the other run follows to {both()}"
    browser.click("#together")
    browser.run("pair.apps[1].go(0)")
    return None if both() == [events[0][1] + 1, 0] else f"the other run follows though it must not: {both()}"


FLOATY = TOP / "lower" / "test-data" / "real" / "floaty.ssa"
# What stands in the page of a lowered text: the frames that are tabs, the temporaries, the cells on the stack, lines
# left out.
LOOKED = """({cursor: app.cursor, place: document.getElementById("place").textContent,
  tabs: [...document.querySelectorAll(".frame")].map(each => each.textContent),
  values: Object.fromEntries([...document.querySelectorAll(".temp")].map(each =>
    [each.querySelector(".name").textContent, each.querySelector(".number").textContent])),
  cells: [...document.querySelectorAll(".object")]\
.filter(each => each.querySelector(".name").textContent.startsWith("%object.12"))
    .flatMap(each => [...each.querySelectorAll(".cell")].map(cell => cell.textContent)),
  left: [...document.querySelectorAll(".is-folded")].map(each => each.textContent), rows: app.timeline.deepest,
  sum: app.causes.of(app.causes.temporary(app.place.func.temporaries.find(\
([name]) => name === "%.36")?.[0] ?? "%.9", app.state)).verb})"""


def lowered_text(program: str) -> str | None:
    """A lowered text: floats are decimals, a function of the runtime is one move and one cause, and `i` shows what it
    does."""
    with tempfile.TemporaryDirectory(prefix="page-") as folder:
        file = f"{folder}/floaty.ssa"
        subprocess.run([str(TOP / "lower" / "qrev-lower"), "--link", "--output", file, str(FLOATY)], check=True,
                       capture_output=True, stdin=subprocess.DEVNULL)
        browser = Browser(1280, 800)
        try:
            with Serving(program, file, options=("--lowered", str(FLOATY))) as serving:
                browser.open(serving.address)
                end = browser.run(LOOKED)
                # The call of the sum is one move, forward and back, with or without shift.
                call = browser.run("app.run.frames.begin[Array.from(app.run.frames.func).findIndex(func => "
                                   "app.program.functions[func].name === '$float.add.d')] - 1")
                browser.run(f"app.go({call})")
                browser.key("ArrowRight")
                behind = browser.run(LOOKED)
                browser.key("ArrowLeft")
                before = browser.run("app.cursor")
                # In the middle of it the program's own frame is looked into.
                browser.run(f"app.go({call + 20})")
                inside = browser.run(LOOKED)
                browser.key("i")
                unfolded = browser.run(LOOKED)
                browser.key("ArrowRight")
                after = browser.run("app.cursor")
                errors = browser.errors()
        finally:
            browser.close()
    found = {"the end": end["values"].get("%.9") == "2.0" and end["cells"][:3] == ["1.0", "2.0", "3.0"]
             and len(end["left"]) == 2 and end["rows"] == 2,
             "over the sum": behind["cursor"] > call + 20 and behind["values"]["%.36"] == "1.0"
             and behind["sum"] == "set by", "back over it": before == call,
             "the own frame": inside["place"].startswith("$avg ") and inside["tabs"][-1] == "$float.add.d",
             "the runtime": unfolded["place"].startswith("$float.") and not unfolded["left"] and unfolded["rows"] > 4,
             "a move in it": after == call + 21}
    wrong = [name for name, holds in found.items() if not holds]
    return f"{', '.join(wrong)}: {[end, behind, before, inside, unfolded, after]}" if wrong else "; ".join(errors) or \
        None


CASES = {"keys": keys, "a lowered text": lowered_text, "pointer": pointer, "a position that is typed": typed_position,
         "suspicions that aren't known": unlooked, "suspicions of a long run": far_suspected,
         "a value by hand and the script": by_hand,
         "another way by hand": other_way, "export": export, "export's size": size,
         "hostile texts": hostile, "the server ends": ended,
         "side by side": side_by_side}
