"""The wrapper's --lower, which lowers and runs in one go, and the time that a large text takes."""
import base64
import gzip
import json
import os
import pathlib
import re
import shutil
import signal
import subprocess
import sys
import tempfile
import threading
from collections.abc import Callable

from .running import DATA, FOLDER, LOWER, TOP, Results, Running, differ

TEXT = """
data $f = { b "%s %d\\n\\0" }
data $s = { b "argument\\0" }
export function w $main(w %a) {
@start
	%r =w call $printf(l $f, ..., l $s, w %a)
	%x =w call $half(w %r)
	ret %x
}
"""
HALF = "export function w $half(w %x) {\n@start\n\t%d =d swtof %x\n\t%h =d div %d, d_2\n\t%r =w dtosi %h\n\tret %r\n}\n"
ECHO = """
export function w $main(w %argc, l %argv) {
@start
@loop
	%at =l phi @start %argv, @word %next
	%word =l loadl %at
	%is.word =w cnel %word, 0
	jnz %is.word, @word, @end
@word
	%w =w call $printf(l $f, ..., l %word)
	%next =l add %at, 8
	jmp @loop
@end
	%p =w call $putchar(w 10)
	%bytes =l sub %at, %argv
	%count =l div %bytes, 8
	%wide =l extsw %argc
	%rest =l sub %wide, %count
	%r =w copy %rest
	ret %r
}
data $f = { b "%s|\\0" }
"""
# A main that calls itself with the words behind the first.
AGAIN = """
data $f = { b "%s ", b 0 }
export function w $main(w %argc, l %argv) {
@start
	%word =l loadl %argv
	%p =w call $printf(l $f, ..., l %word)
	%less =w sub %argc, 1
	jnz %less, @more, @end
@more
	%next =l add %argv, 8
	%r =w call $main(w %less, l %next)
	ret %r
@end
	ret 0
}
"""
READ = """
export function w $main() {
@start
	%a =w call $getchar()
	%p =w call $putchar(w %a)
	%b =w call $getchar()
	%p =w call $putchar(w %b)
	%c =w call $getchar()
	%p =w call $putchar(w %c)
	ret %c
}
"""
SECONDS_OF_A_MEBIBYTE = 2.0


class Wrapper:
    """The script at the top with the program as the released one, in a folder of its own."""

    def __init__(self, place: str, running: Running):
        self.top, self.running = pathlib.Path(place), running
        shutil.copy(TOP / "qrev", self.top / "qrev")
        (self.top / "lower").symlink_to(FOLDER)
        for name in ("check", "terminal", "page"):
            (self.top / name).symlink_to(TOP / name)
        (self.top / "release").mkdir()
        for name in ("program", "words"):
            shutil.copy(TOP / "release" / name, self.top / "release" / name)
        (self.top / "release" / "qrev-x86_64-linux").symlink_to(running.program)
        fits = self.top / "release" / "fits"
        fits.write_text("#!/bin/sh\nexit 0\n")
        fits.chmod(0o755)
        (self.top / "tmp").mkdir()

    def run(self, *words: str, script: str = "continue\nout\n") -> subprocess.CompletedProcess[str]:
        return subprocess.run([str(self.top / "qrev"), *words], input=script, capture_output=True, text=True,
                              cwd=self.top,
                              timeout=self.running.seconds, env=os.environ | {"TMPDIR": str(self.top / "tmp")})


# 1.5 + 2 is 3.5, of which 3 is left.
WHOLE = """export function w $main() {
@start
	%a =d add d_1.5, d_2
	%c =w dtosi %a
	ret %c
}
"""


# A text of the debugger's own language.
PLAIN = """export function w $main() {
@start
	%x =w copy 7
	ret %x
}
"""


def unasked_faults(wrapper: Wrapper) -> Results:
    """What is lowered without --lower: at the prompt, for a check and for a page, and not for a script."""
    (wrapper.top / "whole.ssa").write_text(WHOLE)
    (wrapper.top / "half.ssa").write_text(WHOLE.replace("%c\n}", "%d\n}"))
    (wrapper.top / "wrong.q.ssa").write_text(WHOLE.replace("=d add", "=q add"))
    run = wrapper.run("--check", "whole.ssa")
    yield "command/a check lowers", differ("end", (0, ", done 3\n", ""),
                                           (run.returncode, run.stdout[-9:], run.stderr))
    run = wrapper.run("--prompt", "whole.ssa", script="c\n")
    yield "command/the prompt lowers", differ(
        "end", (True, True, "whole.ssa is of whole QBE: it was lowered; `source:` at a stop is a line of its own\n"),
        (" done 3\n" in run.stdout, "  source: whole.ssa:3\n" in run.stdout, run.stderr))
    for word in ("--prompt", "--check"):
        run = wrapper.run(word, "--no-lower", "whole.ssa")
        yield f"command/{word} with --no-lower", differ(
            "run", (1, True), (run.returncode, (run.stdout + run.stderr).startswith("whole.ssa:3: P2: ")))
    run = wrapper.run("--lower", "--no-lower", "whole.ssa")
    yield "command/both words", differ("run", (64, "qrev: --lower and --no-lower don't go together\n"),
                                       (run.returncode, run.stderr))
    run = wrapper.run("--page", "--export", "out.html", "whole.ssa")
    yield "command/a page lowers", differ("status", (0, True), (run.returncode, (wrapper.top / "out.html").exists()))
    for words, told in ((["whole.ssa", "--input", "x"], "--input"), (["--file=x", "whole.ssa"], "--file"),
                        (["whole.ssa", "b.ssa"], "a second text, b.ssa,"),
                        (["whole.ssa", "--", "1", "a"], "`a` behind --")):
        run = wrapper.run(*words)
        yield f"command/a script with {words}", differ(
            "run", (64, f"qrev: {told} goes with --lower: "), (run.returncode, run.stderr.partition("./qrev")[0]))
    run = wrapper.run("whole.ssa")
    yield "command/a script doesn't lower", differ("run", (1, "refused: P2 line 3\n"), (run.returncode, run.stdout))
    for words in (["echo.ssa", "--", "a"], ["a.ssa", "b.ssa", "42"]):
        run = wrapper.run("--check", *words)
        yield f"command/a check lowers {words}", None if run.returncode == 0 and " done " in run.stdout else \
            f"{run.stdout!r}, {run.stderr!r}"
    run = wrapper.run("--check", "half.ssa")
    yield "command/a check of what neither takes", differ(
        "run", (1, "half.ssa:5: %d is used in `ret`, and nothing defines it\n"), (run.returncode, run.stderr))
    run = wrapper.run("--prompt", "wrong.q.ssa")
    yield "command/the prompt of what is no QBE", differ(
        "run", (1, True, ""), (run.returncode, run.stdout.startswith("wrong.q.ssa:3: P1: "), run.stderr))


def piped_faults(wrapper: Wrapper) -> Results:
    """Texts that can be read only once: from standard input and from a pipe with a name."""
    for name, text, end in (("whole", WHOLE, ", done 3\n"), ("plain", PLAIN, ", done 7\n")):
        for word in ("-", "/dev/stdin"):
            run = wrapper.run("--check", word, script=text)
            yield f"command/a check of {word}, {name}", differ("end", (0, end, ""),
                                                               (run.returncode, run.stdout[-9:], run.stderr))
        run = wrapper.run("--page", "--export", f"{name}.html", "-", script=text)
        yield f"command/a page of -, {name}", differ(
            "status", (0, True), (run.returncode, (wrapper.top / f"{name}.html").exists()))
        pipe = wrapper.top / f"{name}.pipe"
        os.mkfifo(pipe)
        writer = threading.Thread(target=pipe.write_text, args=(text,))
        writer.start()
        run = wrapper.run("--prompt", pipe.name, script="c\n")
        writer.join()
        # It is called by its own name, and not by that of what is kept of it.
        told = run.stdout + run.stderr
        yield f"command/the prompt of a pipe, {name}", differ(
            "end", (True, True, False), (end[1:] in told, f"source: {pipe.name}:" in told or name == "plain",
                                         str(wrapper.top) in told))
    run = wrapper.run("--check", "-", "--format", "gnu", script=PLAIN.replace("%x", "%y", 1))
    yield "command/a refusal of -", differ(
        "run", (1, True), (run.returncode, run.stdout.startswith("/dev/stdin:4: error: ")))
    run = wrapper.run("--check", "-", script=WHOLE.replace("ret %", "ret %no.", 1))
    yield "command/a refusal of - by lowering", differ(
        "run", (1, True), (run.returncode, run.stderr.startswith("/dev/stdin:")))
    run = wrapper.run("-", script="continue\n")
    yield "command/a script of -", differ("status", 2, run.returncode)
    yield "command/what is kept of pipes", differ("files", [], sorted(os.listdir(wrapper.top / "tmp")))


# A text whose source the compiler had in a folder that isn't here, and that source.
GONE = PLAIN.replace("export", 'dbgfile "/gone/from/here/x.c"\nexport').replace("\t%x", "\tdbgloc 2\n\t%x", 1)
GONE_SOURCE = "int main(void) {\n    return seven;\n}\n"


def directory_faults(wrapper: Wrapper) -> Results:
    """The page and the prompt find sources in a folder that is named before the program, and nothing is begun where
    there is no such folder."""
    (wrapper.top / "gone.ssa").write_text(GONE)
    (wrapper.top / "moved").mkdir()
    (wrapper.top / "moved" / "x.c").write_text(GONE_SOURCE)
    for words in (["-d", "moved"], ["--directory", "moved"], ["--directory=moved"]):
        run = wrapper.run(*words, "--prompt", "--lower", "gone.ssa", script="list\n")
        yield f"command/{words}", differ("list", True, "> 2      return seven;\n" in run.stdout)
    for folder in ("moved", "."):
        wrapper.run("--page", "-d", folder, "--export", "gone.html", "gone.ssa")
        # What a page is told of the program is the first of what is packed in it.
        packed = re.search(r"H4sI[\w+/=]+", (wrapper.top / "gone.html").read_text())
        told = json.loads(gzip.decompress(base64.b64decode(packed[0]))) if packed else {}
        lines = GONE_SOURCE.split("\n") if folder == "moved" else None
        yield f"command/a page after -d {folder}", differ("source", lines, told["sources"].get("/gone/from/here/x.c"))
    for words in (["-d", "none", "gone.ssa"], ["--directory=none", "gone.ssa"], ["-d"]):
        run = wrapper.run(*words)
        yield f"command/{words}", differ("run", (64, "", True), (run.returncode, run.stdout, "a folder" in run.stderr))


def wrapper_faults(running: Running) -> Results:
    with tempfile.TemporaryDirectory(prefix="lower-") as place:
        wrapper = Wrapper(place, running)
        (wrapper.top / "a.ssa").write_text(TEXT)
        (wrapper.top / "b.ssa").write_text(HALF)
        (wrapper.top / "wrong.ssa").write_text(TEXT.replace("%x\n}", "%y\n}"))
        # 12 bytes are written, of which the half is 6.
        run = wrapper.run("--lower", "a.ssa", "b.ssa", "42", "--history", "10")
        lines = run.stdout.split("\n")
        yield "command/--lower", differ("run", (0, True, ['out 12 "argument 42\\012"', ""], ""),
                                        (run.returncode, lines[-3].endswith(" done 6"), lines[-2:], run.stderr))
        for words in (["--memory", "2"], ["--memory=65536"], ["--history", "all"], ["--replay", "2"], ["--replay"],
                      ["--replay=65536"]):
            run = wrapper.run("--lower", "a.ssa", "b.ssa", "42", *words)
            yield f"command/--lower with {words}", differ("run", (0, ['out 12 "argument 42\\012"', ""], ""),
                                                          (run.returncode, run.stdout.split("\n")[-2:], run.stderr))
        # The name of a function may have its sigil.
        for words in (["--entry", "half"], ["--entry", "$half"], ["--entry=$half"]):
            run = wrapper.run("--lower", "b.ssa", "9", *words)
            yield f"command/--lower with {words}", differ("end", True, run.stdout.split("\n")[-3].endswith(" done 4"))
        # Each temporary of these texts has one definition, whatever the runtime does.
        run = wrapper.run("--prompt", "--lower", "a.ssa", "b.ssa", "42", script="q\n")
        yield "command/the form of what is the program's own", differ(
            "line", True, run.stdout.split("\n")[0].endswith(" data bytes ssa yes"))
        (wrapper.top / "echo.ssa").write_text(ECHO)
        run = wrapper.run("--lower", "echo.ssa", "--", "a", "1", "--b c", "", "--", "-o")
        yield "command/--lower with texts for main", differ("output", 'out 23 "echo|a|1|--b c||--|-o|\\012"',
                                                            run.stdout.split("\n")[-2])
        (wrapper.top / "again.ssa").write_text(AGAIN)
        run = wrapper.run("--lower", "again.ssa", "--", "a", "bc")
        yield "command/--lower with texts for a main that calls itself", differ(
            "output", 'out 11 "again a bc "', run.stdout.split("\n")[-2])
        # Native code that is started without words has its own name alone, too.
        for end in ("--", ""):
            run = wrapper.run("--lower", "echo.ssa", *end.split())
            yield f"command/--lower without texts for main {end}", \
                differ("output", 'out 6 "echo|\\012"', run.stdout.split("\n")[-2])
        for words in (["echo.ssa", "--lower"], ["--lower", "echo.ssa", "--check"], ["--check", "--lower=x", "--page"]):
            run = wrapper.run(*words)
            told = f"qrev: {words[-1]} comes before the program and all other words: ./qrev {words[-1]} FILE\n"
            yield f"command/{words}", differ("run", (64, "", told), (run.returncode, run.stdout, run.stderr))
        yield from unasked_faults(wrapper)
        yield from piped_faults(wrapper)
        yield from directory_faults(wrapper)
        (wrapper.top / "read.ssa").write_text(READ)
        (wrapper.top / "given").write_bytes(b"Q\xff")
        for words in (["--input", "given", "read.ssa"], ["read.ssa", "--input=given", "--report"]):
            run = wrapper.run("--lower", *words)
            yield f"command/--lower with an input {words[0]}", \
                differ("output", 'out 3 "Q\\377\\377"', run.stdout.split("\n")[-2])
        run = wrapper.run("--lower", "wrong.ssa", "1")
        told = "wrong.ssa:8: %y is used in `ret`, and nothing defines it\n"
        yield "command/--lower refuses", differ("run", (1, "", told), (run.returncode, run.stdout, run.stderr))
        yield from refused_checks(wrapper, told)
        run = wrapper.run("--lower", "--report", "a.ssa", "1")
        yield "command/--lower with a report", None if "a.ssa:7: $half is defined nowhere" in run.stderr and \
            "fault halted" in run.stdout else f"{run.stdout!r}, {run.stderr!r}"
        run = wrapper.run("--lower", "nothing.ssa")
        yield "command/--lower without the file", differ("status", (2, ""), (run.returncode, run.stdout))
        yield "command/--lower leaves nothing", differ("files", [], list((wrapper.top / "tmp").iterdir()))


def refused_checks(wrapper: Wrapper, said: str) -> Results:
    """A check of a text that isn't lowered reports that in the requested form: the second text is the wrong one."""
    words = ["--check", "--lower", "b.ssa", "wrong.ssa", "1", "--format"]
    run = wrapper.run(*words, "text")
    yield "command/--check of a refused text", differ("run", (1, "", said), (run.returncode, run.stdout, run.stderr))
    run = wrapper.run(*words, "gnu")
    yield "command/--check of a refused text, gnu", differ(
        "run", (1, said.replace(":8: ", ":8: error: "), ""), (run.returncode, run.stdout, run.stderr))
    run = wrapper.run(*words, "json")
    results = json.loads(run.stdout or "{}").get("runs", [{}])[0].get("results", [])
    places = [each["physicalLocation"] for result in results for each in result["locations"]]
    told = [(result["level"], result["message"]["text"]) for result in results]
    yield "command/--check of a refused text, json", differ(
        "results", (1, [("error", said.partition(":8: ")[2].strip())], [{"artifactLocation": {"uri": "wrong.ssa"},
                                                                         "region": {"startLine": 8}}]),
        (run.returncode, told, places))


def compared_faults(running: Running) -> Results:
    """Two texts that are lowered and compared: the sum of 1 to 4, and one where an addition is a subtraction."""
    built = TOP / "crates" / "qrev_compare" / "out" / "qrev_compare"
    program = built if built.exists() else TOP / "release" / "qrev-compare-x86_64-linux"
    with tempfile.TemporaryDirectory(prefix="lower-") as place:
        wrapper = Wrapper(place, running)
        shutil.copy(TOP / "qrev-compare", wrapper.top / "qrev-compare")
        (wrapper.top / "release" / "qrev-compare-x86_64-linux").symlink_to(program)
        good = (DATA / "real" / "sum.ssa").read_text()
        (wrapper.top / "good.ssa").write_text(good)
        (wrapper.top / "bad.ssa").write_text(good.replace("%.47 =w add %.47, %.48", "%.47 =w sub %.47, %.48"))

        def run(*words: str, script: str = "") -> subprocess.CompletedProcess[str]:
            return subprocess.run([str(wrapper.top / "qrev-compare"), "--lower", *words], input=script,
                                  capture_output=True, text=True, cwd=wrapper.top, timeout=running.seconds,
                                  env=os.environ | {"TMPDIR": str(wrapper.top / "tmp")})

        told = run("good.ssa", "bad.ssa")
        lines = told.stdout.split("\n")
        places = [line.partition("    ")[2] for line in lines if line.startswith("#")]
        yield "command/compare --lower", differ("status", 1, told.returncode) or \
            differ("first", ["part at event 1", "good: return $sum 10"], lines[:2]) or \
            differ("bad", True, "bad: return $sum 4294967286" in lines) or \
            differ("places", [f"{name}.ssa:51: ha/s/sum.ha:2:69: storew %.10, %binding.9" for name in ("good", "bad")],
                   places)
        told = run("good.ssa", "bad.ssa", "--session", "bad", script="back 3\n")
        yield "command/compare --lower with a session", differ(
            "place", True, "    bad.ssa:96: ha/s/sum.ha:1:54: " in told.stdout.split("\n")[-2])
        told = run("good.ssa", "good.ssa", "--events=calls,end")
        yield "command/compare --lower of the same", \
            differ("told", (0, "same 3 events\n"), (told.returncode, told.stdout))
        told = run("good.ssa", "none.ssa")
        yield "command/compare --lower without a text", differ("told", (2, ""), (told.returncode, told.stdout))
        told = run("good.ssa")
        yield "command/compare --lower of one text", differ(
            "told", (64, "", "qrev-compare: two texts were expected: ./qrev-compare --lower GOOD BAD\n"),
            (told.returncode, told.stdout, told.stderr))
        yield "command/compare folders", folders_fault(wrapper, run)
        for file in ("echo.ssa", "other.ssa"):
            (wrapper.top / file).write_text(ECHO)
        for texts in ("", "-- a b"):
            # Both write their name, which is one, though the files have two.
            told = run("echo.ssa", "other.ssa", "--events", "output", *texts.split())
            written = "".join(f"{word}|" for word in ["echo", *texts.split()[1:]]) + "\n"
            yield f"command/compare --lower with texts for main {texts}", differ(
                "told", (0, f"same {len(written)} events\n"), (told.returncode, told.stdout))
        for before in ("--lower", ""):
            yield f"command/compare --page {before}", page_fault(wrapper, before.split())
        yield "command/compare --lower leaves nothing", differ("files", [], list((wrapper.top / "tmp").iterdir()))


# A program of two texts; the second squares its argument, or doubles it.
CALLS_OTHER = "export function w $main() {\n@start\n\t%x =w call $other(w 3)\n\tret %x\n}\n"
OTHER = "export function w $other(w %x) {\n@start\n\t%y =w OPERATION\n\tret %y\n}\n"


def folders_fault(wrapper: Wrapper, run: Callable[..., subprocess.CompletedProcess[str]]) -> str | None:
    """Two folders, each with the two texts of a program and with a file of another kind, and one without texts."""
    for folder, operation in (("first", "mul %x, %x"), ("second", "add %x, %x")):
        (wrapper.top / folder).mkdir()
        for file, text in (("main.ssa", CALLS_OTHER), ("other.ssa", OTHER.replace("OPERATION", operation)),
                           ("notes", "no text")):
            (wrapper.top / folder / file).write_text(text)
    told = run("first/", "second")
    lines = told.stdout.split("\n")
    (wrapper.top / "empty").mkdir()
    none = run("first", "empty")
    return differ("status", 1, told.returncode) or \
        differ("good", True, "good: return $other 9" in lines) or \
        differ("bad", True, "bad: return $other 6" in lines) or \
        differ("place", True, any("    second/main.ssa:4: ret %x" in line for line in lines)) or \
        differ("none", (2, "qrev-lower: empty: no text *.ssa is in this folder\n"), (none.returncode, none.stderr))


def page_fault(wrapper: Wrapper, before: list[str]) -> str | None:
    """Both texts are shown by their own names, until the server is ended."""
    words = [str(wrapper.top / "qrev-compare"), "--page", *before, "good.ssa", "bad.ssa"]
    environment = os.environ | {"TMPDIR": str(wrapper.top / "tmp")}
    for name in ("DISPLAY", "WAYLAND_DISPLAY", "BROWSER", "WSL_DISTRO_NAME"):
        environment.pop(name, None)
    with subprocess.Popen(words, stdout=subprocess.PIPE, text=True, cwd=wrapper.top, env=environment,
                          start_new_session=True) as server:
        assert server.stdout
        told = [server.stdout.readline() for _ in range(2)]
        os.killpg(server.pid, signal.SIGTERM)
        # The end comes when all of its processes are over.
        server.stdout.read()
    return differ("told", ["part at event 1\n", "good.ssa and bad.ssa is shown at\n"], told)


def map_fault(running: Running) -> str | None:
    """The map has a line for each line of the text, also where --map and --output say its place, and a pipe has none.
    What the names stand for is beside the text."""
    with tempfile.TemporaryDirectory(prefix="lower-") as place:
        folder = pathlib.Path(place)
        (folder / "a.ssa").write_text(TEXT)
        for words in (["--output", "one.ssa"], ["--output", "two.ssa", "--map", "two.map"]):
            subprocess.run([sys.executable, str(LOWER), *words, "a.ssa"], cwd=folder, timeout=running.seconds)
        piped = subprocess.run([sys.executable, str(LOWER), "a.ssa"], cwd=folder, capture_output=True,
                               timeout=running.seconds).stdout
        files = sorted(path.name for path in folder.iterdir())
        text, found = (folder / "one.ssa").read_bytes(), (folder / "one.ssa.map").read_text()
    return differ("files", ["a.ssa", "one.ssa", "one.ssa.map", "one.ssa.names", "two.map", "two.ssa",
                            "two.ssa.names"], files) or \
        differ("pipe", text, piped) or differ("lines", text.count(b"\n"), found.count("\n")) or \
        differ("first", "a.ssa\t2", found.split("\n")[0])


def mebibyte() -> str:
    """A text of a mebibyte: a real one again and again, with names of its own each time."""
    text = (DATA / "real" / "matrix.ssa").read_text().replace("$main", "$mainly")
    parts = ["export function $main() {\n@start\n\tret\n}\n"]
    size = 0
    while size < 1 << 20:
        part = text
        for name in ("$strdata.1", "$strliteral.0", "$mainly", "$mul", ":type.7", ":type.8"):
            part = part.replace(name, f"{name}.n{len(parts)}")
        parts.append(part)
        size += len(part)
    return "".join(parts)


def time_fault() -> str | None:
    """The seconds of the processor, as the machine may have more to do."""
    text = mebibyte()
    with tempfile.TemporaryDirectory(prefix="lower-") as place:
        folder = pathlib.Path(place)
        (folder / "a.ssa").write_text(text)
        best = min(timed(folder) for _ in range(2))
        lowered = (folder / "out.ssa").read_bytes()
    if lowered.count(b"function") < 300:
        return f"{lowered.count(b'function')} functions"
    return None if best < SECONDS_OF_A_MEBIBYTE else f"{len(text)} bytes took {best:.2f} s"


def timed(folder: pathlib.Path) -> float:
    """The seconds that the processor worked for it."""
    process = subprocess.Popen([sys.executable, str(LOWER), "--output", "out.ssa", "a.ssa"], cwd=folder)
    _, status, usage = os.wait4(process.pid, 0)
    process.returncode = os.waitstatus_to_exitcode(status)
    if process.returncode:
        raise RuntimeError(f"status {process.returncode}")
    return float(usage.ru_utime + usage.ru_stime)


def results(running: Running) -> Results:
    yield from wrapper_faults(running)
    yield from compared_faults(running)
    yield "command/the map", map_fault(running)
    yield "command/the time of a mebibyte", time_fault()
