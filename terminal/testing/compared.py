"""Tests of a comparison at a terminal: it ends at the prompt, before the moves by which the two runs part.

Each gives what is wrong, or None.
"""
from __future__ import annotations

import os
import pathlib
import re
import signal
import subprocess
import sys
import tempfile

from .harness import FOLDER, TOP, Silent, Terminal
from .sessions import EXAMPLES, SQUARES

ACCOUNT = EXAMPLES / "account.ssa"
LOADED, CALLED = "\t%t1 =w loadw $balance\n\tcall $charge()\n", "\tcall $charge()\n\t%t1 =w loadw $balance\n"
SUM = TOP / "lower" / "test-data" / "real" / "sum.ssa"
BAD, GOOD = "(bad) ", "(good) "
PART, SAME, REFUSED, UNREAD = 1, 0, 65, 2


def compare_of(program: str) -> str:
    """The comparison that goes with a debugger: the one that was built with it, or the released one."""
    built = TOP / "crates" / "qrev_compare" / "out" / "qrev_compare"
    is_built = str(program).startswith(str(TOP / "crates")) and built.exists()
    return str(built if is_built else TOP / "release" / "qrev-compare-x86_64-linux")


class Compared(Terminal):
    """A comparison at a terminal."""

    def __init__(self, program: str, *words: str, lowered: tuple[str, ...] = ()):
        own = [sys.executable, str(FOLDER / "compared"), "--debugger", program, "--compare", compare_of(program)]
        super().__init__([*own, *(f"--lowered={file}" for file in lowered), "--", *words], folder=str(TOP))

    def do(self, line: str, prompt: str) -> str:
        self.type(line + "\n")
        return self.wait_for(prompt)


def lacking(text: str, *wanted: str) -> str | None:
    absent = [each for each in wanted if each not in text]
    return f"{text!r} lacks {absent[0]!r}" if absent else None


def parted(program: str) -> str | None:
    """Both texts are shown where they part, with their values; `why` asks on about the bad one, `other` goes to the
    good one."""
    with tempfile.TemporaryDirectory(prefix="compared-") as folder:
        good = pathlib.Path(folder) / "good.ssa"
        good.write_text(ACCOUNT.read_text().replace(LOADED, CALLED))
        shown = Compared(program, str(good), str(ACCOUNT), "--events", "writes")
        try:
            told = shown.wait_for(BAD)
            fault = lacking(told, "part at event 1", "good: write $balance 63 00 00 00",
                            "storew %t2, $balance    %t2=99",
                            "bad: write $balance 64 00 00 00", "storew %t2, $balance    %t2=100",
                            "write $balance 64 00 00 00, at #12, comes of", "[1] %t2 = 100")
            fault = fault or lacking(shown.do("why 1", BAD), "%t2 = 100 was set by", "[1] %t1 = 0")
            fault = fault or lacking(shown.do("other p %t1", BAD), "%t1 = 4294967295 (-1)")
            fault = fault or lacking(shown.do("p %t1", BAD), "%t1 = 0")
            fault = fault or lacking(shown.do("other", GOOD), "$pay @start 3", "%t2=99")
            fault = fault or lacking(shown.do("s", GOOD), "#12 $pay @start 4")
            script = pathlib.Path(folder) / "saved"
            fault = fault or lacking(shown.do(f"save {script}", GOOD), f"./qrev {good} < {script}")
            fault = fault or lacking(shown.do("other", BAD), "%t2=100")
            shown.type("q\n")
            return fault or (None if shown.status() == PART else "another status than that of the comparison")
        finally:
            shown.close()


def parted_at_end(program: str) -> str | None:
    """Where ends part, each side stands before the move that ended it, and the cause is that of the end."""
    with tempfile.TemporaryDirectory(prefix="compared-") as folder:
        good = pathlib.Path(folder) / "good.ssa"
        good.write_text(SQUARES.read_text().replace("cslew", "csltw"))
        shown = Compared(program, str(good), str(SQUARES), "--events=end", "--limit", "5000")
        try:
            return lacking(shown.wait_for(BAD), "part at event 0", "ret %total    %total=14", "ret %total    %total=30",
                           "done 30, at #88, comes of", "[1] %total = 30")
        finally:
            shown.close()


def parted_lowered(program: str) -> str | None:
    """Texts that were lowered first are shown with the lines that they come from, and named by their own names."""
    with tempfile.TemporaryDirectory(prefix="compared-") as folder:
        texts = [SUM, pathlib.Path(folder) / "bad.ssa"]
        texts[1].write_text(SUM.read_text().replace("storew 4, %item.8", "storew 5, %item.8"))
        lowered = [f"{folder}/{index}.ssa" for index in range(2)]
        for text, out in zip(texts, lowered):
            subprocess.run([str(TOP / "lower" / "qrev-lower"), "--link", "--output", out, str(text)], check=True,
                           capture_output=True, stdin=subprocess.DEVNULL)
        shown = Compared(program, *lowered, "--events", "calls,end", lowered=tuple(map(str, texts)))
        try:
            told = shown.wait_for(BAD)
            return lacking(told, "good: return $sum 10", "bad: return $sum 11", "ha/s/sum.ha:",
                           "comes of") or lacking(shown.do("info session", BAD), f"--lower {texts[1]}:")
        finally:
            shown.close()


# Mistakes of a compiler, each in a text of examples/ with its arguments: a line, what stands there, and what was made
# of it. `blame` should end at that line of both texts. Another operation, operands in another order, another constant,
# labels that changed places, a fault, a loop that goes on too long, a value that is never set.
PLANTED = (("squares", (), 11, "cslew", "csltw"), ("squares", (), 39, "%i, 1", "%i, 2"),
           ("squares", (), 33, "@body, @end", "@end, @body"), ("account", (), 18, "add", "sub"),
           ("account", (), 28, "%i, 3", "%i, 4"), ("account", (), 32, "add", "sub"),
           ("transpose", (), 27, "%column, 2", "%column, 3"), ("transpose", (), 22, "add", "sub"),
           ("transpose", (), 12, "csltw", "cslew"), ("primes", (), 16, "10", "11"),
           ("primes", (), 57, "add", "sub"), ("largest", (), 26, "%i, 1", "%i, 2"),
           ("largest", (), 13, "csltw", "cslew"), ("months", (), 6, "ceqw", "cnew"),
           ("months", (), 13, "@april, @other", "@other, @april"),
           ("checksum", (), 38, "@body, @end", "@end, @body"),
           ("checksum", (), 78, "add", "sub"), ("digits", (), 18, "10", "11"), ("queens", (), 62, "%row, 6", "%row, 7"),
           ("queens", (), 72, "csltw", "cslew"), ("strayed", (), 10, "4", "8"))
# The same in texts that call themselves, where only the last events are compared, so that the walk is long: of the
# calls of a function those that are the same are found on both sides. Faults inside calls that are over in the other
# run, stores that only one run makes or that go elsewhere, loops that go on too long or are left too soon.
ENDS = ("--events", "output,end")
RECURSIVE = (("merge", ENDS, 29, "add", "sub"), ("merge", ENDS, 55, "%k, 1", "%k, 2"),
             ("merge", ENDS, 63, "csltl", "cslel"), ("merge", ENDS, 67, "add", "sub"),
             ("quick", ENDS, 6, "%i, 4", "%i, 5"), ("quick", ENDS, 21, "csgel", "csgtl"),
             ("quick", ENDS, 37, "@change, @next", "@next, @change"), ("quick", ENDS, 48, "%i, 1", "%i, 2"),
             ("tree", ENDS, 11, "%key", "77"), ("tree", ENDS, 66, "add", "sub"),
             ("tree", ENDS, 71, "@loop, @end", "@end, @loop"), ("memo", ENDS, 25, "%n, 3", "%n, 4"),
             ("memo", ENDS, 27, "@zero, @go", "@go, @zero"))


# Of three stores that of the second round goes to where the result is read.
STRAYED = ("data $a = { w 1, w 2, w 3, w 4 }\nexport function w $main() {\n@start\n\tjmp @loop\n@loop\n"
           "\t%i =l phi @start 0, @body %n\n\t%c =w cultl %i, 3\n\tjnz %c, @body, @end\n@body\n"
           "\t%o =l mul %i, 4\n\t%p =l add $a, %o\n\tstorew 7, %p\n\t%n =l add %i, 1\n\tjmp @loop\n@end\n"
           "\t%q =l add $a, 4\n\t%x =w loadw %q\n\tret %x\n}\n")


def blamed(program: str, example: str, words: tuple[str, ...], line: int, old: str, new: str) -> str | None:
    """A mistake in one line is found: `blame` ends at that line, in both texts."""
    own = FOLDER / "testing" / "recursive" / f"{example}.ssa"
    text = STRAYED if example == "strayed" else (own if own.exists() else EXAMPLES / f"{example}.ssa").read_text()
    lines = text.split("\n")
    if lines[line - 1].count(old) != 1:
        return f"line {line} of {example} has no {old}"
    lines[line - 1] = lines[line - 1].replace(old, new)
    with tempfile.TemporaryDirectory(prefix="compared-") as folder:
        good, bad = (pathlib.Path(folder) / f"{side}.ssa" for side in ("good", "bad"))
        good.write_text(text)
        bad.write_text("\n".join(lines))
        shown = Compared(program, str(good), str(bad), *words)
        try:
            shown.wait_for(BAD)
            told = shown.do("blame", BAD)
            ends = re.findall(r"^  (good|bad): #\d+ .*line (\d+): ", told.replace("\r", ""), re.MULTILINE)
            return None if ends[-2:] == [("good", str(line)), ("bad", str(line))] else f"{told!r} names other lines"
        finally:
            shown.close()


def blamed_at(planted: tuple[str, tuple[str, ...], int, str, str], program: str) -> str | None:
    return blamed(program, *planted)


def told_blame(program: str) -> str | None:
    """`--blame` tells the instruction without a terminal, with the status of the comparison, and lowers texts of whole
    QBE by itself."""
    with tempfile.TemporaryDirectory(prefix="compared-") as folder:
        bad = pathlib.Path(folder) / "bad.ssa"
        bad.write_text(SUM.read_text().replace("storew 4, %item.8", "storew 5, %item.8"))
        run, same = (subprocess.run([str(TOP / "qrev-compare"), "--blame", str(SUM), str(text)], capture_output=True,
                                    text=True, stdin=subprocess.DEVNULL) for text in (bad, SUM))
        last = re.findall(r"^  (good|bad): #\d+ \$main .*: storew (\d), %item.8  \(", run.stdout, re.MULTILINE)
        fault = lacking(same.stdout, "same ") or (None if same.returncode == SAME else "same texts have another status")
        if last != [("good", "4"), ("bad", "5")] or run.returncode != PART:
            return f"{run.stdout!r} {run.stderr!r} {run.returncode}"
        return fault


# Two texts by pipes, as a shell writes them, and a word before them.
PIPED = './qrev-compare {} <(cat -- "$0") <(cat -- "$1") </dev/null'
# Both read the same, so a pipe that was read before would part them.
SAME_PIPED = 'cat -- "$0" | ./qrev-compare --blame /dev/stdin /dev/stdin'


def piped(program: str) -> str | None:
    """Texts that can be read only once are compared as files are, and called by the names that were typed."""
    with tempfile.TemporaryDirectory(prefix="compared-") as folder:
        good, bad, kept = pathlib.Path(folder) / "good.ssa", pathlib.Path(folder) / "bad.ssa", f"{folder}/kept"
        bad.write_text(SUM.read_text().replace("storew 4, %item.8", "storew 5, %item.8"))
        good.write_text(SUM.read_text())
        pathlib.Path(kept).mkdir()

        def asked(script: str, *texts: object) -> subprocess.CompletedProcess[str]:
            return subprocess.run(["bash", "-c", script, *map(str, texts)], cwd=TOP, capture_output=True, text=True,
                                  stdin=subprocess.DEVNULL, env={**os.environ, "TMPDIR": kept})
        for words in ("--blame", "--blame --lower"):
            run = asked(PIPED.format(words), good, bad)
            last = re.findall(r"^  (good|bad): #\d+ \$main .*: storew (\d), %item.8  \(/dev/fd/\d+:39: ", run.stdout,
                              re.MULTILINE)
            if last != [("good", "4"), ("bad", "5")] or run.returncode != PART or folder in run.stdout:
                return f"{words}: {run.stdout!r} {run.stderr!r} {run.returncode}"
        run = asked(SAME_PIPED, good)
        if run.returncode != SAME or not run.stdout.startswith("same "):
            return f"the same pipe: {run.stdout!r} {run.stderr!r} {run.returncode}"
        bad.write_text(SUM.read_text().replace("storew 4, %item.8", "storeq 4, %item.8"))
        run = asked(PIPED.format("--blame"), good, bad)
        fault = None if re.match(r"/dev/fd/\d+:39: `storeq` ", run.stderr) else f"a refusal: {run.stderr!r}"
        return fault or (f"{os.listdir(kept)} is left" if os.listdir(kept) else piped_page(good, kept))


def piped_page(text: pathlib.Path, kept: str) -> str | None:
    """A page of texts by pipes is served."""
    shown = subprocess.Popen(["bash", "-c", PIPED.format("--page"), str(text), str(text)], cwd=TOP, text=True,
                             stdout=subprocess.PIPE, stderr=subprocess.STDOUT, start_new_session=True,
                             env={**os.environ, "TMPDIR": kept, "DISPLAY": "", "WAYLAND_DISPLAY": ""})
    try:
        told = ""
        for line in shown.stdout or ():
            told += line
            if line.startswith("until "):
                break
        return lacking(told, "same ", " is shown at\n")
    finally:
        os.killpg(shown.pid, signal.SIGTERM)
        shown.communicate()


def not_parted(program: str) -> str | None:
    """Where nothing parts, or a text is refused or missing, all is as without a terminal, and there is no prompt."""
    with tempfile.TemporaryDirectory(prefix="compared-") as folder:
        wrong = pathlib.Path(folder) / "wrong.ssa"
        wrong.write_text("function $main() {\n@start\n\tjmp @nowhere\n}\n")
        for words, status, wanted in (((str(SQUARES), str(SQUARES)), SAME, "same"),
                                      ((str(SQUARES), str(wrong)), REFUSED, "refused: C3"),
                                      ((str(SQUARES), f"{folder}/none.ssa"), UNREAD, "none.ssa")):
            shown = Compared(program, *words)
            try:
                told = shown.wait_for(wanted)
                if shown.status() != status:
                    return f"{words}: another status than {status}, behind {told!r}"
            except Silent as silence:
                return f"{words}: {silence}"
            finally:
                shown.close()
    return None


COMPARISONS = {"parted": parted, "end": parted_at_end, "lowered": parted_lowered, "same": not_parted,
               "blame": told_blame, "pipes": piped}
