"""The command: its statuses and options, the form for machines, hostile names, and texts that were lowered."""
from __future__ import annotations

import json
import pathlib
import re
import subprocess
import tempfile
from functools import partial
from typing import Callable, Iterator

from .texts import TEXTS, run

TOP = pathlib.Path(__file__).resolve().parent.parent.parent
EXAMPLES = TOP / "examples"
SQUARES = str(EXAMPLES / "squares.ssa")
FIRST = ("#44 $fill @body 4  line 18: storew %square, %place\n"
         "  bounds: storew at the end of $squares (16 bytes), into $bias+0\n1 suspicion in 88 moves, done 30\n")
ENDLESS = "export function w $main() {\n@start\n@loop\n\tjmp @loop\n}\n"
FAULT = "export function w $main() {\n@start\n\thlt\n}\n"
DIVISION = str(TOP / "rows" / "fault-division-by-zero" / "program.ssa")
# A store past the end, in every round of ten.
ROUNDS = """data $a = align 4 { z 4 }
data $b = align 4 { z 4 }
export function w $main() {
@start
@loop
	%i =w phi @start 0, @loop %j
	%q =l add $a, 4
	storew %i, %q
	%j =w add %i, 1
	%c =w csltw %j, 10
	jnz %c, @loop, @end
@end
	ret 0
}
"""
TAKES = ROUNDS.replace("$main()", "$main(w %n, l %p)")
# Words, the status, and what is written to standard output and error.
COMMANDS: list[tuple[str, list[str], int, str | None, str]] = [
    ("first session", [SQUARES], 3, FIRST, ""),
    ("none", [str(EXAMPLES / "sum.ssa")], 0, "no suspicion in 2 moves, done 5\n", ""),
    ("limit", [SQUARES, "--limit", "44"], 5, "no suspicion in 44 moves, limit at $fill\n", ""),
    ("limit behind it", [SQUARES, "--limit=45"], 3, FIRST.replace("88 moves, done 30", "45 moves, limit at $fill"), ""),
    ("other kinds", [SQUARES, "--kinds", "undef,stale"], 0, "no suspicion in 88 moves, done 30\n", ""),
    ("except an object", [SQUARES, "--except", "bounds:$squares"], 0, "no suspicion in 88 moves, done 30\n", ""),
    ("except a function", [SQUARES, "--except=bounds:$fill"], 0, "no suspicion in 88 moves, done 30\n", ""),
    ("except another", [SQUARES, "--except", "bounds:$bias"], 3, FIRST, ""),
    ("refused", [str(TOP / "rows/byte-of-no-token/program.ssa")], 1, None, ""),
    ("no file", ["/nowhere/at-all.ssa"], 2, "", "qrev: /nowhere/at-all.ssa: No such file or directory\n"),
    ("no words", [], 64, "", "qrev: a program was expected: ./qrev --check FILE [ARGS..]\n"),
    ("unknown kind", [SQUARES, "--kinds", "bonds"], 64, "", "qrev: bonds: no kind of suspicion; the kinds are "),
    ("unknown form", [SQUARES, "--format", "xml"], 64, "", "qrev: --format xml: text, gnu or json was expected\n"),
    ("gnu", [SQUARES, "--format", "gnu"], 3,
     f"{SQUARES}:18: warning: bounds: storew at the end of $squares (16 bytes), into $bias+0 "
     "[#44 $fill @body 4]\n", ""),
    ("gnu, a fault", [DIVISION, "--format=gnu"], 4,
     f"{DIVISION}:3: error: fault division by zero [#0 $main @start 0]\n", ""),
    ("gnu, none", [str(EXAMPLES / "sum.ssa"), "--format", "gnu"], 0, "", ""),
    ("no limit", [SQUARES, "--limit", "0"], 64, "", "qrev: --limit 0: a number from 1 to "),
    ("heap of no function", [SQUARES, "--heap", "take=nothing"], 64, "",
     "qrev: take=nothing: the program has no function nothing\n"),
    ("heap of another shape", [SQUARES, "--heap", "take=fill"], 64, "",
     "qrev: take=fill: a function (l) that gives l was expected\n"),
    ("heap in no role", [SQUARES, "--heap", "lend=fill"], 64, "", "qrev: lend=fill: ROLE=FUNCTION was expected"),
    ("heap and none", [SQUARES, "--heap", "take=fill", "--no-heap"], 64, "",
     "qrev: --heap and --no-heap exclude each other\n"),
    ("bad exception", [SQUARES, "--except", "bounds"], 64, "", "qrev: --except bounds: KIND:$NAME was expected"),
    ("exception of nothing", [SQUARES, "--except", "bounds:$bias", "--except", "undef:$nope"], 64, "",
     "qrev: --except undef:$nope: the program has no object or function $nope\n"),
    ("no heap", [str(TEXTS / "heap-off-by-one.ssa"), "--no-heap"], 0, "no suspicion in 24 moves, done 0\n", ""),
    ("named heap", [str(TEXTS / "heap-off-by-one.ssa"), "--heap", "take=malloc"], 3, None, ""),
    ("strict", [str(TEXTS / "heap-blocks-overlap.ssa"), "--kinds", "strict"], 3, None, ""),
]
# Texts of their own: status, and the last line.
WRITTEN: list[tuple[str, str, list[str], int, str]] = [
    ("endless", ENDLESS, ["--limit", "1000"], 5, "no suspicion in 1000 moves, limit at $main"),
    ("fault", FAULT, [], 4, "no suspicion in 1 move, fault halted"),
    ("often", ROUNDS, [], 3, "1 suspicion in 52 moves, done 0"),
    ("arguments", TAKES, ["3", "65536"], 3, "1 suspicion in 52 moves, done 0"),
    ("another entry", ROUNDS.replace("$main", "$other"), ["--entry", "other"], 3, "1 suspicion in 52 moves, done 0"),
]
# Calls of the runtime, with the kinds that they come to and the objects that were meant. $next lies right behind
# $small.
OBJECTS = ("data $text = align 8 { b \"a text that is long\", b 0 }\ndata $small = align 8 { b \"a text t\" }\n"
           "data $next = align 8 { b \"hat is lo\", z 16 }\n"
           "export function w $main() {\n@start\n\t%kept =l copy $next\n")
LIBRARY: list[tuple[str, list[tuple[str, str]]]] = [
    ("%r =l call $strcpy(l $small, l $text)", [("bounds", "small")]),
    ("%r =l call $strcpy(l $next, l $text)", []),
    ("%r =l call $memcpy(l $small, l $text, l 16)", [("bounds", "small")]),
    ("%r =l call $memcpy(l $small, l $text, l 8)", []),
    ("%r =l call $memmove(l $small, l $text, l 16)", [("bounds", "small")]),
    ("%r =l call $memmove(l $next, l $small, l 24)", [("bounds", "small")]),
    ("%p =l add $text, 3\n\t%r =l call $memmove(l %p, l $text, l 16)", []),
    ("%p =l add $text, 3\n\t%r =l call $memmove(l $text, l %p, l 16)", []),
    ("%p =l add $small, 3\n\t%r =l call $memmove(l %p, l $small, l 8)", [("bounds", "small")]),
    ("%r =w call $memcmp(l $text, l $small, l 12)", [("bounds", "small")]),
    ("%r =w call $memcmp(l $text, l $small, l 8)", []),
    ("%r =w call $strcmp(l $text, l $small)", [("bounds", "small")]),
    ("%r =w call $strncmp(l $text, l $small, l 12)", [("bounds", "small")]),
    ("%r =w call $strncmp(l $small, l $text, l 8)", []),
]
Case = tuple[str, Callable[[], str | None]]


def command_fault(program: str, words: list[str], status: int, out: str | None, errors: str) -> str | None:
    told = run(program, *words)
    same = told.returncode == status and (out is None or told.stdout == out) and told.stderr.startswith(errors)
    return None if same and bool(told.stderr) == bool(errors) else \
        f"{told.returncode}, {told.stdout!r} and {told.stderr!r}"


def help_fault(program: str) -> str | None:
    """The help has each option and each status that the page has."""
    page = (TOP / "docs" / "CHECKING.md").read_text().partition("## The command")[2].partition("## Kinds")[0]
    wanted = set(re.findall(r"--[a-z][a-z-]*", page)) - {"--check"} | set(re.findall(r"(?m)^\| ([0-9, ]+) \|", page))
    for words in (["--help"], [SQUARES, "-h"]):
        told = run(program, *words)
        lacking = [word for word in wanted for part in word.split(", ")
                   if not re.search(rf"(?<![\w-]){re.escape(part)}(?![\w-])", told.stdout)]
        if told.returncode or told.stderr or lacking or len(wanted) < 10:
            return f"{words}: {told.returncode}, {lacking}, {told.stderr!r}"
    return None


def written_fault(program: str, text: str, words: list[str], status: int, last: str) -> str | None:
    with tempfile.TemporaryDirectory(prefix="check-") as place:
        file = pathlib.Path(place) / "text.ssa"
        file.write_text(text)
        told = run(program, str(file), *words)
    lines = told.stdout.splitlines()
    return None if (told.returncode, lines[-1:]) == (status, [last]) else \
        f"{told.returncode}, {told.stdout!r} and {told.stderr!r}"


def count_fault(program: str) -> str | None:
    """One line for each place and kind, with how often it came."""
    with tempfile.TemporaryDirectory(prefix="check-") as place:
        file = pathlib.Path(place) / "text.ssa"
        file.write_text(ROUNDS)
        told = run(program, str(file)).stdout
    wanted = "  bounds: storew at the end of $a (4 bytes), into $b+0  (10 times)"
    return None if told.splitlines()[1] == wanted else f"{told!r}"


def json_fault(program: str) -> str | None:
    """The form for machines says the same of each suspicion, and where the line is."""
    for file in (SQUARES, str(TEXTS / "heap-off-by-one.ssa"), str(EXAMPLES / "sum.ssa")):
        told = run(program, file, "--format", "json")
        log = json.loads(told.stdout)
        results = log["runs"][0]["results"]
        lines = run(program, file).stdout.splitlines()
        wanted = [line.strip() for line in lines[1:-1:2]]
        places = [line.partition("line ")[2].partition(":")[0] for line in lines[:-1:2]]
        given = [result["locations"][0]["physicalLocation"]["region"]["startLine"] for result in results]
        if log["version"] != "2.1.0" or [result["message"]["text"] for result in results] != wanted or \
                list(map(str, given)) != places or told.returncode != (3 if wanted else 0):
            return f"{file}: {told.returncode}, {told.stdout[:400]}"
    return None


def errors_fault(program: str) -> str | None:
    """A fault and a refusal are errors in the form for machines, and in that of compilers, and the name of a file is a
    reference to it (RFC 3986)."""
    refused = FAULT.replace("hlt", "ret %x")
    with tempfile.TemporaryDirectory(prefix="check-") as place:
        for text, status, rule, said in ((FAULT, 4, "fault", "fault halted [#0 $main @start 0]"),
                                         (refused, 1, "C6", "C6: a temporary that is nowhere defined")):
            file = pathlib.Path(place) / "a b\u00e4.ssa"
            file.write_text(text)
            told = run(program, str(file), "--format", "json")
            results = json.loads(told.stdout)["runs"][0]["results"]
            at = {"artifactLocation": {"uri": f"{place}/a%20b%C3%A4.ssa"}, "region": {"startLine": 3}}
            given = [(result["ruleId"], result["level"], result["locations"]) for result in results]
            if told.returncode != status or given != [(rule, "error", [{"physicalLocation": at}])]:
                return f"{text!r}: {told.returncode}, {given}"
            shown = run(program, str(file), "--format", "gnu")
            if shown.returncode != status or shown.stdout != f"{file}:3: error: {said}\n":
                return f"{text!r}: {shown.returncode}, {shown.stdout!r}"
    return None


def lowered_in(place: str, text: str) -> str:
    """The text that comes of a.ssa in a folder."""
    folder = pathlib.Path(place)
    (folder / "a.ssa").write_text(text)
    subprocess.run([str(TOP / "lower" / "qrev-lower"), "--link", "--output", "out.ssa", "a.ssa"], cwd=folder,
                   check=True)
    return str(folder / "out.ssa")


def halted_fault(program: str) -> str | None:
    """A fault in the runtime of a lowered text is reported at the call that led there, in the text before lowering."""
    text = "function $stop() {\n@start\n\tcall $abort()\n\tret\n}\nexport function w $main() {\n@start\n" \
        "\tcall $stop()\n\tret 0\n}\n"
    with tempfile.TemporaryDirectory(prefix="check-") as place:
        file = lowered_in(place, text)
        told = [run(program, file, *words.split()).stdout
                for words in ("--format gnu", "--fast --format gnu")]
    wanted = re.compile(r"a\.ssa:3: error: halted in \$abort \[#\d+ \$stop @start 0\]\n")
    return None if all(map(wanted.fullmatch, told)) else f"{told}"


def shown_of_lowered(program: str, text: str, *forms: str) -> list[str]:
    """What a check of a text that is lowered prints, in each of these forms."""
    with tempfile.TemporaryDirectory(prefix="check-") as place:
        file = lowered_in(place, text)
        return [run(program, file, "--format", form).stdout for form in forms]


def inside_fault(program: str) -> str | None:
    """A suspicion in the runtime of a lowered text is reported with the call that led there: here $strlen reads an
    unset slot."""
    text = "export function w $main() {\n@start\n\t%slot =l alloc4 4\n\t%n =l call $strlen(l %slot)\n\tret 0\n}\n"
    told, shown = shown_of_lowered(program, text, "text", "gnu")
    lines = told.splitlines()
    wanted = r"  called at \$main @start 1  line \d+: %n =l call \$strlen\(l %slot\)  \(a\.ssa:4\)"
    well = re.fullmatch(wanted, lines[2]) and lines[1].startswith("  undef: jnz of ") and \
        re.match(r"a\.ssa:4: warning: undef: jnz of .*, in \$strlen \[#\d+ \$main @start 1\]\n", shown)
    return None if well else f"{lines} and {shown!r}"


def called_fault(program: str) -> str | None:
    """Two bad calls of one function of the runtime of a lowered text are both reported, the one in a loop once."""
    text = ("export function w $main() {\n@start\n\t%slot =l alloc4 4\n\t%other =l alloc4 4\n\tjmp @loop\n@loop\n"
            "\t%i =w phi @start 0, @loop %j\n\t%n =l call $strlen(l %slot)\n\t%j =w add %i, 1\n\t%c =w csltw %j, 3\n"
            "\tjnz %c, @loop, @end\n@end\n\t%m =l call $strlen(l %other)\n\tret 0\n}\n")
    told, shown = shown_of_lowered(program, text, "text", "json")
    log = json.loads(shown)
    called = re.findall(r"undef: jnz of .*?(  \(3 times\))?\n  called at .*\(a\.ssa:(\d+)\)", told)
    lines = [(result["locations"][0]["physicalLocation"]["region"]["startLine"], result["occurrenceCount"])
             for result in log["runs"][0]["results"]]
    return None if called == [("  (3 times)", "8"), ("", "13")] and lines == [(8, 3), (13, 1)] else f"{told!r}, {lines}"


def library_fault(program: str) -> str | None:
    """What functions of the runtime do beyond an object is reported, also if they land wholly in another one, and if
    two addresses are involved; what they do inside it isn't."""
    for call, wanted in LIBRARY:
        shown, = shown_of_lowered(program, OBJECTS + f"\t{call}\n\tret 0\n}}\n", "gnu")
        lines = shown.splitlines()
        told = [(int(line.split(":")[1]), line.split(": ")[2], line.partition(" of $")[2].split(" ")[0])
                for line in lines if ": warning: " in line]
        first = (OBJECTS + call).count("\n") + 1
        if len(lines) != len(told) or sorted(set(told)) != [(first, kind, name) for kind, name in wanted]:
            return f"{call}: {lines}"
    return None


def read_only_fault(program: str) -> str | None:
    """A store into data of a read-only section is reported for a lowered text too, and a load isn't."""
    text = ('section ".rodata.str"\ndata $text = { b "%d", b 0 }\nsection ".data" data $other = { w 1 }\n'
            "export function w $main() {\n@start\n\t%x =w loadub $text\n\tstorew %x, $other\n\tstoreb %x, $text\n"
            "\tret 0\n}\n")
    told, = shown_of_lowered(program, text, "gnu")
    return None if re.fullmatch(r"a\.ssa:8: warning: rodata: storeb into \$text .*\n", told) else f"{told!r}"


def unnamed_fault(program: str) -> str | None:
    """A lowered text that is refused as a whole is reported by the name of the text that it was lowered from."""
    with tempfile.TemporaryDirectory(prefix="check-") as place:
        file = pathlib.Path(place) / "out.ssa"
        file.write_text(TAKES)
        words = [str(TOP / "check" / "main"), "--debugger", program, "--lowered=two.ssa", "--", str(file)]
        told = [subprocess.run([*words, *more.split()], capture_output=True, text=True).stdout
                for more in ("", "--format gnu")]
    said = "S2: the entry takes another number of arguments\n"
    return None if told == [f"two.ssa: {said}", f"two.ssa: error: {said}"] else f"{told}"


def lowered_fault(program: str) -> str | None:
    """For a lowered text the place in the compiler's own text is reported, and its runtime isn't suspected."""
    text = ('data $small = align 4 { z 4 }\ndata $next = align 4 { z 4 }\ndata $f = { b "%d\\n", b 0 }\n'
            "export function w $main() {\n@start\n\t%q =l add $small, 4\n\tstorew 7, %q\n"
            "\t%r =w call $printf(l $f, ..., w 12)\n\tret 0\n}\n")
    told, = shown_of_lowered(program, text, "text")
    lines = told.splitlines()
    well = len(lines) == 3 and lines[0].endswith("  (a.ssa:7)") and \
        lines[1].startswith("  bounds: storew at the end of $small")
    return None if well else f"{told!r}"


def long_name_fault(program: str) -> str | None:
    """A temporary by whose name the debugger can't be asked is an error of one line."""
    text = ROUNDS.replace("%j", "%" + "j" * 300)
    with tempfile.TemporaryDirectory(prefix="check-") as place:
        file = pathlib.Path(place) / "text.ssa"
        file.write_text(text)
        told = run(program, str(file))
    well = told.returncode == 2 and not told.stdout and told.stderr.count("\n") == 1 and \
        "has a name of 301 bytes" in told.stderr
    return None if well else f"{told.returncode}, {told.stdout!r} and {told.stderr!r}"


def wide_fault(program: str) -> str | None:
    """A large object whose every byte is written and read doesn't cost the square of its size."""
    text = ("data $a = { z 65536 }\nexport function w $main() {\n@start\n@loop\n\t%i =l phi @start 0, @loop %j\n"
            "\t%q =l add $a, %i\n\tstorel %q, %q\n\t%v =l loadl %q\n\t%j =l add %i, 8\n\t%c =w csltl %j, 65536\n"
            "\tjnz %c, @loop, @end\n@end\n\tret 0\n}\n")
    return written_fault(program, text, [], 0, "no suspicion in 49154 moves, done 0")


def page_faults(program: str, page: pathlib.Path) -> Iterator[Case]:
    """What a page shows of the command: a block that begins with it."""
    blocks = re.findall(r"(?m)^    \$ \./qrev --check (.*)\n((?:    (?!\$).*\n)*)", page.read_text())
    for number, (words, block) in enumerate(blocks, 1):
        shown = "".join(line[4:] + "\n" for line in block.splitlines())
        words_ = [str(TOP / word) if word.startswith("examples/") else word for word in words.split()]
        yield f"page {page.name} {number}", partial(shown_fault, program, words_, shown)


def shown_fault(program: str, words: list[str], shown: str) -> str | None:
    told = run(program, *words).stdout
    return None if told == shown else f"{told!r} in place of {shown!r}"


def cases(program: str) -> Iterator[Case]:
    for name, *command in COMMANDS:
        yield f"command {name}", partial(command_fault, program, *command)
    for name, *written in WRITTEN:
        yield f"command {name}", partial(written_fault, program, *written)
    for name, call in (("help", help_fault), ("count", count_fault), ("json", json_fault),
                       ("errors", errors_fault), ("halted", halted_fault), ("inside", inside_fault),
                       ("called", called_fault), ("unnamed", unnamed_fault), ("library", library_fault),
                       ("read only", read_only_fault),
                       ("lowered", lowered_fault), ("wide", wide_fault), ("long name", long_name_fault)):
        yield f"command {name}", partial(call, program)
    for page in (TOP / "README.md", TOP / "docs" / "CHECKING.md"):
        yield from page_faults(program, page)
