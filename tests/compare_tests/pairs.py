"""Pairs of texts: the stories with their corrected texts, rewritten programs, random ones; and the reference's
reports."""
from __future__ import annotations

import random
import re
from collections.abc import Iterable, Sequence
from typing import NamedTuple, Optional, TypedDict

from compare_tests.rewriting import rewritten
from harness.running import EXAMPLES
from robustness_tests.programs import changed, random_program
from oracle import Refused, compare
from oracle.grammar import parse
from oracle.rules import check
from oracle.tokens import cut

# Each story's change, as docs/STORIES.md has it: what stands in the text, and what is to stand there.
MENDED = {
    "transpose": [("%t3 =w mul %row, 2", "%t3 =w mul %row, 3")],
    "account": [("%t1 =w loadw $balance\n\tcall $charge()", "call $charge()\n\t%t1 =w loadw $balance")],
    "largest": [("@body %t5, @larger %best", "@body %best, @larger %t5")],
    "digits": [("%buffer =l alloc4 4", "%buffer =l alloc4 12"), ("add %buffer, 4", "add %buffer, 12")],
    "months": [("%t2 =w copy 28", "%days =w copy 28")],
}
EVENTS = ("output,calls,end", "output,writes,calls,end", "writes", "output", "end", "calls", "calls,end", "writes,end")
MOST_MOVES = 20_000


TooLong = compare.TooLong


class Asked(NamedTuple):
    """A pair of texts, its options, and the expected report."""

    name: str
    good: bytes
    bad: bytes
    words: list[str]
    script: bytes
    told: Optional[bytes] = None  # what was worked out by hand
    status: Optional[int] = None
    start: bytes = b""            # what it must begin with, whatever the reference tells


class Options(TypedDict, total=False):
    """What the words mean for the reference."""

    args: list[int]
    events: list[str]
    limit: int
    history: int
    session: str
    entry: str


def told_by_reference(good: bytes, bad: bytes, words: Sequence[str], script: bytes) -> tuple[bytes, int]:
    """The reference's report, by the words after the two files, and the status."""
    given: Options = {"args": []}
    rest = iter(words)
    for word in rest:
        if word == "--events":
            given["events"] = next(rest).split(",")
        elif word == "--limit":
            given["limit"] = int(next(rest))
        elif word == "--history":
            given["history"] = int(next(rest))
        elif word == "--session":
            given["session"] = next(rest)
        elif word == "--entry":
            given["entry"] = next(rest)
        elif word.startswith("--"):
            raise ValueError(f"the reference has no {word}")
        else:
            given["args"].append(int(word))
    return compare.comparison(good, bad, script, most=MOST_MOVES, **given)


def mended(name: str) -> bytes:
    text = (EXAMPLES / f"{name}.ssa").read_text()
    for old, new in MENDED[name]:
        if text.count(old) != 1:
            raise ValueError(f"{name}: {old}")
        text = text.replace(old, new)
    return text.encode()


def story_pairs() -> list[Asked]:
    found: list[Asked] = []
    for name in MENDED:
        bad = (EXAMPLES / f"{name}.ssa").read_bytes()
        for events in EVENTS:
            found.append(Asked(f"stories/{name}-{events}", mended(name), bad, ["--events", events], b""))
        for side in ("good", "bad"):
            script = b"where\nback\nlist\nreverse\ncontinue\nout\n"
            found.append(Asked(f"stories/{name}-on-{side}", mended(name), bad, ["--session", side], script))
    return found


def example_pairs() -> list[Asked]:
    """Each example that is short, next to itself written anew: the same."""
    found: list[Asked] = []
    for path in sorted(EXAMPLES.glob("*.ssa")):
        text = path.read_bytes()
        for number in range(3):
            other = rewritten(text, random.Random(number).shuffle)
            for events in ("output,calls,end", "output,writes,calls,end"):
                found.append(Asked(f"rewritten/{path.stem}-{number}-{events}", text, other, ["--events", events], b"",
                                   start=b"same "))
    return found


def is_lawful(text: bytes) -> bool:
    try:
        check(parse(cut(text)))
        return True
    except Refused:
        return False


def with_other_number(source: random.Random, text: bytes) -> bytes:
    """The text with one number or operation that is another."""
    places = [found for found in re.finditer(rb"(?<=[ ,(])-?\d+|\b(?:add|sub|mul|and|or|xor|csltw|csgtw|ceqw)\b", text)]
    if not places:
        return text
    found = source.choice(places)
    if found[0][-1:].isdigit():
        new = str(source.choice((0, 1, 2, 3, 7, 255, 65536))).encode()
    else:
        new = source.choice((b"add", b"sub", b"mul", b"and", b"or", b"xor"))
        if found[0].startswith(b"c"):
            new = source.choice((b"csltw", b"csgtw", b"ceqw"))
    return text[:found.start()] + new + text[found.end():]


def random_script(source: random.Random) -> bytes:
    lines = ("where", "list", "back", "back 3", "reverse", "continue", "temps", "out", "step", "step 5", "mem 65536 16")
    return "".join(source.choice(lines) + "\n" for _ in range(source.randrange(6))).encode()


def random_words(source: random.Random, arguments: Iterable[int]) -> list[str]:
    words = [str(one) for one in arguments]
    if source.randrange(2):
        words += ["--events", source.choice(EVENTS)]
    words += ["--limit", str(source.choice((1, 3, 10, 100, 1000, 3000, 3000, 3000, 3000, 3000)))]
    if source.randrange(2):
        words += ["--session", source.choice(("good", "bad"))]
    if source.randrange(3) == 0:
        words += ["--history", str(source.choice((1, 2, 5, 100)))]
    return words


def random_pair(source: random.Random) -> tuple[bytes, bytes, list[str], bytes]:
    """Both texts, words, a script, as the fields of what is asked."""
    text, arguments = random_program(source)
    while not is_lawful(text):
        text, arguments = random_program(source)
    kind = source.randrange(4)
    if kind == 0:
        other = rewritten(text, source.shuffle)
    elif kind == 1:
        other = with_other_number(source, text)
    elif kind == 2:
        other = with_other_number(source, rewritten(text, source.shuffle))
    else:
        other = changed(source, text)
    return text, other, random_words(source, arguments), random_script(source)
