"""The words of a command line of qrev, and the message for a refused program."""
from __future__ import annotations

import os
import sys
from typing import Sequence

from .answers import meaning_of
from .sourcemap import SourceMap

OPTIONS = ("--entry", "--limit", "--memory", "--history")
MOST = {"--limit": (1 << 32) - 1, "--history": 1_000_000}


def split_words(words: Sequence[str]) -> tuple[str, list[str], dict[str, int]]:
    """The program's file, the words that go with it to each process, and the values of --limit and --history."""
    plain: list[str] = []
    bounds: dict[str, int] = {}
    rest = list(words)
    while rest:
        word = rest.pop(0)
        name, has_value, value = word.partition("=")
        if word == "--replay" and rest and not rest[0].startswith("-"):
            # Its value may be missing; where it is there it goes into one word, so that it is no argument.
            plain.append(f"{word}={rest.pop(0)}")
            continue
        if name not in OPTIONS:
            plain.append(word)
            continue
        value = value if has_value else rest.pop(0) if rest else ""
        if value and (name == "--memory" or (name, value) == ("--history", "all")):
            plain.append(f"{name}={value}")
            continue
        if name not in MOST or not value.isdigit() or not 1 <= int(value) <= MOST[name]:
            # The debugger refuses what is wrong, in its own words.
            plain += [name, value] if value else [name]
        else:
            bounds[name] = int(value)
    at = next((index for index, word in enumerate(plain) if not word.startswith("-") and
               (not index or plain[index - 1] not in OPTIONS)), None)
    file = "" if at is None else plain.pop(at)
    return file, plain, bounds


def refusal(loaded: str, file: str, source: bytes, lowered: Sequence[str] = ()) -> str:
    """What to say of a program that was refused: its line, with the code and what that means. Of a text that was
    lowered it is the place that the line is from, or the first of the texts."""
    words = loaded.split()
    if len(words) < 2 or words[0] != "refused:":
        return loaded
    if len(words) == 4:
        lines = source.decode("utf-8", "replace").split("\n")
        number = int(words[3])
        text = lines[number - 1].strip() if number <= len(lines) else ""
        place = SourceMap.beside(file).place(number) or f"{file}:{number}"
        return f"{place}: {words[1]}: {meaning_of(words[1], text)}\n    {text}"
    return f"{first_text(lowered) or file}: {words[1]}: {meaning_of(words[1], '')}"


def texts_of(lowered: Sequence[str]) -> list[str]:
    """The texts that a program was lowered from, which stand behind the files that it reads and finds."""
    texts = list(lowered)
    while texts[:1] in (["--input"], ["--file"]):
        del texts[:2]
    return texts


def first_text(lowered: Sequence[str]) -> str:
    return next(iter(texts_of(lowered)), "")


def has_streams() -> bool:
    """Whether there is a standard output, which is said if there is none. Input that is closed is empty."""
    if sys.stdin is None:
        sys.stdin = open(os.devnull)
    if sys.stderr is None:
        sys.stderr = open(os.devnull, "w")
    if sys.stdout is None:
        print("qrev: standard output is closed", file=sys.stderr)
    return sys.stdout is not None
