"""Finds the suspicious moves of a run beside the session, and has the filters by which runs stop there."""
from __future__ import annotations

import os
import re
import subprocess
import threading
from dataclasses import dataclass
from typing import Any

from check.kinds import DEFAULT, STRICT

from .frames import framed, read, written
from .questions import TOP, Changes, Prompter, words_of

# The filters, by the names that an editor sends.
KINDS = {"suspicions": DEFAULT, "strict": STRICT - DEFAULT}
FILTERS = [
    {"filter": "suspicions", "label": "Suspicions", "default": True,
     "description": "Stops before a move that no correct compiler's output makes"},
    {"filter": "strict", "label": "Strict", "default": False,
     "description": "Stops before a load, an argument or a result that nothing set, which right C programs have"},
]
# How many moves are looked at: few first, for the stops of a short run; and where that goes on some more, for stops
# that aren't far, beside as many as `suspects` looks at.
FIRST, NEXT, MOST = 50_000, 200_000, 1_000_000
# Behind these the fast pass of --check looks for accesses alone, up to so many.
FAR = 100_000_000
# Seconds for which one run is looked at, and a stop waits for that, at most.
SECONDS = 60.0
# What the prompt tells: a suspicion, and the line behind all of them.
ENTRY = re.compile(r"^(?:\[\d+\] )?(#(\d+) .*)\n +(([a-z-]+): .*)$", re.MULTILINE)
SUMMARY = re.compile(r"^(?:no|\d+) suspicions? in (\d+) moves?, (.*)$", re.MULTILINE)
GOES_ON = ("and the run goes on", "limit at ")
# Further than any run.
WHOLE = 1 << 64


@dataclass(frozen=True)
class Suspicion:
    """A suspicious move: the position before it, its kind, and the two lines about it."""

    position: int
    kind: str
    first: str
    second: str


def with_filters(body: bytes) -> bytes:
    """The capabilities of the adapter, with the filters."""
    message = read(body)
    if not message.get("success"):
        return body
    number, can = message.pop("seq"), message.get("body") or {}
    filters = [*can.get("exceptionBreakpointFilters", []), *FILTERS]
    body_with = {**can, "exceptionBreakpointFilters": filters, "supportsExceptionInfoRequest": True}
    return written({**message, "body": body_with, "seq": number})


def chosen_kinds(given: dict[str, Any]) -> frozenset[str]:
    """The kinds at which runs stop, by the arguments of `setExceptionBreakpoints`."""
    named = [*listed(given.get("filters")), *(each.get("filterId") for each in listed(given.get("filterOptions"))
                                              if isinstance(each, dict))]
    return frozenset().union(*(kinds for name, kinds in KINDS.items() if name in named))


def without_filters(message: dict[str, Any], given: dict[str, Any], raw: bytes) -> bytes:
    """The same request as the adapter gets it: without the filters that are looked after here."""
    if not chosen_kinds(given):
        return raw
    left = {"filters": [name for name in listed(given.get("filters")) if name not in list(KINDS)]}
    if "filterOptions" in given:
        left["filterOptions"] = [each for each in listed(given["filterOptions"])
                                 if not isinstance(each, dict) or each.get("filterId") not in list(KINDS)]
    return framed(written({**message, "arguments": {**given, **left}}))


def listed(value: Any) -> list[Any]:
    return value if isinstance(value, list) else []


class Search:
    """Looks for the suspicious moves of a run, on a thread and in a process of its own."""

    def __init__(self, launch: dict[str, Any], words: list[str], changes: Changes, news: threading.Condition):
        self.news = news
        self.found: list[Suspicion] = []
        # All that come before this position are found.
        self.known = 0
        self.is_over = False
        self.fault = ""
        self.prompters: list[Prompter] = []
        self.is_closed = False
        self.far: subprocess.Popen[str] | None = None
        last = changes.lines[-1][0] + 1 if changes.lines else 0
        self.is_changed = bool(changes.lines)
        threading.Thread(target=self.look, args=(launch, words, changes.to(last)), daemon=True).start()

    def look(self, launch: dict[str, Any], words: list[str], way: list[str]) -> None:
        bound = threading.Timer(SECONDS, self.close)
        bound.daemon = True
        bound.start()
        try:
            prompter = self.begin_prompt(launch, words)
            if self.goes_on(prompter.answer(way, 0, f"suspects strict {FIRST}")):
                if not self.is_changed:
                    self.far = begin_check(launch, words, ["--fast", "--limit", str(FAR)])
                other = self.begin_prompt(launch, words)
                beside = threading.Thread(
                    target=lambda: self.goes_on(prompter.answer(way, 0, f"suspects strict {NEXT}")), daemon=True)
                beside.start()
                if self.goes_on(other.answer(way, 0, f"suspects strict {MOST}")):
                    self.take_far()
                beside.join()
        except OSError as error:
            self.fault = f"the prompt can't be run: {error.strerror}"
        finally:
            bound.cancel()
            self.close()
            with self.news:
                self.is_over = True
                self.news.notify_all()

    def begin_prompt(self, launch: dict[str, Any], words: list[str]) -> Prompter:
        prompter = Prompter(launch, words)
        with self.news:
            self.prompters.append(prompter)
        if self.is_closed:
            prompter.close()
        return prompter

    def take_far(self) -> None:
        """Keeps what the fast pass finds in the moves after the known ones."""
        told = self.far.communicate()[0] if self.far else ""
        if not (summary := SUMMARY.search(told)):
            return
        with self.news:
            self.found += [each for each in suspicions_in(told) if each.position >= self.known]
            self.known = int(summary[1]) if summary[2].startswith(GOES_ON) else WHOLE
            self.news.notify_all()

    def goes_on(self, told: str) -> bool:
        """Keeps the prompt's answer; says whether the run goes on after it."""
        summary = SUMMARY.search(told)
        if not summary:
            # A search that is broken off knows what it has found up to there.
            self.fault = "" if self.is_closed else told.split("\n")[0]
            return False
        known = int(summary[1]) if summary[2].startswith(GOES_ON) else WHOLE
        with self.news:
            # What is looked at beside it may have come further.
            if known > self.known:
                self.found, self.known = suspicions_in(told), known
            self.news.notify_all()
        return known != WHOLE

    def close(self) -> None:
        with self.news:
            self.is_closed, prompters = True, list(self.prompters)
        for prompter in prompters:
            prompter.close()
        if self.far:
            self.far.kill()


def begin_check(launch: dict[str, Any], words: list[str], options: list[str]) -> subprocess.Popen[str]:
    """Begins the command that checks the run of a launch."""
    command = [str(TOP / "qrev"), *words, "--check", "--no-lower", *options, *words_of(launch)]
    nothing = subprocess.DEVNULL
    return subprocess.Popen(command, stdin=nothing, stdout=subprocess.PIPE, stderr=nothing, text=True,
                            errors="replace", env={**os.environ, "NO_COLOR": "1"})


def suspicions_in(told: str) -> list[Suspicion]:
    """The suspicions that `suspects` or --check lists, in their order."""
    return [Suspicion(int(position), kind, first, second) for first, position, second, kind in ENTRY.findall(told)]


class Searches:
    """The searches of a session: one of the run without changes by hand, and one of the run as it was changed last."""

    def __init__(self, words: list[str], news: threading.Condition):
        self.words, self.news = words, news
        self.known: dict[tuple[tuple[int, str], ...], Search] = {}

    def of(self, launch: dict[str, Any], changes: Changes) -> Search:
        key = tuple(changes.lines)
        if key not in self.known:
            for old in [old for old in self.known if old]:
                self.known.pop(old).close()
            self.known[key] = Search(launch, self.words, changes, self.news)
        return self.known[key]

    def close(self) -> None:
        for search in self.known.values():
            search.close()
        self.known = {}
