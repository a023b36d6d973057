"""What is said of a word that isn't known: commands of gdb and rr that don't exist here, with what does the same, and
names that the program hasn't, with those that may be meant."""
from __future__ import annotations

import difflib
from typing import Iterable, Sequence

# Nothing does the same.
THREADS = "a program has one thread, and no signals"
CODE = "code can't be changed or called; `set` and `poke` change values"
# By the words that are typed; several that have one answer are in one line.
INSTEAD = {
    "rwatch": "`readers WIDTH ADDRESS` lists all loads of the run that read there",
    "awatch": "`readers` and `writers` list all loads and stores of the run; `watch` stops at changes",
    "clear": "`stops` lists the stops, and `delete N` takes one away",
    "return": "`finish` runs out of the frame, `reverse-finish` goes back to its call",
    "jump j": "`goto N` goes to a position; for the other way of a jump, `set` the temporary that it looks at",
    "kill": "`start` goes to the start, `quit` leaves",
    "starti": "`start` goes to the first instruction",
    "show": "`info session` tells of the session, `info source` of sources and where they are looked for",
    "record target": "nothing has to be recorded: `back` and `reverse` go back over any run",
    "undo": "`back` takes the last move back",
    "dprintf": "`commands N` has lines typed each time that stop N stops",
    "catch": "`break suspect` stops before suspicious moves; faults stop a run by themselves",
    "hbreak thbreak": "`break` and `tbreak` are the breakpoints",
    "layout focus winheight refresh": "`tui` is the full screen",
    "printf echo output": "`print` shows a value, `display` does at each stop",
    "file exec-file symbol-file attach core-file load": "a session has one program: leave, and begin with another FILE",
    "seek-ticks ticks seek": "`goto N` goes to a position",
    "event": "each place line begins with its position",
    "define document macro alias": "`source FILE` types the lines of a file",
    "thread threads signal handle inferior inferiors": THREADS,
    "call compile": CODE,
    "detach": "`quit` leaves",
    "shell make cd pwd ! pipe": "a session runs no other programs; `source` and `save` take paths",
    "python py guile": "`source FILE` types the lines of a file, and scripts are for ./qrev FILE.ssa < SCRIPT",
    "apropos": "`help` lists the commands, and `help COMMAND` tells of one",
}
# Names of which the nearest are told, or as many as there are.
NEAREST, MOST_NAMES = 3, 12
ANSWERS = {word: answer for words, answer in INSTEAD.items() for word in words.split()}


def is_elsewhere(word: str) -> bool:
    """Whether it is a command of other debuggers, which doesn't exist here."""
    return word in ANSWERS


def not_known(word: str, commands: Iterable[str]) -> str:
    """What is said of a word that is no command."""
    name = "!" if word.startswith("!") else word
    if name in ANSWERS:
        return f"{word}: no such command; {ANSWERS[name]}"
    nearest = difflib.get_close_matches(word, [name for name in commands if len(name) > 1], 1)
    meant = f"; `{nearest[0]}` is one" if nearest else ""
    return f"{word}: no such command{meant}; `help` lists them"


def names_meant(word: str, names: Sequence[str]) -> str:
    """Of the names that could stand in a word's place all if they are few, else those that are nearest to it."""
    if len(names) <= MOST_NAMES:
        return ", ".join(names)
    nearest = difflib.get_close_matches(word, names, NEAREST) or \
        difflib.get_close_matches("$" + word, names, NEAREST)
    begun = nearest or list(names[:MOST_NAMES])
    return ", ".join(begun) + f" and {len(names) - len(begun)} others"


def no_label(function: str, labels: Sequence[str], label: str) -> str:
    return f"{label}: {function} has no such label; it has {names_meant(label, labels)}"
