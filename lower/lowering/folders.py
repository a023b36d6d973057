"""Which folders of the runtime a program needs: that for files if it opens some or asks about them, that for signals
if it sets what they call. Without them its streams are the input and the output, and each signal ends it."""
from terminal.reading.tree import Data, Function, Text

from .aliases import OTHERS
from .calls_of_system import CALLERS
from .families import calls_of, constant
from .symbols import references

FILES, SIGNALS = "files", "signals"
SIGNALLING = frozenset("$signal $sigaction $sigprocmask $pthread_sigmask $sigpending".split())
OPENING = frozenset(
    "$fopen $fopen64 $freopen $tmpfile $open $open64 $openat $creat $open_memstream $fmemopen $mkstemp $mkstemps "
    "$mkostemp".split())
# What is about files that are there, given by a word after `--` or by a constant, without one being opened.
ASKING = frozenset(
    "$stat $lstat $fstatat $access $faccessat $unlink $remove $rename $truncate $chmod $fchmodat $chown $lchown "
    "$fchownat $utime $utimes $utimensat".split())
# The calls of the system that open files: open, creat, openat.
OPENING_CALLS = frozenset((2, 85, 257))


def folders_of(texts: list[Text]) -> list[str]:
    own = {definition.name for text in texts for definition in text.definitions}
    named = {OTHERS.get(raw, raw) for text in texts for definition in text.definitions
             for raw in references(definition) if raw not in own}
    opens = (OPENING | ASKING) & named or CALLERS & named and any(
        calls_to_open(definition) for text in texts for definition in text.definitions)
    return [FILES] * bool(opens) + [SIGNALS] * bool(SIGNALLING & named)


def calls_to_open(definition: Data | Function) -> bool:
    return isinstance(definition, Function) and not definition.callees.isdisjoint(CALLERS) and any(
        call.target in CALLERS and call.arguments and constant(definition, call.arguments[0][1]) in OPENING_CALLS
        for call in calls_of(definition))
