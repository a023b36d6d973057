"""Several texts as one program: names kept apart, what is reachable, what would halt, and the report."""
import re

from .running import Results, Running, differ

MAIN = """
data $count = { w 1 }
function w $step(w %x) {
@start
	%c =w loadw $count
	%r =w add %x, %c
	ret %r
}
export function w $main() {
@start
	%a =w call $step(w 10)
	%b =w call $other(w %a)
	ret %b
}
function $unused() {
@start
	call $nowhere()
	ret
}
"""
OTHER = """
data $count = { w 100 }
function w $step(w %x) {
@start
	%c =w loadw $count
	%r =w mul %x, %c
	ret %r
}
export function w $other(w %x) {
@start
	%r =w call $step(w %x)
	ret %r
}
export function w $idle() {
@start
	ret 0
}
"""
# An object of the section of what is called first: only of texts of which something is kept.
FIRST = """
data $value = { w 5 }
function $begin() {
@start
	storew 7, $value
	ret
}
section ".init_array" data $first = { l $begin }
export function w $get() {
@start
	%x =w loadw $value
	ret %x
}
"""
NOT_KEPT = """
function $begin() {
@start
	call $exit(w 9)
	ret
}
section ".init_array" data $first = { l $begin }
export function $never() {
@start
	ret
}
"""
GET = "export function w $main() {\n@start\n\t%x =w call $get()\n\tret %x\n}\n"
# Functions of the text in the place of the runtime's, of which one needs the system.
SYSTEM = """
export function l $malloc(l %size) {
@start
	%r =l call $mmap(l 0, l %size, w 3, w 34, w -1, l 0)
	ret %r
}
export function w $strlen(l %text) {
@start
	ret 42
}
export function w $main() {
@start
	%p =l call $malloc(l 8)
	storel 5, %p
	%x =w loadw %p
	%n =w call $strlen(l %p)
	%r =w add %x, %n
	ret %r
}
"""
# A function of the name of a built-in one, which the runtime calls.
PUTCHAR = """
export function w $putchar(w %x) {
@start
	ret 99
}
data $f = { b "a%d\\0" }
export function w $main() {
@start
	%n =w call $printf(l $f, ..., w 5)
	%x =w call $putchar(w 65)
	%r =w add %n, %x
	ret %r
}
"""
OUTSIDE = """
export function w $main() {
@start
	%a =w call $getpriority(l 1)
	ret %a
}
"""
# The first of a name's uses is in what can't be reached, and in the second text.
TWICE = """
function w $idle() {
@start
	%a =w call $sprintf(l 0, l 0, ..., w 1)
	%b =w call $popen(l 0, l 0)
	ret %a
}
export function w $main() {
@start
	%a =w call $step()
	%b =w call $missing(l 0, l 0)
	ret %b
}
"""
STEP = "export function w $step() {\n@start\n\t%a =w call $absent(l 1)\n\tret %a\n}\n"
UNREACHED = ("export function w $main() {\n@start\n\tret 3\n}\n"
             "function $f() {\n@start\n\tcall $getpriority()\n\tret\n}\n")


def linked_fault(running: Running) -> str | None:
    lowered = running.lower({"a.ssa": MAIN, "b.ssa": OTHER}, "--link", "--report")
    run = running.run(lowered.text)
    if "$idle" in lowered.text or "$unused" in lowered.text or "$nowhere" in lowered.text:
        return "what isn't reachable is kept"
    return differ("status", 0, lowered.status) or differ("end", "done 1100", run.end) or \
        differ("renamed", ["$count.2", "$step.2"], sorted(set(re.findall(r"\$\w+\.2", lowered.text)))) or \
        differ("report", True, "b.ssa:3: $step is written as $step.2" in lowered.errors)


def unlinked_fault(running: Running) -> str | None:
    """Without --link all is kept."""
    lowered = running.lower({"a.ssa": MAIN, "b.ssa": OTHER})
    kept = [name for name in ("$idle", "$unused", "$nowhere") if name in lowered.text]
    return differ("kept", ["$idle", "$unused", "$nowhere"], kept) or \
        differ("end", "done 1100", running.run(lowered.text).end) or differ("status", 0, lowered.status)


def end_fault(running: Running, texts: dict[str, str], end: str, output: str = "", status: int = 0, *options: str) \
        -> str | None:
    lowered = running.lower(texts, "--link", *options)
    run = running.run(lowered.text)
    return differ("status", status, lowered.status) or differ("end", end, run.end) or \
        differ("output", output, run.output)


def outside_fault(running: Running) -> str | None:
    """A function from outside halts under its own name, and the report has the place of its first use."""
    lowered = running.lower({"a.ssa": OUTSIDE}, "--link", "--report")
    run = running.run(lowered.text, "continue\nwhere\ntemps\n")
    note = "a.ssa:4: $getpriority is defined nowhere: a function that halts (would halt)\n"
    return differ("status", 1, lowered.status) or differ("end", "fault halted", run.end) or \
        differ("where", ["$getpriority @is.not.there 0", "$main @start 1", "%a1 = 1"], run.lines[-3:]) or \
        differ("report", True, lowered.errors.endswith(note)) or \
        differ("without a report", note, running.lower({"a.ssa": OUTSIDE}, "--link").errors)


def told_fault(running: Running) -> str | None:
    """Each reachable function from outside is reported without `--report`, once, at its first reachable use."""
    lowered = running.lower({"a.ssa": TWICE.replace("$sprintf", "$absent"), "b.ssa": STEP})
    return differ("errors", "a.ssa:11: $missing is defined nowhere: a function that halts (would halt)\n"
                  "b.ssa:3: $absent is defined nowhere: a function that halts (would halt)\n", lowered.errors)


def unreached_fault(running: Running) -> str | None:
    """What would halt and isn't reachable makes no status."""
    lowered = running.lower({"a.ssa": UNREACHED}, "--report")
    return differ("status", 0, lowered.status) or differ("end", "done 3", running.run(lowered.text).end) or \
        differ("report", True, "a.ssa:7: $getpriority is defined nowhere" in lowered.errors)


def entry_fault(running: Running) -> str | None:
    lowered = running.lower({"a.ssa": OTHER}, "--link", "--entry", "nothing")
    return differ("refused", (1, "", "a.ssa:1: no text exports a function $nothing\n"),
                  (lowered.status, lowered.text, lowered.errors))


def counts_fault(running: Running) -> str | None:
    """The report has a count for each kind, and a line for each place."""
    text = """
dbgfile "a.c"
type :t = { l }
function l $f(:t %p, w %x, ...) {
@start
	dbgloc 1
	%y =l loadl %p
	%d =d sltof %y
	%e =d neg %d
	%r =l dtosi %e
	ret %r
}
export function l $main() {
@start
	%p =l alloc8 8
	storel 5, %p
	%r =l call $f(:t %p, l 7, ..., w 1)
	ret %r
}
"""
    lowered = running.lower({"a.ssa": text}, "--link", "--report")
    wanted = ["1 arguments fitted to another class", "1 calls with arguments behind dots, in cells of memory",
              "2 debug lines as places of the map", "2 float instructions, by calls of the runtime",
              "1 float instructions, by their bits", "1 functions with dots, which take the address of cells",
              "1 parameters that are aggregates, by address and copied",
              "a.ssa:17: argument 2 of $f is a l for a w: cut"]
    return differ("status", 0, lowered.status) or differ("report", wanted, lowered.errors.split("\n")[:-1]) or \
        differ("end", f"done {(1 << 64) - 5}", running.run(lowered.text).end)


# `f` takes a float before an integer.
ORDER = """
function w $f(w %n, ...) {
@start
	%list =l alloc8 24
	vastart %list
	%d =d vaarg %list
	%i =w vaarg %list
	ret %i
}
export function w $main() {
@start
	%a =w call $f(w 1, ..., d d_2, w 7)
	%b =w call $f(w 1, ..., w 7, d d_2)
	ret %a
}
"""


RETURNS = "export function w $main() {\n@start\n\tret 0\n}\n"


def order_fault(running: Running) -> str | None:
    """A call whose variadic arguments are taken in another order is reported."""
    lowered = running.lower({"a.ssa": ORDER}, "--link", "--report")
    told = [line for line in lowered.errors.split("\n") if "behind the dots of $f" in line]
    return differ("told",
                  ["a.ssa:13: argument 1 behind the dots of $f is a w, and its `vaarg` there takes a d: native code "
                   "takes floats and integers from registers of their own (native code differs)"], told) or \
        differ("told without being asked", told, running.lower({"a.ssa": ORDER}, "--link").errors.split("\n")[:-1]) or \
        differ("status", 0, lowered.status) or differ("end", "done 7", running.run(lowered.text).end) or \
        differ("where nothing calls it", "",
               running.lower({"a.ssa": ORDER.replace("$main", "$other") + RETURNS}).errors)


# Of the calls of $main the last two are those that native code makes too.
SHAPES = """
function w $two(w %a, w %b) {
@start
	%c =w add %a, %b
	ret %c
}
function d $half(d %a) {
@start
	%c =d div %a, d_2
	ret %c
}
export function w $main() {
@start
	%x =w call $two(w 1)
	%y =d call $half(l 1)
	%z =w call $half(d d_3)
	%v =w call $two(l 1, w 2)
	%w =w call $two(w 1, w 2, w 3)
	ret %x
}
"""


def shapes_fault(running: Running) -> str | None:
    """A call by which native code takes something else is told without being asked for."""
    wanted = ["a.ssa:14: $two wants 2 arguments, and the call gives 1: the others are 0 (native code differs)",
              "a.ssa:15: argument 1 of $half is a l for a d (native code differs)",
              "a.ssa:16: the result of $half is a d that is taken as a w (native code differs)"]
    lowered = running.lower({"a.ssa": SHAPES}, "--link")
    return differ("told", wanted, lowered.errors.split("\n")[:-1]) or \
        differ("where nothing calls it", "",
               running.lower({"a.ssa": SHAPES.replace("$main", "$other") + RETURNS}).errors)


# Names that are the runtime's own: the text's are others, and one that it lacks is one from outside.
OWN = """
export function w $put.bytes(w %x) {
@start
	%y =w call $float.of.nothing(w %x)
	ret %y
}
export function w $main() {
@start
	%n =w call $printf(l $f, ..., w 5)
	%s =w call $sign.byte(w 0, w 2)
	ret %s
}
data $f = { b "%d,\\0" }
"""


def own_fault(running: Running) -> str | None:
    lowered = running.lower({"a.ssa": OWN}, "--link")
    run = running.run(lowered.text, "continue\nout\nwhere\n")
    return differ("end", "fault halted", run.end) or differ("output", "5,", run.output) or \
        differ("where", "$sign.byte @is.not.there 0", run.lines[5]) or \
        differ("told", "a.ssa:10: $sign.byte is defined nowhere: a function that halts (would halt)\n", lowered.errors)


def large_fault(running: Running) -> str | None:
    """What qrev will refuse for its size is reported, and the status says so."""
    text = "".join(f"export function $f{number}() {{\n@start\n\tret\n}}\n" for number in range(1001))
    lowered = running.lower({"a.ssa": text})
    return differ("status", 1, lowered.status) or \
        differ("errors", "qrev-lower: the program has 1001 functions, and qrev takes at most 1000\n", lowered.errors)


def results(running: Running) -> Results:
    yield "linking/names of two texts", linked_fault(running)
    yield "linking/all is kept", unlinked_fault(running)
    yield "linking/called first", end_fault(running, {"a.ssa": GET, "b.ssa": FIRST, "c.ssa": NOT_KEPT}, "done 7")
    yield "linking/needs the system", end_fault(running, {"a.ssa": SYSTEM}, "done 47")
    yield "linking/putchar of the text", end_fault(running, {"a.ssa": PUTCHAR}, "done 101", "a5")
    yield "linking/another entry", end_fault(running, {"a.ssa": OTHER.replace("$idle", "$main")}, "done 0")
    yield "linking/a function from outside", outside_fault(running)
    yield "linking/told without being asked", told_fault(running)
    error = running.lower({"a.ssa": TWICE.replace("$missing", "$j0").replace("call $step()", "copy 0")}, "--link")
    yield "linking/what isn't exact", differ(
        "errors",
        "a.ssa:11: $j0 isn't exact, so that the runtime doesn't have it: a function that halts (would halt)\n",
        error.errors)
    yield "linking/not reached", unreached_fault(running)
    yield "linking/no entry", entry_fault(running)
    yield "linking/counts", counts_fault(running)
    yield "linking/order behind dots", order_fault(running)
    yield "linking/calls of another shape", shapes_fault(running)
    yield "linking/names of the runtime's own", own_fault(running)
    yield "linking/too large", large_fault(running)
