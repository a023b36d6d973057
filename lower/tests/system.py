"""The border at the operating system: the text's own allocator, formatter and abort, over system calls."""
import random

from .running import DATA, Results, Running, differ
from .runtime import HeapText
from .telling import TELL

LIBRARY = DATA / "library"
ABORTED = "Abort: oob.ha:2:37: slice or array access out of bounds\n"
# The calls of the system in a row; what each gives is printed. Of an unknown one the answer is -38.
CALLS = TELL + """
data $list = { l $one 2 $two 3 }
data $one = { b "ab" }
data $two = { b "cde" }
data $times = { l 7 7 }
export function w $main() {
@start
	%r =l call $rt.syscall3(l 1, l 1, l $one, l 2)
	call $tell(l %r)
	%r =l call $rt.syscall3(l 20, l 2, l $list, l 2)
	call $tell(l %r)
	%r =l call $rt.syscall3(l 1, l 7, l $one, l 2)
	call $tell(l %r)
	%r =l call $rt.syscall3(l 0, l 0, l $times, l 16)
	call $tell(l %r)
	%r =l call $rt.syscall0(l 39)
	call $tell(l %r)
	%r =l call $rt.syscall2(l 228, l 1, l $times)
	call $tell(l %r)
	%t =l loadl $times
	call $tell(l %t)
	%r =l call $rt.syscall3(l 41, l 2, l 1, l 0)
	call $tell(l %r)
	%r =l call $rt.syscall3(l 16, l 1, l 21505, l $times)
	call $tell(l %r)
	%r =l call $syscall(l 318, ..., l $times, l 8, w 0)
	call $tell(l %r)
	%e =l call $__errno_location()
	%n =w loadw %e
	%w =l extsw %n
	call $tell(l %w)
	%p =l call $rt.syscall6(l 9, l 0, l 100, l 3, l 34, l -1, l 0)
	%odd =l and %p, 4095
	call $tell(l %odd)
	storel 9, %p
	%u =l call $rt.syscall2(l 11, l %p, l 100)
	call $tell(l %u)
	%q =l call $rt.syscall6(l 9, l 0, l 4096, l 3, l 34, l -1, l 0)
	%same =l ceql %p, %q
	call $tell(l %same)
	%zero =l loadl %q
	call $tell(l %zero)
	%r =l call $rt.syscall6(l 9, l 0, l 4096, l 3, l 2, l 3, l 0)
	call $tell(l %r)
	%b =l call $rt.syscall1(l 12, l 0)
	%more =l add %b, 64
	%c =l call $rt.syscall1(l 12, l %more)
	storel 5, %b
	%grown =l sub %c, %b
	call $tell(l %grown)
	%e =l call $rt.syscall1(l 231, l 7)
	hlt
}
"""
CALLS_OUTPUT = "ab2 abcde5 -9 0 1 0 0 -38 -25 -1 38 0 0 1 0 -9 64 "
# An arena that maps more than there is, and uses little of it; a second one can't be had.
ARENA = """
export function w $main(w %count) {
@start
	%p =l call $mmap(l 0, l 16777216, w 3, w 34, w -1, l 0)
	%far =l add %p, 400000
	storew 33, %far
	%x =w loadw %far
	jnz %count, @again, @end
@again
	%q =l call $mmap(l 0, l 16777216, w 3, w 34, w -1, l 0)
@end
	ret %x
}
"""
# What calloc gives comes from the text's own malloc, and goes to its own free.
OWN_CALLOC = """
export function w $main() {
@start
	%p =l call $calloc(l 4, l 8)
	storel 42, %p
	%x =w loadw %p
	call $free(l %p)
	ret %x
}
"""
# One of a family comes to a function from outside: all of it is the runtime's, and what looks at its data is told.
LOCKED = """
data $used = { l 0 }
export function l $malloc(l %size) {
@start
	call $lock.of.threads()
	%n =l loadl $used
	%m =l add %n, %size
	storel %m, $used
	ret 0
}
export function $free(l %p) {
@start
	storel 0, $used
	ret
}
export function l $realloc(l %p, l %size) {
@start
	call $free(l %p)
	%q =l call $malloc(l %size)
	ret %q
}
export function l $heap_used() {
@start
	%n =l loadl $used
	ret %n
}
export function w $main() {
@start
	%p =l call $malloc(l 8)
	storel 42, %p
	%q =l call $realloc(l %p, l 64)
	%x =w loadw %q
	%n =l call $heap_used()
	call $free(l %q)
	ret %x
}
"""


def mappings_text(seed: int) -> str:
    """Random mappings and ranges that are given back, some in parts: each is zero when it is given, and is filled."""
    choice = random.Random(seed)
    body: list[str] = []
    held: list[tuple[int, int]] = []
    made = 0
    for _ in range(150):
        pages = sum(count for _, count in held)
        if held and (pages > 90 or choice.random() < 0.45):
            index, count = held.pop(choice.randrange(len(held)))
            part = choice.randrange(1, count + 1)
            body += [f"%e{made}.{len(body)} =l add %p{index}, {4096 * (count - part)}",
                     f"%u =l call $munmap(l %e{made}.{len(body)}, l {4096 * part - choice.randrange(4096)})"]
            if part < count:
                held.append((index, count - part))
        else:
            count = choice.randrange(1, 25)
            body += [f"%p{made} =l call $mmap(l 0, l {4096 * count}, w 3, w 34, w -1, l 0)",
                     f"%s =l call $sum(l %p{made}, l {4096 * count})", "%bad =l or %bad, %s",
                     f"%f =l call $memset(l %p{made}, w 255, l {4096 * count})"]
            held.append((made, count))
            made += 1
    lines = "\n".join("\t" + line for line in body)
    return SUM + f"export function l $main() {{\n@start\n\t%bad =l copy 0\n{lines}\n\tret %bad\n}}\n"


# The sum of the words of a range.
SUM = """
function l $sum(l %at, l %bytes) {
@start
	%end =l add %at, %bytes
@loop
	%place =l phi @start %at, @word %next
	%sum =l phi @start 0, @word %more
	%is =w cnel %place, %end
	jnz %is, @word, @end
@word
	%word =l loadl %place
	%more =l or %sum, %word
	%next =l add %place, 8
	jmp @loop
@end
	ret %sum
}
"""


def mappings_fault(running: Running, seed: int) -> str | None:
    lowered = running.lower_here(mappings_text(seed))
    return lowered if isinstance(lowered, str) else differ("end", "done 0", running.run(lowered.text).end)


# A heap without a realloc of its own: natively that of the C library would be given blocks that it doesn't know.
NO_REALLOC = """
export function w $main() {
@start
	%p =l call $malloc(l 8)
	storel 42, %p
	%q =l call $realloc(l %p, l 5000)
	%x =w loadw %q
	call $free(l %q)
	ret %x
}
"""
# A free of its own alone, which counts: the blocks are those of the C library.
COUNTED_FREE = """
data $count = { w 0 }
export function $free(l %p) {
@start
	%n =w loadw $count
	%m =w add %n, 1
	storew %m, $count
	ret
}
export function w $main() {
@start
	%p =l call $malloc(l 8)
	%q =l call $calloc(l 8, l 1)
	call $free(l %p)
	call $free(l %q)
	%n =w loadw $count
	ret %n
}
"""


def text_of(name: str) -> str:
    return (LIBRARY / name).read_text()


def fault(running: Running, texts: dict[str, str], end: str, output: str, words: tuple[str, ...] = (), kept: str = "",
          note: str = "") -> str | None:
    """What is wrong of a program that is linked: its end, its output, a definition that is kept, a line of the
    report."""
    lowered = running.lower(texts, "--link", "--report")
    run = running.run(lowered.text, words=words)
    return differ("end", end, run.end) or differ("output", output, run.output) or \
        (None if kept in lowered.text else f"{kept!r} isn't in the text") or \
        (None if note in lowered.errors else f"no {note!r} in {lowered.errors!r}")


def where_fault(running: Running) -> str | None:
    """`where` at an abort leads to who called it."""
    lowered = running.lower({"oob.ssa": text_of("oob.ssa"), "rt.ssa": text_of("rt.ssa")}, "--link")
    run = running.run(lowered.text, "continue\nwhere\n", ("101",))
    return differ("where", ["$ended.by.signal @start 0", "$rt.abort_fixed @start.140 3", "$main @outside.36 1"],
                  [run.lines[4], *run.lines[-2:]])


def own_heap_fault(running: Running, seed: int) -> str | None:
    """Random use of a heap of the text's own, whose calloc is the runtime's over its malloc."""
    heap = HeapText(seed)
    texts = {"a.ssa": heap.text(), "pool.ssa": text_of("pool.ssa"), "writer.ssa": text_of("writer.ssa")}
    return fault(running, texts, "done 0", str(heap.total), kept="function l $pool.class(")


def families(running: Running) -> Results:
    own = {"oob.ssa": text_of("oob.ssa"), "rt.ssa": text_of("rt.ssa")}
    large = own["rt.ssa"].replace("l 65536)", "l 2097152)").replace("storel 65536", "storel 2097152")
    replaced = own | {"rt.ssa": large}
    told = "$rt.malloc asks the system for 2097152 bytes at once: the runtime's is taken"
    yield "system/a slice that grows", fault(running, own, "done 4950", "", ("100",), "function $rt.check(")
    yield "system/an abort", fault(running, own, "fault halted", ABORTED, ("101",))
    yield "system/who aborted", where_fault(running)
    yield "system/chunks of two mebibytes", fault(running, replaced, "done 4950", "", ("100",), "", told)
    kept = own["rt.ssa"].replace("call $rt.map(l 65536)", "call $rt.map(l %kept)").replace(
        "\t%chunk.23 =", "\t%kept =l loadl $rt.chunk.size\n\t%chunk.23 =") + "data $rt.chunk.size = { l 2097152 }\n"
    yield "system/chunks of a size in data", fault(running, own | {"rt.ssa": kept}, "done 4950", "", ("100",), "", told)
    yield "system/their abort", fault(running, replaced, "fault halted", ABORTED, ("101",))
    yield "system/an abort of the runtime", fault(running, {"oob.ssa": own["oob.ssa"]}, "fault halted", ABORTED,
                                                  ("101",))
    yield "system/a heap with marks", fault(running, {"a.ssa": text_of("checked-heap.ssa")}, "done 42", "")
    checked = text_of("checked-heap.ssa").replace("$main", "$other")
    yield "system/calloc of the text's own heap", fault(running, {"a.ssa": checked, "b.ssa": OWN_CALLOC}, "done 42", "")
    yield "system/a heap without a realloc", fault(running, {"a.ssa": checked, "b.ssa": NO_REALLOC}, "done 42", "",
                                                   note="$malloc comes without a $realloc of the text's own")
    yield "system/a free of its own", fault(running, {"a.ssa": COUNTED_FREE}, "done 2", "")
    yield "system/a heap with locks", fault(running, {"a.ssa": LOCKED}, "done 42", "",
                                            note="$free shares state with $malloc")
    yield "system/what looks at its data", fault(running, {"a.ssa": LOCKED}, "done 42", "",
                                                 note="$heap_used uses $used, which functions that were replaced")


def results(running: Running) -> Results:
    yield from families(running)
    yield "system/calls", fault(running, {"a.ssa": CALLS}, "exit 7", CALLS_OUTPUT,
                                note="call 41 (socket) of the system isn't there: it answers -38 (ENOSYS)")
    yield "system/calls of C", fault(running, {"a.ssa": CALLS}, "exit 7", CALLS_OUTPUT, note="call 318 (getrandom)")
    for seed in range(4):
        yield f"system/a heap of its own {seed}", own_heap_fault(running, seed)
    for seed in range(6):
        yield f"system/mappings {seed}", mappings_fault(running, seed)
    yield "system/a large arena", fault(running, {"a.ssa": ARENA}, "done 33", "", ("0",))
    yield "system/two large arenas", fault(running, {"a.ssa": ARENA}, "fault halted", "", ("1",))
