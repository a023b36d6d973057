"""What runs before the entry and behind it, in the order of the C library, and how a program ends."""
from .running import Results, Running, differ

# Native code of the same in C (two constructors, of which one has a number, two destructors, two functions of atexit)
# writes `2 1 main B A 4 3`, of main and of exit alike.
TELL = """
data $f = { b "%s ", b 0 }
function $tell(l %text) {
@start
	%r =w call $printf(l $f, ..., l %text)
	ret
}
data $one = { b "1", b 0 }
data $two = { b "2", b 0 }
data $three = { b "3", b 0 }
data $four = { b "4", b 0 }
data $a = { b "A", b 0 }
data $b = { b "B", b 0 }
data $m = { b "main", b 0 }
function $first(w %count, l %words, l %names) {
@start
	call $tell(l $one)
	ret
}
function $second() {
@start
	call $tell(l $two)
	ret
}
function $third() {
@start
	call $tell(l $three)
	ret
}
function $fourth() {
@start
	call $tell(l $four)
	ret
}
function $handler.a() {
@start
	call $tell(l $a)
	ret
}
function $handler.b() {
@start
	call $tell(l $b)
	ret
}
section ".init_array" data $init.1 = { l $first }
section ".init_array.00101" data $init.2 = { l $second }
section ".fini_array" data $fini = { l $third $fourth }
"""
MAIN = """
export function w $main(w %how) {
@start
	%r =w call $atexit(l $handler.a)
	%r =w call $atexit(l $handler.b)
	call $tell(l $m)
	jnz %how, @exit, @return
@exit
	call $exit(w 7)
	hlt
@return
	ret 5
}
"""
ALL = "2 1 main B A 4 3 "
# A start of the text's own, which runs through the arrays itself, and an exit that does the same.
OWN = """
function $run(l %at, l %end) {
@start
@loop
	%place =l phi @start %at, @one %next
	%is.one =w cultl %place, %end
	jnz %is.one, @one, @end
@one
	%f =l loadl %place
	call %f()
	%next =l add %place, 8
	jmp @loop
@end
	ret
}
export function $begin(w %how) {
@start
	call $run(l $__init_array_start, l $__init_array_end)
	call $tell(l $m)
	call $end(w 7)
	hlt
}
function $end(w %status) {
@start
	call $run(l $__fini_array_start, l $__fini_array_end)
	%gone =l call $rt.syscall1(l 231, w %status)
	hlt
}
"""
EMPTY = """
export function w $main() {
@start
	%size =l sub $__fini_array_end, $__fini_array_start
	%more =l sub $__preinit_array_end, $__preinit_array_start
	%names =l loadl $environ
	%name =l loadl %names
	%size =l add %size, %more
	%size =l add %size, %name
	%text =l call $getenv(l $environ)
	%size =l add %size, %text
	ret %size
}
"""


# A main that calls itself: what runs behind it runs once.
AGAIN = """
export function w $main(w %n) {
@start
	call $tell(l $m)
	jnz %n, @again, @end
@again
	%less =w sub %n, 1
	%r =w call $main(w %less)
	%s =w add %r, 1
	ret %s
@end
	%q =w call $atexit(l $handler.a)
	ret 40
}
"""


def fault(running: Running, texts: dict[str, str], end: str, output: str, *options: str, words: tuple[str, ...] = ()) \
        -> str | None:
    lowered = running.lower(texts, *options)
    run = running.run(lowered.text, words=(*words, *(options[-2:] if "--entry" in options else ())))
    return differ("errors", "", lowered.errors) or differ("end", end, run.end) or differ("output", output, run.output)


def results(running: Running) -> Results:
    both = {"a.ssa": TELL + MAIN}
    for options in (("--link",), ()):
        yield f"ends/main returns {options}", fault(running, both, "done 5", ALL, *options, words=("0",))
        yield f"ends/exit {options}", fault(running, both, "exit 7", ALL, *options, words=("1",))
    at_once = MAIN.replace("$exit(", "$_exit(")
    yield "ends/_exit", fault(running, {"a.ssa": TELL + at_once}, "exit 7", "2 1 main ", "--link", words=("1",))
    own = {"a.ssa": TELL.replace("(w %count, l %words, l %names)", "()") + OWN}
    # A linker puts what has a number first; this text runs through both arrays forward.
    yield "ends/a start of the text's own", fault(running, own, "exit 7", "2 1 main 3 4 ", "--link", "--entry", "begin",
                                                  words=("0",))
    yield "ends/main calls itself", fault(running, {"a.ssa": TELL + AGAIN}, "done 42", "2 1 main main main A 4 3 ",
                                          "--link", words=("2",))
    yield "ends/empty arrays", fault(running, {"a.ssa": EMPTY}, "done 0", "", "--link")
