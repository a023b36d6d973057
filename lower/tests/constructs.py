"""Each construct of QBE's reference that qrev's language lacks, with a value worked out by hand."""
from typing import NamedTuple

from .running import TOP, Results, Running, differ


class Case(NamedTuple):
    """A text, how its run ends, and what it writes."""

    name: str
    text: str
    end: str
    output: str = ""


def in_main(body: str, returns: str = "w") -> str:
    """A function `main` with instructions, each on a line."""
    lines = "\n".join("\t" + line.strip() for line in body.strip().split("\n"))
    return f"export function {returns} $main() {{\n@start\n{lines}\n}}\n"


def value(name: str, instruction: str, returns: str, wanted: int, before: str = "") -> Case:
    """An instruction whose result is what the program gives."""
    carried = {"s": "w", "d": "l"}.get(returns)
    cast = f"\n%bits ={carried} cast %x\nret %bits" if carried else "\nret %x"
    return Case(name, in_main(f"{before}\n%x ={returns} {instruction}{cast}".strip(), carried or returns),
                f"done {wanted}")


# 1.5 is 0x3fc00000 and 0x3ff8000000000000, 2.25 is 0x40100000 and 0x4002000000000000.
VALUES = [
    value("s constant", "copy s_1.5", "s", 0x3FC00000),
    value("d constant", "copy d_1.5", "d", 0x3FF8000000000000),
    value("d constant with exponent", "copy d_-2.5e3", "d", 0xC0A3880000000000),
    value("hexadecimal constant", "copy d_0x1.8p1", "d", 0x4008000000000000),
    value("constant rounded to nearest", "copy s_16777217", "s", 0x4B800000),
    value("constant rounded once", "copy s_0.50000008940696716308593751", "s", 0x3F000002),
    value("least subnormal constant", "copy d_4.9e-324", "d", 1),
    value("infinite constant", "copy d_inf", "d", 0x7FF0000000000000),
    value("infinite constant with a sign", "copy s_-inf", "s", 0xFF800000),
    value("NaN", "copy d_nan", "d", 0x7FF8000000000000),
    value("constant out of range", "copy s_1e39", "s", 0x7F800000),
    value("bits as a double", "copy 4612811918334230528", "d", 0x4004000000000000),
    value("a floating constant as a word", "copy s_1", "w", 0x3F800000),
    value("a long constant as a single", "copy 4607182419873759232", "s", 0x40000000),
    value("add s", "add s_1.5, s_2.25", "s", 0x40700000),
    value("sub d", "sub d_1.5, d_2.25", "d", 0xBFE8000000000000),
    value("mul s", "mul s_1.5, s_2.25", "s", 0x40580000),
    value("div d", "div d_1, d_3", "d", 0x3FD5555555555555),
    value("neg s of zero", "neg s_0", "s", 0x80000000),
    value("neg d", "neg d_1.5", "d", 0xBFF8000000000000),
    value("exts", "exts s_0.1", "d", 0x3FB99999A0000000),
    value("truncd", "truncd d_0.1", "s", 0x3DCCCCCD),
    value("stosi", "stosi s_-2.75", "w", (1 << 32) - 2),
    value("stosi to l", "stosi s_-2.75", "l", (1 << 64) - 2),
    value("stoui", "stoui s_3e9", "w", 3000000000),
    value("dtosi", "dtosi d_1e10", "l", 10 ** 10),
    value("dtoui to l", "dtoui d_1e19", "l", 10 ** 19),
    value("swtof", "swtof -3", "s", 0xC0400000),
    value("uwtof", "uwtof 4294967295", "d", 0x41EFFFFFFFE00000),
    value("sltof", "sltof -1", "d", 0xBFF0000000000000),
    value("ultof", "ultof 18446744073709551615", "s", 0x5F800000),
    value("cast to a word", "cast s_1.5", "w", 0x3FC00000),
    value("cast to a double", "cast 1", "d", 1),
    value("ceqs", "ceqs s_0, s_-0", "w", 1),
    value("cned of NaN", "cned d_nan, d_nan", "w", 1),
    value("clts", "clts s_-1, s_1", "w", 1),
    value("cled of NaN", "cled d_nan, d_1", "w", 0),
    value("cgts", "cgts s_inf, s_3e38", "w", 1),
    value("cged to l", "cged d_2, d_2", "l", 1),
    value("cos", "cos s_1, s_nan", "w", 0),
    value("cuod", "cuod d_1, d_nan", "w", 1),
    value("loads", "loads %p", "s", 0x40100000, "%p =l alloc4 4\nstores s_2.25, %p"),
    value("loadd", "loadd %p", "d", 0x4002000000000000, "%p =l alloc8 8\nstored d_2.25, %p"),
    value("a load by its class", "loadl %p", "w", 0xFFFFFFFE, "%p =l alloc8 8\nstorel -2, %p"),
    value("a load without a size", "load %p", "l", (1 << 64) - 2, "%p =l alloc8 8\nstorel -2, %p"),
    value("a number of more than 64 bits", "copy 18446744073709551621", "l", 5),
]

AGGREGATES = """
type :pair = { w, l }
type :bytes = { b 3, h }
type :nested = align 16 { :pair, s }
type :opaque = align 4 { 12 }
type :either = { { b } { l, w } { d } }
type :over = {
	w 2,
	:bytes 2,
}
"""

# A pair whose first item is the argument.
MAKE = AGGREGATES + """
function :pair $make(w %a) {
@start
	%p =l alloc8 16
	storew %a, %p
	ret %p
}
"""

# A caller's bytes stay as they are, whatever the callee writes to its copy.
STRUCTURES = [
    Case("an aggregate is copied", AGGREGATES + """
function w $change(:pair %p) {
@start
	storew 9, %p
	%x =w loadw %p
	ret %x
}
export function w $main() {
@start
	%p =l alloc8 16
	storew 5, %p
	%x =w call $change(:pair %p)
	%y =w loadw %p
	%z =w mul %x, 10
	%r =w add %z, %y
	ret %r
}
""", "done 95"),
    Case("a result that is an aggregate", AGGREGATES + """
function :pair $make(w %a, l %b) {
@start
	%p =l alloc8 16
	storew %a, %p
	%q =l add %p, 8
	storel %b, %q
	ret %p
}
export function l $main() {
@start
	%one =:pair call $make(w 3, l 4)
	%two =:pair call $make(w 5, l 6)
	%a =w loadw %one
	%la =l extsw %a
	%q =l add %two, 8
	%b =l loadl %q
	%c =l mul %la, 100
	%r =l add %c, %b
	ret %r
}
""", "done 306"),
    # The slots stand behind each other: 16 bytes of :pair and nothing, 32 of :nested, 12 of :opaque, 16 of :either.
    Case("sizes", AGGREGATES + "".join(f"""
function :{name} $make.{name}(l %from) {{
@start
	ret %from
}}
""" for name in ("pair", "bytes", "nested", "opaque", "either", "over")) + """
data $bytes = align 16 { b 1 2 3 4 5 6 7 8 9 10 11 12 13 14 15 16 17 18 19 20 21 22 23 24 25 26 27 28 29 30 \
31 32 33 34 }
function w $last(l %p) {
@start
	%end =l add %p, 40
@loop
	%at =l phi @start %p, @next %behind
	%x =w loadub %at
	jnz %x, @next, @end
@next
	%behind =l add %at, 1
	%more =w cultl %behind, %end
	jmp @loop
@end
	%r =l sub %at, %p
	ret %r
}
""" + "".join(f"""
function w $size.{name}() {{
@start
	%behind =l alloc4 0
	%r =:{name} call $make.{name}(l $bytes)
	%pad =l alloc16 64
	%n =w call $last(l %r)
	ret %n
}}
""" for name in ("pair", "bytes", "nested", "opaque", "either", "over")) + """
export function w $main() {
@start
""" + "\n".join(f"\t%n{index} =w call $size.{name}()\n\t%w =w call $printf(l $format, ..., w %n{index})"
                for index, name in enumerate(("pair", "bytes", "nested", "opaque", "either", "over"))) + """
	ret 0
}
data $format = { b "%d " , b 0 }
""", "done 0", "16 6 32 12 16 20 "),
    Case("a call by an address gives an aggregate", MAKE + """export function w $main() {
@start
	%f =l copy $make
	%r =:pair call %f(w 42)
	%x =w loadw %r
	ret %x
}
""", "done 42"),
    Case("a slot for each call, also in a loop", MAKE + """export function w $main() {
@start
	%first =l copy 0
@loop
	%i =w phi @start 0, @loop %j
	%sum =w phi @start 0, @loop %sum2
	%r =:pair call $make(w %i)
	%x =w loadw %r
	%sum2 =w add %sum, %x
	%j =w add %i, 1
	%c =w csltw %j, 100000
	jnz %c, @loop, @end
@end
	ret %sum2
}
""", f"done {sum(range(100000)) & 0xFFFFFFFF}"),
    Case("floats in memory and in phis", """
function d $sum(l %p, l %n) {
@start
@loop
	%i =l phi @start 0, @body %j
	%s =d phi @start d_0, @body %t
	%c =w cultl %i, %n
	jnz %c, @body, @end
@body
	%o =l mul %i, 8
	%q =l add %p, %o
	%x =d loadd %q
	%t =d add %s, %x
	%j =l add %i, 1
	jmp @loop
@end
	ret %s
}
data $numbers = { d d_0.5 d_0.25, d 4607182418800017408, s s_1 s_2 }
export function w $main() {
@start
	%s =d call $sum(l $numbers, l 3)
	%q =l add $numbers, 28
	%f =s loads %q
	%g =d exts %f
	%t =d add %s, %g
	%u =d mul %t, d_100
	%r =w dtosi %u
	ret %r
}
""", "done 375"),
]

VARIADIC = [
    Case("vastart and vaarg", """
function l $sum(w %n, ...) {
@start
	%list =l alloc8 24
	vastart %list
@loop
	%i =w phi @start %n, @body %j
	%s =l phi @start 0, @body %t
	jnz %i, @body, @end
@body
	%x =l vaarg %list
	%t =l add %s, %x
	%j =w sub %i, 1
	jmp @loop
@end
	ret %s
}
export function l $main() {
@start
	%a =l call $sum(w 3, ..., l 10, l 20, l 300)
	%b =l call $sum(w 0, ...)
	%c =l call $sum(w 1, ..., w -1)
	%d =l add %a, %b
	%e =l add %d, %c
	ret %e
}
""", f"done {330 + 0xFFFFFFFF}"),
    Case("all classes behind dots", """
function l $mixed(...) {
@start
	%list =l alloc8 24
	vastart %list
	%a =w vaarg %list
	%b =d vaarg %list
	%c =l vaarg %list
	%d =s vaarg %list
	%e =d exts %d
	%f =d add %b, %e
	%g =l dtosi %f
	%h =l extsw %a
	%i =l add %g, %h
	%j =l add %i, %c
	ret %j
}
export function l $main() {
@start
	%r =l call $mixed(..., w -1, d d_2.5, l 100, s s_3.5)
	ret %r
}
""", "done 105"),
    Case("a list that is passed on", """
function w $g(l %format, ...) {
@start
	%list =l alloc8 24
	vastart %list
	%r =w call $vprintf(l %format, l %list)
	ret %r
}
data $format = { b "Hell%c %s %g!\\n\\0" }
data $world = { b "world\\0" }
export function w $main() {
@start
	%r =w call $g(l $format, ..., w 111, l $world, d d_42)
	ret %r
}
""", "done 16", "Hello world 42!\n"),
    Case("dots behind all arguments", """
export function w $main() {
@start
	%x =w call $twice(w 4, ...)
	%r =w call $printf(l $format, w %x, w 9, ...)
	ret %r
}
function w $twice(w %x) {
@start
	%y =w mul %x, 2
	ret %y
}
data $format = { b "%d %d\\0" }
""", "done 3", "8 9"),
    Case("calls by an address of functions with and without dots", """
function w $plain(w %a, w %b) {
@start
	%r =w sub %a, %b
	ret %r
}
function w $dotted(w %a, ...) {
@start
	%list =l alloc8 24
	vastart %list
	%b =w vaarg %list
	%r =w add %a, %b
	ret %r
}
function w $long(l %a, l %b) {
@start
	%r =w mul %a, %b
	ret %r
}
data $functions = { l $plain $dotted $long }
export function w $main() {
@start
	%p =l loadl $functions
	%q =l add $functions, 8
	%f =l loadl %q
	%q2 =l add $functions, 16
	%g =l loadl %q2
	%a =w call %p(w 50, w 8)
	%b =w call %f(w 50, ..., w 8)
	%c =w call %g(w 5, w 8)
	%d =w call %p(w 3, w 2, ...)
	%r =w call $printf(l $format, ..., w %a, w %b, w %c, w %d)
	ret 0
}
data $format = { b "%d %d %d %d\\0" }
""", "done 0", "42 58 40 1"),
    # The runtime calls $compare by its address, with the number of parameters of $add and in other classes.
    Case("a call by an address in the runtime", """
function w $add(w %a, w %b) {
@start
	%r =w add %a, %b
	ret %r
}
function w $compare(l %a, l %b) {
@start
	%x =w loadw %a
	%y =w loadw %b
	%r =w sub %x, %y
	ret %r
}
data $functions = { l $add }
data $numbers = { w 3 1 2 }
export function w $main() {
@start
	call $qsort(l $numbers, l 3, l 4, l $compare)
	%p =l loadl $functions
	%first =w loadw $numbers
	%at =l add $numbers, 4
	%second =w loadw %at
	%sum =w call %p(w %first, w %second)
	%r =w call $printf(l $format, ..., w %first, w %second, w %sum)
	ret 0
}
data $format = { b "%d %d %d\\0" }
""", "done 0", "1 2 3"),
    Case("built-in functions by their addresses", """
data $s = { b "abc\\0" }
data $functions = { l $puts $putchar }
export function w $main() {
@start
	%f =l loadl $functions
	%q =l add $functions, 8
	%g =l loadl %q
	%a =w call %f(l $s)
	%b =w call %f(env 5, l $s)
	%c =l call %g(w 65)
	%d =w call $puts(l $s)
	%e =w mul %a, 100
	%h =w add %e, %b
	%i =w add %h, %d
	%r =w add %i, %c
	ret %r
}
""", "done 473", "abc\nabc\nAabc\n"),
    Case("an environment", """
function w $closure(env %e, w %x) {
@start
	%n =w loadw %e
	%r =w add %n, %x
	ret %r
}
function w $plain(w %x) {
@start
	%r =w mul %x, 2
	ret %r
}
export function w $main() {
@start
	%e =l alloc4 4
	storew 30, %e
	%a =w call $closure(env %e, w 12)
	%f =l copy $closure
	%g =l copy $plain
	%b =w call %f(env %e, w 5)
	%c =w call %g(env %e, w 5)
	%d =w call $plain(env %e, w 6)
	%r =w call $printf(l $format, ..., w %a, w %b, w %c, w %d)
	ret 0
}
data $format = { b "%d %d %d %d\\0" }
""", "done 0", "42 35 10 12"),
]

DEFINITIONS = [
    Case("thread data", """
thread data $t = { w 7 }
export thread
data $u = { w 8 }
export function w $main() {
@start
	storew 9, thread $t
	%x =w loadw thread $t
	%y =w loadw thread $u
	%r =w add %x, %y
	ret %r
}
""", "done 17"),
    Case("quoted names", """
data $"a b" = { w 5 }
data $"plain" = { w 6 }
function w $"f(x)"(w %x) {
@start
	%r =w add %x, 1
	ret %r
}
export function w $main() {
@start
	%a =w loadw $"a b"
	%b =w loadw $plain
	%c =w call $"f(x)"(w %a)
	%d =w mul %b, 10
	%r =w add %c, %d
	ret %r
}
""", "done 66"),
    Case("names that could become one", """
data $"a-b" = { w 5 }
data $a.2db = { w 6 }
export function w $main() {
@start
	%a =w loadw $"a-b"
	%b =w loadw $a.2db
	%c =w mul %a, 10
	%r =w add %c, %b
	ret %r
}
""", "done 56"),
    Case("strings as the assembler reads them", """
data $s = { b "A\\x41\\101\\tB\\v\\q\\"\\\\\\x141\\08", b 0 }
export function w $main() {
@start
	%r =w call $puts(l $s)
	ret %r
}
""", "done 12", 'AAA\tB\vq"\\A\b\n'),
    Case("sections, comments and lines of debug", """
# A comment.
section ".data" "aw" export
data $s = align 4 { b "a", # one
	b 1 2, h 3
	, w 4, z 2 }
dbgfile "a.c"
section ".text"
export
function w $main() {
@start
	dbgloc 3
	%x =w loadub $s
	dbgloc 4, 5
@next
	%y =l add $s, 3
	%z =w loaduh %y
	%r =w add %x, %z
	ret %r
}
""", "done 100"),
    Case("addresses shorter than eight bytes", """
data $pad = { b 1 }
data $x = { w 77 }
data $p = { w $x, l $x + 0, w $x + 4, w 5 }
export function w $main() {
@start
	%a =l loaduw $p
	%v =w loadw %a
	%q =l add $p, 4
	%b =l loadl %q
	%d =l sub %a, %b
	%q2 =l add $p, 12
	%e =l loaduw %q2
	%f =l sub %e, %a
	%g =w add %v, %d
	%r =w add %g, %f
	ret %r
}
""", "done 81"),
    Case("an offset below an address", """
data $x = { w 1 2 3 }
data $p = { l $x + 8, l $x + -4 }
export function w $main() {
@start
	%q =l add $p, 8
	%a =l loadl $p
	%b =l loadl %q
	%d =l sub %a, %b
	%v =w loadw %a
	%r =w add %v, %d
	ret %r
}
""", "done 15"),
    Case("a temporary of both integer classes", in_main("""
%x =w copy 1
%x =l copy 4294967298
%y =w add %x, 1
ret %y"""), "done 3"),
    Case("blocks that nothing leads to", """
export function w $main() {
@start
	jmp @end
@dead
	%x =w add %y, 1
@deader
	jmp @end
@end
	%y =w phi @start 7, @deader 8
	ret %y
}
""", "done 7"),
    Case("alloc in other words", in_main("""
%p =l alloc1 4
%q =l alloc2 4
storew 3, %p
storew 4, %q
%x =w loadw %p
%y =w loadw %q
%r =w mul %x, %y
ret %r"""), "done 12"),
    Case("sub-word arguments and results", """
function ub $cut(sb %x, uh %y) {
@start
	%a =w add %x, %y
	ret %a
}
export function w $main() {
@start
	%r =ub call $cut(sb 1, uh 254)
	%s =w add %r, 1
	ret %s
}
""", "done 256"),
]

SHAPES = [
    Case("an l for a w and a w for an l", """
function l $f(w %a, l %b) {
@start
	%c =l extuw %a
	%d =l add %c, %b
	ret %d
}
export function l $main() {
@start
	%x =w copy -1
	%r =l call $f(l 4294967297, w %x)
	%s =l call $f(l 4294967297, w -1)
	%d =l sub %r, %s
	%e =l add %d, %r
	ret %e
}
""", f"done {1 + 0xFFFFFFFF}"),
    Case("a result in another class", """
function l $long() {
@start
	ret -1
}
function w $word() {
@start
	ret -1
}
export function l $main() {
@start
	%a =w call $long()
	%b =l call $word()
	%c =l extuw %a
	%d =l add %b, %c
	%e =l call $putchar(l 65)
	%f =l add %d, %e
	ret %f
}
""", f"done {2 * 0xFFFFFFFF + 65}", "A"),
    Case("more arguments and fewer", """
function w $one(w %a) {
@start
	ret %a
}
function w $two(w %a, w %b) {
@start
	%c =w add %a, %b
	ret %c
}
export function w $main() {
@start
	%a =w call $one(w 5, w 6)
	%b =w call $two(w 7)
	%c =w mul %a, 10
	%d =w add %c, %b
	ret %d
}
""", "done 57"),
]

CASES = VALUES + STRUCTURES + VARIADIC + DEFINITIONS + SHAPES


def fault(running: Running, case: Case) -> str | None:
    lowered = running.lower_here(case.text)
    if isinstance(lowered, str):
        return lowered
    run = running.run(lowered.text, "continue\nout\nreverse\ncontinue\nout\n", keeps_history=len(case.text) < 1000)
    return differ("end", case.end, run.end) or differ("output", case.output, run.output)


def same_fault(running: Running, text: str, script: str) -> str | None:
    """A text of the language of qrev stays the program that it is: the same session, to the byte."""
    lowered = running.lower_here(text, is_linked=False)
    if isinstance(lowered, str):
        return lowered
    return differ("transcript", running.run(text, script, keeps_history=True).lines,
                  running.run(lowered.text, script, keeps_history=True).lines)


def results(running: Running) -> Results:
    for path in sorted((TOP / "examples").glob("*.ssa")):
        yield f"constructs/{path.name} stays", same_fault(running, path.read_text(),
                                                          path.with_suffix(".script").read_text())
    for case in CASES:
        yield f"constructs/{case.name}", fault(running, case)
