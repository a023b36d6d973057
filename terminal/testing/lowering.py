"""Sessions over texts of whole QBE that were lowered first: ends in functions that aren't the program's own, floats,
and places of the source."""
from __future__ import annotations

import pathlib
import struct
import subprocess
import sys
import tempfile
from functools import partial
from typing import Callable, Mapping

from terminal.lowered import lowered_of
from terminal.renaming import Renaming

from .harness import TOP, Held, Silent
from .sessions import Lines

LOWER = TOP / "lower" / "qrev-lower"

ABSENT = """
data $n = { b "x.txt", b 0 }
function l $open(l %name, w %k) {
@start
	%m =w add %k, 3
	%f =l call $popen(l %name, w %m)
	ret %f
}
export function w $main() {
@start
	%f =l call $open(l $n, w 4)
	%g =w copy %f
	ret %g
}
"""
ABSENT_LINES: Lines = [
    ("c", ["stop: end\n#4 halted in $popen, which isn't there\n  source: a.ssa:6\n"]),
    ("why",
     ["halted in $popen, which isn't there, at #4, comes of\n  #2 $open @start 1", "[2] %m = 7  -> %a2 of $popen"]),
    ("why 2", ["%m = 7 was set by\n", "%m =w add %k, 3"]), ("back", ["#3 $popen @is.not.there 0"]),
    ("c", ["halted in $popen, which isn't there"]), ("temps", ["%a2 = 7"]),
]

# `no.txt` is looked for in vain; `out.txt` is written, and read again.
WRITES = """
data $none = { b "no.txt", b 0 }
data $n = { b "out.txt", b 0 }
data $w = { b "w", b 0 }
data $r = { b "r", b 0 }
data $t = { b "one\\ntwo \\377", b 0 }
export function w $main() {
@start
	%no =l call $fopen(l $none, l $r)
	%f =l call $fopen(l $n, l $w)
	%x =w call $fputs(l $t, l %f)
	%x =w call $fclose(l %f)
	%g =l call $fopen(l $n, l $r)
	%c =w call $fgetc(l %g)
	ret %c
}
"""
WRITES_LINES: Lines = [
    ("files", ["no files"]), ("c", ["done 111"]), ("files", ["out.txt: 9 bytes at ", ", 1 stream open"]),
    ("files ./out.txt", ['9 bytes\n0  "one\\n"\n4  "two \\377"']), ("files no.txt", ["no.txt: no such file here"]),
    ("files out.txt /nowhere/x", ["/nowhere/x: No such file or directory"]),
    ("files 'a", ["files: No closing quotation"]),
    ("files out.txt /dev/null", ["9 bytes are in /dev/null"]), ("goto 0", ["#0 $main"]), ("files", ["no files"]),
]
# The calls may lead to the longjmp, so that questions stand behind them, which aren't the program's own.
LEFT = """
data $place = align 16 { z 256 }
function $leave(w %is) {
@start
	jnz %is, @yes, @no
@yes
	call $longjmp(l $place, w 1)
	hlt
@no
	ret
}
export function w $main() {
@start
	call $leave(w 0)
	%r =w call $setjmp(l $place)
	jnz %r, @out, @more
@more
	call $leave(w 0)
	call $leave(w 0)
	ret 7
@out
	ret 1
}
"""
LEFT_LINES: Lines = [
    ("c", ["done 7"]), ("why", ["ret 7", "[1] the way to @more\n"]),
    ("why 1", ["control came to @more by\n", "jnz %r, @out, @more", "[1] %r = 0"]),
    ("b $leave @no", ["break 1"]), ("start", ["#0"]), ("c", ["break 1"]), ("fin", ["$main @start"]),
    ("step 3", ["@jump.on"]), ("why jump", ["the run begins with $main"]),
    ("why --inside jump", ["control came to @jump.on", "jnz %.jump.is.wanted"]),
]
FREED = """
export function w $main() {
@start
	%p =l call $malloc(l 20)
	%q =l add %p, 16
	call $free(l %q)
	ret 0
}
"""
FREED_LINES: Lines = [
    ("c", ["halted in $free.of.no.block.in.use\n  source: a.ssa:6\n"]),
    ("why", ["$main @start 2", "[1] %q = "]), ("why 1", ["%q =l add %p, 16"]),
]


SIGNAL = """
function $abort() {
@start
	%pid =w call $getpid()
	%r =w call $kill(w %pid, w 6)
	hlt
}
export function w $main() {
@start
	call $abort()
	ret 0
}
"""
SIGNAL_LINES: Lines = [
    ("c", ["ended by a signal\n  source: a.ssa:5\n", "call $kill(w %pid, w 6)"]),
    ("bt", ["$abort @start 2", "$main @start 1"]), ("why", ["ended by a signal, at #", "$abort @start 1"]),
]

NOWHERE = """
function w $count(l %text) {
@start
	%n =l call $strlen(l %text)
	ret %n
}
export function w $main() {
@start
	%a =l copy 0
	%x =w call $count(l %a)
	ret %x
}
"""
NOWHERE_LINES: Lines = [
    ("c", ["fault dead address 0\n  source: a.ssa:4\n", "call $strlen(l %text)"]),
    ("why", ["fault dead address 0 in $strlen, at #", "[1] %text = 0"]), ("why 1", ["argument 1 of 1", "[1] %a = 0"]),
    ("why --inside", ["loadub %at"]), ("bt", ["> 0  $strlen @loop 0"]),
]

# An address behind the program's data lies nearer to what the runtime has there.
BEYOND = """
data $table = { w 1 2 3 }
data $text = { b "%d\\n", b 0 }
export function w $main() {
@start
	%far =l add $table, 4000000
	call $printf(l $text, ..., w 3)
	%n =w loadw %far
	ret %n
}
"""
BEYOND_LINES: Lines = [
    ("c", ["fault dead address 4065536"]), ("why", ["the nearest data is $text, of 4 bytes: $text+3999984", "%far"]),
]

FLOATS = """
data $table = { d d_0.5 d_0.25, s s_1.5, w 7 }
data $text = { b "abc", b 0 }
data $to = { z 16 }
data $f = { b "%g %s", b 0 }
function d $area(d %r, s %k) {
@start
	%sq =d mul %r, %r
	%kd =d exts %k
	%x =d mul %sq, %kd
	%y =d add %x, d_1.25
	%c =w cltd %y, d_100
	jnz %c, @yes, @no
@yes
	ret %y
@no
	%n =d neg %y
	ret %n
}
export function w $main() {
@start
	%p =l alloc8 8
	%a =d loadd $table
	%q =l add $table, 8
	%b =d loadd %q
	%sum =d add %a, %b
	stored %sum, %p
	%v =d loadd %p
	%r =d call $area(d %v, s s_0.1)
	stored %r, $table
	%m =l call $memcpy(l $to, l $text, l 4)
	%pr =w call $printf(l $f, ..., d %r, l $to)
	%z =w dtosi %r
	ret %z
}
"""
# 0.75 squared is 0.5625, and times the single that is nearest to 0.1, and 1.25: this is what a processor gives.
SINGLE = struct.unpack("<f", struct.pack("<f", 0.1))[0]
SUM = 0.5625 * SINGLE + 1.25
BITS = struct.unpack("<Q", struct.pack("<d", SUM))[0]
FLOATS_LINES: Lines = [
    ("b $area @yes", []), ("c", [f"%y={SUM!r}"]), ("temps", ["%r = 0.75\n%k = 0.1\n%sq = 0.5625\n", "%n unset"]),
    ("p %y", [f"%y = {SUM!r}\n"]), ("p/x %y", [f"%y = 0x{BITS:x}\n"]), ("p/d %k", ["= 1036831949\n"]),
    ("p %y > 1.3 && %y < 1.31", ["= 1"]), ("p %k == 0.1", ["= 1"]), ("p %kd == 0.1", ["= 0"]),
    ("p %r / 2", ["= 0.375\n"]), ("p -%r * 1e2", ["= -75.0\n"]), ("p %r & 1", ["isn't an operation of floats"]),
    ("p u(%r)", ["= 4604930618986332160\n"]),
    ("display %kd + 1", ["1: %kd + 1 = "]), ("x/2f %r", ["a whole number was expected"]),
    ("why", ["jnz %c, @yes, @no"]),
    ("why %y", ["%y =d add %x, d_1.25", "[1] %x = "]),
    ("why 1", ["%x =d mul %sq, %kd", "[1] %sq = 0.5625\n  [2] %kd = "]),
    ("why 2", ["%kd =d exts %k", "[1] %k = 0.1\n"]),
    ("why 1", ["%k = 0.1 is argument 2 of 2 of the call\n", "%r =d call $area(d %v, s s_0.1)"]),
    ("why 1", ["%v =d loadd %p", "d frame 0 $main alloc %p+0 = 0.75\n"]),
    ("why 1", ["stored %sum, %p", "[1] %sum = 0.75\n"]), ("why 1", ["%sum =d add %a, %b", "[2] %b = 0.25\n"]),
    ("why 2", ["%b =d loadd %q", "d $table+8 = 0.25\n"]), ("why 1", ["so since the start"]),
    ("why %y", []), ("why --inside %y", ["was given back by", "$float."]), ("why %c", ["%c =w cltd %y, d_100.0"]),
    ("delete", []), ("undisplay", []), ("watch d $table", ["watch 2: d $table+0"]),
    ("c", [f"stop: watch 2, d $table+0: 0.5 -> {SUM!r}"]), ("when %v > 0.5", ["1 time"]), ("set %r 3", []),
    ("p %r", ["%r = 3.0"]), ("back", []), ("poke s $table+16 2.5", []), ("p s[$table+16]", ["= 2.5"]), ("back", []),
    ("c", ["done 1"]), ("why w $to", ["stored by $memcpy, called at\n", "[1] w $text+0 = "]),
    ("why 1", ["so since the start: line 2, $text"]), ("why --inside w $to", ["$copy.up"]),
    ("why out 2", ["was written by $printf, called at\n", "[2] d frame 0 $main alloc %.cells.1+0 = "]),
    ("why 2", ["stored %r, %.cells.1"]), ("goto why", []), ("bt", ["stored %r, %.cells.1"]),
    ("when %r > 1.3", ["1 time"]), ("writers l $table", [f"%r={SUM!r}"]),
    ("calls area", ["%k=0.1)  called at #", "\n1 call of $area in the run"]), ("calls", ["  $area(%"]),
    ("whatis %r", ["%r: d, set at line"]), ("whatis area", ["s %k), which gives l"]),
]


def chain(operations: list[str]) -> str:
    """A float program of operations on what the one before gave."""
    lines = [f"\t%x{index + 1} =d {name} %x{index}, d_{index + 2}.5" for index, name in enumerate(operations)]
    return "\n".join(["export function d $main() {", "@start", "\t%x0 =d copy d_1.5", *lines,
                      f"\tret %x{len(operations)}", "}"]) + "\n"


# Singles: a phi, a negation, a store to the stack, a call that gives one, and a comparison. 0.5 - 1.5 is -1.
SINGLES = """
function s $less(s %a) {
@start
	%b =s sub %a, s_1.5
	ret %b
}
export function w $main(w %n) {
@start
	%slot =l alloc4 4
	jnz %n, @one, @two
@one
	%x =s copy s_0.5
	jmp @both
@two
	%y =s copy s_7
@both
	%z =s phi @one %x, @two %y
	%r =s call $less(s %z)
	%m =s neg %r
	stores %m, %slot
	%v =s loads %slot
	%c =w cges %v, s_1
	%i =w stosi %v
	%j =w add %c, %i
	ret %j
}
"""
SINGLES_LINES: Lines = [
    ("c", ["done 2"]), ("back", ["%j=2"]), ("temps", ["%x = 0.5\n%y unset\n%z = 0.5\n%r = -1.0\n%m = 1.0\n%v = 1.0\n"]),
    ("why %i", ["%i =w stosi %v", "[1] %v = 1.0"]),
    ("why 1", ["%v =s loads %slot", "s frame 0 $main alloc %slot+0 = 1.0"]),
    ("why 1", ["stores %m, %slot", "[1] %m = 1.0"]), ("why 1", ["%m =s neg %r"]),
    ("why 1", ["ret %b", "[1] %b = -1.0"]), ("why 1", ["%b =s sub %a, s_1.5", "[1] %a = 0.5"]),
    ("why 1", ["%r =s call $less(s %z)", "[1] %z = 0.5"]),
    ("why 1", ["%z =s phi @one %x, @two %y", "[1] %x = 0.5"]), ("why 1", ["%x =s copy s_0.5"]),
    ("why %c", ["%c =w cges %v, s_1.0"]),
]

# A function that the runtime calls.
COMPARE = """function w $compare(l %a, l %b) {
@start
	%x =w loadw %a
	%y =w loadw %b
	%less =w sub %x, %y
	ret %less
}
"""
CALLED = f"""
data $table = {{ w 3 1 2 }}
{COMPARE}export function w $main() {{
@start
	call $qsort(l $table, l 3, l 4, l $compare)
	%r =w loadw $table
	ret %r
}}
"""
CALLED_LINES: Lines = [
    ("b $compare", []), ("c", ["#"]),
    ("why %a", ["%a = ", "was given by $qsort, called at\n", "call $qsort(l $table, l 3,"]),
    ("why call", ["$compare was called by $qsort, called at\n"]),
    ("why --inside %a", ["argument 1 of 2", "call %compare("]),
    ("delete", []), ("c", ["done 1"]), ("why w $table", ["stored by $qsort, called at\n"]),
]

OPERATIONS = ["add", "mul", "sub", "div", "mul", "add", "div", "sub", "sub", "mul", "add", "div"]
# One question for each operation of the source, from the last to the first, and one for the copy.
CHAIN_LINES: Lines = [
    ("c", []), ("back", []), (f"why %x{len(OPERATIONS)}", [f"%x{len(OPERATIONS)} =d {OPERATIONS[-1]} "]),
    *[("why 1", [f"%x{index + 1} =d {OPERATIONS[index]} %x{index}, d_{index + 2}.5"])
      for index in range(len(OPERATIONS) - 2, -1, -1)],
    ("why 1", ["%x0 =d copy d_1.5"]),
]


LONG = "%a.name.that.is.as.long.as.those.of.some.compilers"


def large() -> str:
    """A text that fits with short names alone: a hundred functions of a hundred steps."""
    parts = []
    for number in range(150):
        name = f"{LONG}.{number}"
        steps = [f"\t{name}.{step} =l add {name}.{step - 1}, 1" for step in range(1, 100)]
        call = f"call $f{number + 1}(l {name}.99)" if number < 149 else f"copy {name}.99"
        parts.append("\n".join([f"function l $f{number}(l {name}.0) {{", f"@start.{number}", *steps,
                                f"\t{name}.last =l {call}", f"\tjmp @end.{number}", f"@end.{number}",
                                f"\tret {name}.last", "}"]))
    return "\n".join([*parts, "export function l $main() {", "@start", "\t%x =l call $f0(l 5)", "\tret %x", "}"]) + "\n"


NAME = f"{LONG}.3"
LARGE_LINES: Lines = [
    ("info functions", [f"$f3(l {NAME}.0)"]), ("b $f3 @end.3", ["break 1: $f3 @end.3 0"]),
    ("b $f3 @start.3 2", ["break 2: $f3 @start.3 2"]),
    ("c", ["stop: break 2", "$f3 @start.3 2", "source: a.ssa:", f"{NAME}.3=l add {NAME}.2,1    {NAME}.2=304"]),
    (f"p {NAME}.1 + 1", ["= 304"]), ("temps", [f"{NAME}.2 = 304\n{NAME}.3 unset"]),
    (f"watch {NAME}.5", [f"{NAME}.5 of this call"]),
    ("c", ["unset -> 307"]), ("delete 2 3", []),
    (f"why {NAME}.5", [f"{NAME}.5 =l add {NAME}.4, 1", f"[1] {NAME}.4 = 306"]),
    ("bt 2", [f"call $f3(l {LONG}.2.99)"]), ("c", ["stop: break 1", "$f3 @end.3 0"]), (f"set {NAME}.last 7", []),
    ("bt", ["$main @start 1"]), ("c", ["done 7"]), ("back", ["%x=7"]), (f"b $f2 if {LONG}.2.0 > 3", []),
    ("rc", ["stop: break 1"]), ("d 1", []), ("rc", ["stop: break 4", "$f2 @start.2 0"]),
]


# A form feed is a part of its line.
SOURCE = """int twice(int x) {\x0c
    int y = x * 2;
    return y;
}
int main(void) {
    int a = twice(3);
    int b = abs(twice(a));
    a = b + 1;
    return a;
}
"""
PLACES = """
dbgfile "p.c"
function w $twice(w %x) {
@start
	dbgloc 2
	%y =w mul %x, 2
	%z =w copy %y
	dbgloc 3
	ret %z
}
export function w $main() {
@start
	dbgloc 6
	%t =w copy 3
	%a =w call $twice(w %t)
	dbgloc 7, 5
	%b =w call $twice(w %a)
	%q =w call $abs(w %b)
	dbgloc 8
	%c =w add %b, 1
	%a =w copy %c
	dbgloc 9
	ret %a
}
"""
PLACES_LINES: Lines = [
    ("info source", ["here: p.c:6\np.c: 6 lines in the text\n"]), ("list", ["p.c\n", ">  6      int a = twice(3);\n"]),
    ("counts twice", ["p.c\n2  2      int y = x * 2;\n2  3      return y;\n$twice: 6 moves, entered 2 times"]),
    ("counts", ["$twice, entered 2 times\n", "%  the runtime\n"]),
    ("list -ssa", ["%t =w copy 3"]), ("list p.c:2", ["  1  int twice(int x) {^L\n", "> 6"]),
    ("list 1,3", ["p.c\n", "  3      return y;\n"]), ("list p.c:8,", [" 8      a = b + 1;\n", "10  }\n"]),
    ("list 9", ["  9      return a;"]), ("list $twice", ["function w $twice(w %x) {"]),
    ("list other.c:1", ["isn't found"]), ("list p.c:20", ["p.c: the source has 10 lines"]),
    ("b p.c:7", ["break 1: $main @start 2"]),
    ("tbreak a.ssa:9", ["break 2: $twice @start 2"]), ("b none.c:1", ["the sources are: p.c"]),
    ("c", ["stop: break 2", "#4 $twice @start 2", "a.ssa:9: p.c:3  return y;\n"]),
    ("up", ["frame 1 $main @start 2\n  source: a.ssa:15: p.c:6  int a = twice(3);\n", "> 10 "]),
    ("down", ["frame 0 $twice @start 2\n"]),
    ("c", ["stop: break 1", "#5 $main @start 2"]),
    ("d", []), ("next-line", ["#13 $main @start 4", "p.c:8  a = b + 1;\n"]),
    ("nl", ["#15 $main @start 6", "p.c:9  return a;\n"]),
    ("reverse-next-line", ["#13 $main @start 4"]), ("rnl", ["#5 $main @start 2", "p.c:7:5  int b = abs(twice(a));\n"]),
    ("rnl", ["#0 $main @start 0"]), ("step-line", ["#2 $twice @start 0", "p.c:2  int y = x * 2;\n"]),
    ("sl", ["#4 $twice @start 2"]),
    ("sl", ["#5 $main @start 2"]), ("nl", ["#13 $main"]),
    ("reverse-step-line", ["#8 $twice @start 2", "p.c:3  return y;\n"]),
    ("rsl", ["#6 $twice @start 0"]), ("rsl", ["#5 $main @start 2"]), ("rsl", ["#4 $twice @start 2"]),
    ("nl 9", ["done 13"]), ("rnl", ["#15 $main @start 6"]),
    ("goto 12", ["$abs @"]), ("rnl", ["#5 $main @start 2"]), ("nl 2", ["#15"]), ("reverse-n", ["#14 $main @start 5"]),
]


# The compiler had the source in a folder that is not here, where two folders have one of its name.
ELSEWHERE = PLACES.replace('"p.c"', '"/build/proj/lib/p.c"')
ELSEWHERE_FILES = {"src/lib/p.c": SOURCE, "src/p.c": "int another;\n", "old/p.c": "int old;\n" * 9, "empty": ""}
ELSEWHERE_LINES: Lines = [
    ("list", ["/build/proj/lib/p.c: the source isn't found, or is empty; `directory DIR` says where sources are; ",
              "this is the text\n", "%t =w copy 3"]),
    ("l p.c:6", ["/build/proj/lib/p.c: the source isn't found"]),
    ("info source", ["/build/proj/lib/p.c: 6 lines in the text, which isn't found\n",
                     "  looked for at /build/proj/lib/p.c\n", "`directory DIR` says where sources are"]),
    ("set substitute-path /build /tmp", ["no such option; `directory DIR`"]),
    ("directory nowhere", ["/nowhere: no such folder"]), ("directory empty", ["/empty: no such folder"]),
    ("directory src", ["/src, then at their paths", "1 of 1 is found\n"]),
    ("list", ["/build/proj/lib/p.c\n", ">  6      int a = twice(3);\n"]),
    ("info source", [", found at ", "/src/lib/p.c\n", "looked in first: "]),
    ("nl", ["/build/proj/lib/p.c:7:5  int b = abs(twice(a));\n"]), ("sl", ["p.c:2  int y = x * 2;\n"]),
    ("rnl", ["p.c:7:5  int b = abs(twice(a));\n"]),
    ("rnl", ["p.c:6  int a = twice(3);\n"]), ("set directories old", ["/old, ", "1 of 1 is found"]),
    ("list 6,6", ["> 6  int old;\n"]),
    ("info source", ["/old/p.c\n"]),
    ("directory", ["looked for at their paths and beside the text; 0 of 1 is found\n",
                   "  /build/proj/lib/p.c isn't found"]),
    ("list", ["this is the text"]), ("dir old:src/lib", ["/old, ", "/src/lib, then", "1 of 1"]),
    ("dir src/lib", ["/src/lib, ", "/old, then"]), ("list 8,8", ["8      a = b + 1;"]), ("d", []),
]


def session_fault(program: str, text: str, lines: Lines, files: Mapping[str, str]) -> str | None:
    """What a session over a text shows wrong, or where its saved script leads wrong."""
    with tempfile.TemporaryDirectory(prefix="lowered-") as folder:
        file = pathlib.Path(folder) / "a.ssa"
        file.write_text(text)
        for name, content in files.items():
            (pathlib.Path(folder) / name).parent.mkdir(parents=True, exist_ok=True)
            (pathlib.Path(folder) / name).write_text(content)
        subprocess.run([sys.executable, str(LOWER), "--link", "--output", "out.ssa", "a.ssa"], cwd=folder, timeout=600,
                       stderr=subprocess.DEVNULL)
        # An entry that takes a number is given 1.
        words = ["1"] if "$main(w %n)" in text else []
        session = Held(program, "out.ssa", *words, folder=folder, lowered=("a.ssa",))
        session.read = Renaming(lowered_of(f"{folder}/out.ssa").renamed).told
        try:
            for line, wanted in lines:
                answer = session.do(line)
                absent = [each for each in wanted if each not in answer]
                if absent:
                    return f"{line!r} shows {answer!r} without {absent[0]!r}"
            return session.replayed_fault()
        except Silent as silence:
            return f"{silence}"
        finally:
            session.close()


# Constants that are stored are floats where the text says so.
CONSTANTS = """
export function w $main() {
@start
	%p =l alloc8 8
	%q =l alloc4 4
	stored d_2.5, %p
	stores s_0.1, %q
	%v =d loadd %p
	%i =w dtosi %v
	ret %i
}
"""
CONSTANTS_LINES: Lines = [
    ("c", ["done 2"]), ("why", ["[1] %i = 2"]), ("why 1", ["%i =w dtosi %v", "[1] %v = 2.5"]),
    ("why 1", ["%v =d loadd %p"]), ("why 1", ["stored d_2.5, %p"]), ("back", []), ("why w %q", ["stores s_0.1, %q"]),
]

# What writes bytes as they lie in memory: "a!c\n" by puts, "a!c" by fputs, "!c" by fwrite and by write, and "q".
OUTPUT = """
data $text = { b "abc", b 0 }
export function w $main() {
@start
	%mark =l add $text, 1
	storeb 33, %mark
	%n =w call $puts(l $text)
	%out =l loadl $stdout
	%k =w call $fputs(l $text, l %out)
	%w =l call $fwrite(l %mark, l 1, l 2, l %out)
	%v =l call $write(w 1, l %mark, l 2)
	%q =w call $putchar(w 113)
	ret %n
}
"""
STORED_MARK = ["stored by\n", "storeb 33, %mark"]
OUTPUT_LINES: Lines = [
    ("c", ["done 4"]), ("out", ['0  "a!c\\n"\n', '4  "a!c!c!cq"\n']),
    ("why out 1", ["by $puts.counted, called at\n", '[1] b $text+1 = 33 ("!")\n  [2] the call of $main']),
    ("why 1", STORED_MARK),
    ("why out 3", ["by $puts.counted, called at\n", "[1] the call of $main"]),
    ("why out 5", ["by $fputs, called at\n", "[1] b $text+1 = 33"]), ("why 1", STORED_MARK),
    ("why out 7", ["by $fwrite, called at\n", "[1] b $text+1 = 33"]),
    ("why out 10", ["by $write, called at\n", "[1] b $text+2 = 99"]), ("why 1", ["so since the start"]),
    ("why out 11", ["call $putchar(w 113)"]),
]

SESSIONS = {"constants": (CONSTANTS, CONSTANTS_LINES), "output": (OUTPUT, OUTPUT_LINES),
            "absent": (ABSENT, ABSENT_LINES), "writes": (WRITES, WRITES_LINES), "freed": (FREED, FREED_LINES),
            "left": (LEFT, LEFT_LINES), "nowhere": (NOWHERE, NOWHERE_LINES), "beyond": (BEYOND, BEYOND_LINES),
            "signal": (SIGNAL, SIGNAL_LINES),
            "floats": (FLOATS, FLOATS_LINES), "singles": (SINGLES, SINGLES_LINES), "called": (CALLED, CALLED_LINES),
            "chain of floats": (chain(OPERATIONS), CHAIN_LINES), "short names": (large(), LARGE_LINES),
            "places": (PLACES, PLACES_LINES), "elsewhere": (ELSEWHERE, ELSEWHERE_LINES)}

# The files beside the text, where they aren't its source alone.
FILES = {"elsewhere": ELSEWHERE_FILES}


def cases(program: str) -> list[tuple[str, Callable[[], str | None]]]:
    return [(f"lowered {name}", partial(session_fault, program, text, lines, FILES.get(name, {"p.c": SOURCE})))
            for name, (text, lines) in SESSIONS.items()]
