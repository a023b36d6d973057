"""The functions of the runtime: values worked out by hand, random use against Python, and the faults by their names."""
import random
import re

from .running import FOLDER, Results, Running, differ
from .telling import TELL, over_bytes, with_lists

STRINGS = TELL + """
data $a = { b "hello", b 0 }
data $b = { b "help", b 0 }
data $same = { b "hello\\0" }
data $high = { b "h\\377", b 0 }
data $to = { z 32 }
function w $sign(w %x) {
@start
	%up =w csgtw %x, 0
	%down =w csltw %x, 0
	%r =w sub %up, %down
	ret %r
}
export function w $main() {
@start
	%n =l call $strlen(l $a)
	call $tell.w(w %n)
	%c =w call $strcmp(l $a, l $b)
	%s =w call $sign(w %c)
	call $tell.w(w %s)
	%c =w call $strcmp(l $a, l $same)
	call $tell.w(w %c)
	%c =w call $strcmp(l $high, l $a)
	%s =w call $sign(w %c)
	call $tell.w(w %s)
	%c =w call $strncmp(l $a, l $b, l 3)
	call $tell.w(w %c)
	%c =w call $strncmp(l $a, l $b, l 4)
	%s =w call $sign(w %c)
	call $tell.w(w %s)
	%p =l call $strchr(l $a, w 108)
	%o =l sub %p, $a
	call $tell.w(w %o)
	%p =l call $strchr(l $a, w 122)
	call $tell.w(w %p)
	%p =l call $strchr(l $a, w 0)
	%o =l sub %p, $a
	call $tell.w(w %o)
	%p =l call $strcpy(l $to, l $a)
	%x =w call $puts(l %p)
	call $tell.w(w %x)
	%c =w call $memcmp(l $a, l $b, l 3)
	call $tell.w(w %c)
	%c =w call $memcmp(l $b, l $a, l 5)
	%s =w call $sign(w %c)
	call $tell.w(w %s)
	%p =l call $memset(l $to, w 65, l 11)
	%x =w call $puts(l $to)
	%w =l call $write(w 1, l $a, l 4)
	call $tell.w(w %w)
	%w =l call $write(w 2, l $a, l 0)
	call $tell.w(w %w)
	%x =w call $putchar(w 321)
	call $tell.w(w %x)
	call $exit(w 7)
	ret 0
}
"""
STRINGS_OUTPUT = "5 -1 0 1 0 -1 2 0 5 hello\n6 0 1 AAAAAAAAAAA\nhell4 0 A65 "


# What no other test calls: variadic functions by their lists, and functions of the system.
OTHERS = with_lists(TELL + """
data $f = { b "%d-%s|", b 0 }
data $sf = { b "%d %4s", b 0 }
data $in = { b "42 word", b 0 }
data $to = { z 64 }
data $word = { z 16 }
data $num = { z 8 }
data $place = { z 8 }
data $a = { b "abcdef", b 0 }
data $b = { b "abd", b 0 }
data $dig = { b " -900000000000x", b 0 }
data $vec = { l $a 3 $b 2 }
data $tv = { l 5 5 }
data $line = { z 8 }
data $size = { z 8 }
function w $say(l %fmt, ...) {
@start
	%c =w call $vprintf(l %fmt, l %list)
	%out =l loadl $stdout
	%c =w call $vfprintf(l %out, l %fmt, l %list)
	%d =w call $vsprintf(l $to, l %fmt, l %list)
	%x =w call $puts(l $to)
	%d =w call $vsnprintf(l $to, l 4, l %fmt, l %list)
	%dl =l extsw %d
	call $tell(l %dl)
	%x =w call $puts(l $to)
	%e =w call $vasprintf(l $place, l %fmt, l %list)
	%p =l loadl $place
	%x =w call $puts(l %p)
	call $free(l %p)
	ret %c
}
function w $take(l %text, l %fmt, ...) {
@start
	%c =w call $vsscanf(l %text, l %fmt, l %list)
	ret %c
}
function w $take.input(l %fmt, ...) {
@start
	%c =w call $vscanf(l %fmt, l %list)
	ret %c
}
function w $take.stream(l %fmt, ...) {
@start
	%in =l loadl $stdin
	%c =w call $vfscanf(l %in, l %fmt, l %list)
	ret %c
}
export function w $main() {
@start
	%c =w call $say(l $f, ..., w 7, l $b)
	%x =w call $take(l $in, l $sf, ..., l $num, l $word)
	%v =w loadw $num
	%vl =l extsw %v
	call $tell(l %vl)
	%x =w call $puts(l $word)
	%x =w call $take.input(l $sf, ..., l $num, l $word)
	%v =w loadw $num
	%vl =l extsw %v
	call $tell(l %vl)
	%x =w call $puts(l $word)
	%x =w call $take.stream(l $sf, ..., l $num, l $word)
	%v =w loadw $num
	%vl =l extsw %v
	call $tell(l %vl)
	%x =w call $puts(l $word)
	%in =l loadl $stdin
	%g =w call $getc(l %in)
	%gl =l extsw %g
	call $tell(l %gl)
	%d =l call $getdelim(l $line, l $size, w 59, l %in)
	call $tell(l %d)
	%p =l loadl $line
	%x =w call $puts(l %p)
	%x =w call $dprintf(w 1, l $f, ..., w 9, l $a)
	%q =l call $atoll(l $dig)
	call $tell(l %q)
	%p =l call $strndup(l $a, l 3)
	%x =w call $puts(l %p)
	%o =w call $strcoll(l $a, l $b)
	%o =w csltw %o, 0
	%ol =l extsw %o
	call $tell(l %ol)
	%w =l call $writev(w 1, l $vec, w 2)
	call $tell(l %w)
	%w =l call $syscall(l 1, ..., l 1, l $b, l 2)
	call $tell(l %w)
	%w =l call $syscall(l 20, ..., l 2, l $vec, l 1)
	call $tell(l %w)
	%i =w call $isatty(w 0)
	%il =l extsw %i
	call $tell(l %il)
	%i =w call $getpid()
	%il =l extsw %i
	call $tell(l %il)
	%i =w call $getppid()
	%il =l extsw %i
	call $tell(l %il)
	%t =w call $gettimeofday(l $tv, l 0)
	%t1 =l loadl $tv
	call $tell(l %t1)
	%t =w call $clock_gettime(w 0, l $tv)
	%t1 =l loadl $tv
	call $tell(l %t1)
	%k =l call $clock()
	call $tell(l %k)
	call $srandom(w 5)
	%k =l call $random()
	call $tell(l %k)
	%tab =l call $__ctype_b_loc()
	%tab1 =l loadl %tab
	%at =l add %tab1, 130
	%bits =w loaduh %at
	%bl =l extuw %bits
	call $tell(l %bl)
	%i =w call $kill(w 1, w 0)
	%il =l extsw %i
	call $tell(l %il)
	%i =w call $mprotect(l $a, l 1, w 0)
	%out =l loadl $stdout
	call $setbuf(l %out, l 0)
	%br =l call $sbrk(l 0)
	%more =l add %br, 100
	%i =w call $brk(l %more)
	%il =l extsw %i
	call $tell(l %il)
	storel 5, %br
	call $_Exit(w 3)
	hlt
}
""")
OTHERS_INPUT = "11 abcdefg 22 xyz!bytes;rest"
# The number of `random` is that of the GNU C library behind srandom(5), and 54536 is what its table of characters says
# of `A`.
OTHERS_OUTPUT = "7-abd|7-abd|7-abd|\n6 7-a\n7-abd|\n42 word\n11 abcd\n11 abcd\n101 16 fg 22 xyz!bytes;\n" \
    "9-abcdef|-900000000000 abc\n1 abcab5 ab2 abc3 0 1 0 0 0 0 590011675 54536 0 0 "


def others_fault(running: Running) -> str | None:
    lowered = running.lower({"a.ssa": OTHERS}, "--link", "--input", "in", beside={"in": OTHERS_INPUT})
    if lowered.status or lowered.errors:
        return f"status {lowered.status}: {lowered.errors!r}"
    run = running.run(lowered.text)
    return differ("end", "exit 3", run.end) or differ("output", OTHERS_OUTPUT, run.output)


# Functions that other C libraries have, by their manuals; the numbers of rand_r are those of the GNU C library.
SMALL = TELL + """
data $a = { b "abcdef", b 0 }
data $to = { z 32 }
data $p = { z 8 }
data $seed = { w 7 }
function $handler(w %s) {
@start
	call $tell.w(w %s)
	ret
}
export function w $main() {
@start
	%b =l call $signal(w 10, l $handler)
	call $tell(l %b)
	%r =w call $raise(w 10)
	call $tell.w(w %r)
	%b =l call $signal(w 10, l 1)
	%is =w ceql %b, $handler
	call $tell.w(w %is)
	%r =w call $raise(w 10)
	%r =w call $raise(w 17)
	%b =l call $signal(w 9, l 1)
	call $tell(l %b)
	%q =l call $memalign(l 64, l 10)
	%rest =l and %q, 63
	call $tell(l %rest)
	%u =l call $malloc_usable_size(l %q)
	call $tell(l %u)
	call $free(l %q)
	%e =w call $posix_memalign(l $p, l 24, l 5)
	call $tell.w(w %e)
	%e =w call $posix_memalign(l $p, l 4096, l 8)
	call $tell.w(w %e)
	%q =l loadl $p
	%rest =l and %q, 4095
	call $tell(l %rest)
	storel 77, %q
	%q =l call $reallocarray(l %q, l 10, l 10)
	%v =l loadl %q
	call $tell(l %v)
	%z =l call $reallocarray(l %q, l 4294967296, l 4294967296)
	call $tell(l %z)
	%n =l call $strlcpy(l $to, l $a, l 4)
	call $tell(l %n)
	%x =w call $puts(l $to)
	%n =l call $strlcat(l $to, l $a, l 6)
	call $tell(l %n)
	%x =w call $puts(l $to)
	%n =l call $strlcat(l $to, l $a, l 3)
	call $tell(l %n)
	%n =l call $strlcpy(l $to, l $a, l 0)
	call $tell(l %n)
	%n =l call $memccpy(l $to, l $a, w 99, l 6)
	%o =l sub %n, $to
	call $tell(l %o)
	%n =l call $memccpy(l $to, l $a, w 122, l 6)
	call $tell(l %n)
	%w =w call $ffs(w 48)
	call $tell.w(w %w)
	%w =w call $ffsl(l 0)
	call $tell.w(w %w)
	%w =w call $ffsll(l -9223372036854775808)
	call $tell.w(w %w)
	%w =w call $isascii(w 200)
	call $tell.w(w %w)
	%w =w call $toascii(w 200)
	call $tell.w(w %w)
	%w =w call $rand_r(l $seed)
	call $tell.w(w %w)
	%w =w call $rand_r(l $seed)
	call $tell.w(w %w)
	%n =l call $sysconf(w 30)
	call $tell(l %n)
	%n =l call $sysconf(w 5000)
	call $tell(l %n)
	%w =w call $nanosleep(l 0, l 0)
	call $tell.w(w %w)
	%n =l call $rindex(l $a, w 99)
	%o =l sub %n, $a
	call $tell(l %o)
	%r =w call $raise(w 15)
	ret 0
}
"""
SMALL_OUTPUT = "0 10 0 1 -1 0 16 22 0 0 77 0 6 abc\n9 abcab\n9 6 3 0 5 0 64 0 72 1187592820 153898277 4096 -1 0 2 "
# By the names that headers of C libraries give them, and the tables behind tolower and toupper.
ALIASES = TELL + """
data $t = { b "12 0x1f z", b 0 }
data $sf = { b "%d %i %c", b 0 }
data $a = { z 8 }
data $b = { z 8 }
data $c = { z 8 }
data $x = { b "ab", b 0 }
data $y = { b "ac", b 0 }
export function w $main() {
@start
	%n =w call $__isoc99_sscanf(l $t, l $sf, ..., l $a, l $b, l $c)
	call $tell.w(w %n)
	%v =w loadw $b
	call $tell.w(w %v)
	%v =l call $__isoc23_strtol(l $t, l $a, w 0)
	%w =w copy %v
	call $tell.w(w %w)
	%o =l loadl $stdout
	%r =w call $putc_unlocked(w 65, l %o)
	%r =w call $putchar_unlocked(w 66)
	%r =w call $bcmp(l $x, l $y, l 2)
	%s =w csltw %r, 0
	call $tell.w(w %s)
	%tab =l call $__ctype_toupper_loc()
	%p =l loadl %tab
	%at =l add %p, 388
	%v =w loadw %at
	call $tell.w(w %v)
	%tab =l call $__ctype_tolower_loc()
	%p =l loadl %tab
	%at =l add %p, 260
	%v =w loadw %at
	call $tell.w(w %v)
	%at =l sub %p, 4
	%v =w loadw %at
	call $tell.w(w %v)
	%at =l sub %p, 512
	%v =w loadw %at
	call $tell.w(w %v)
	ret 0
}
"""
# A text's own heap, whose blocks the runtime's functions don't know.
OWN_HEAP = """
data $next = { l $room }
data $room = { z 400 }
export function l $malloc(l %size) {
@start
	%block =l loadl $next
	%behind =l add %block, %size
	storel %behind, $next
	ret %block
}
export function $free(l %block) {
@start
	ret
}
export function w $main() {
@start
	%a =l call $malloc(l 8)
	%b =l call $aligned_alloc(l 64, l 8)
	call $free(l %b)
	ret 0
}
"""


def small_faults(running: Running) -> Results:
    for name, text, end, output in (("small", SMALL, "fault halted", SMALL_OUTPUT),
                                    ("other names", ALIASES, "done 0", "3 31 12 AB1 65 97 -1 128 "),
                                    ("a text's own heap", OWN_HEAP, "fault halted", "")):
        lowered = running.lower_here(text)
        if isinstance(lowered, str):
            yield f"runtime/{name}", lowered
        else:
            run = running.run(lowered.text)
            yield f"runtime/{name}", differ("end", end, run.end) or differ("output", output, run.output)
    quiet = SMALL.replace("\t%r =w call $raise(w 15)\n", "")
    yield "runtime/no suspicion in small ones", running.suspicion(quiet)


# The calls that Hare's compiler makes of its own runtime; a slice of two words grows to three.
HARE = TELL + """
data $text = { b "hello" }
data $one = { l $text 5 5 }
data $two = { l $text 4 5 }
data $vector = { l $text 2 $vector 3 }
export function w $main() {
@start
	%a =w call $rt.strcmp(l $one, l $two)
	call $tell.w(w %a)
	%b =w call $rt.strcmp(l $one, l $one)
	call $tell.w(w %b)
	%slice =l alloc8 24
	%length =l add %slice, 8
	%capacity =l add %slice, 16
	%p =l call $rt.malloc(l 8)
	storew 11, %p
	storel %p, %slice
	storel 3, %length
	storel 2, %capacity
	call $rt.ensure(l %slice, l 4)
	%q =l loadl %slice
	%c =w loadw %q
	call $tell.w(w %c)
	%d =w loadw %capacity
	call $tell.w(w %d)
	call $rt.unensure(l %slice, l 4)
	call $rt.memset(l %q, l 65, l 3)
	call $rt.memmove(l $text, l %q, l 2)
	%w =l call $rt.syscall3(l 1, l 1, l $text, l 5)
	%v =l call $rt.syscall3(l 20, l 1, l $vector, l 2)
	call $tell.w(w %v)
	%e =l call $rt.syscall3(l 16, l 1, l 0, l 0)
	call $tell.w(w %e)
	call $rt.free(l %q)
	%r =l call $rt.syscall1(l 60, l 3)
	ret 0
}
"""
# Behind that come three bytes of an address, which aren't told here.
HARE_OUTPUT = "0 1 11 4 AAlloAA"


def in_main(body: str) -> str:
    lines = "\n".join("\t" + line.strip() for line in body.strip().split("\n"))
    return f"export function w $main() {{\n@start\n{lines}\n\tret 0\n}}\n"


# What can't be done, and the function that halts.
FAULTS = [
    ("%p =l call $malloc(l 600000)", "$malloc.heap.is.full @start 0"),
    ("%r =l call $raise(w 6)", "$ended.by.signal @start 0"),
    ("%p =l call $malloc(l 8)\ncall $free(l %p)\ncall $free(l %p)", "$free.of.no.block.in.use @start 0"),
    ("%p =l alloc16 32\n%q =l add %p, 16\ncall $free(l %q)", "$free.of.no.block.in.use @start 0"),
    ("call $abort()", "$abort @start 0"),
    ("%r =w call $printf(l $n, ..., l 0)", "$printf.has.no.such.conversion @start 0"),
    ("%r =w call $wprintf(l $wide, ..., l 0)", "$printf.has.no.such.conversion @start 0"),
    ("%r =w call $printf(l $long, ..., l 0)", "$printf.has.no.long.double @start 0"),
    ("call $rt.abort_fixed(l $path, l 1, l 2, l 3)", "$rt.abort_fixed @start 3"),
]
# The wide text is `%n`.
FAULT_DATA = """data $n = { b "%k\\0" }
data $wide = { w 37 110 0 }
data $long = { b "%Lf\\0" }
data $path = { l $n 2 2 }
"""


def fault_fault(running: Running, body: str, place: str) -> str | None:
    lowered = running.lower_here(FAULT_DATA + in_main(body))
    if isinstance(lowered, str):
        return lowered
    run = running.run(lowered.text, "continue\nwhere\n")
    return differ("end", "fault halted", run.end) or differ("where", place, run.lines[4])


def copies_text(choice: random.Random, size: int) -> tuple[str, bytes]:
    """Random memcpy, memmove and memset on an object of bytes, and what it holds at the end."""
    memory = bytearray(choice.randrange(1, 256) for _ in range(size))
    body = []
    begin = " ".join(map(str, memory))
    for index in range(60):
        count = choice.choice((0, 1, 7, 8, 9, 15, 16, 17, choice.randrange(size // 2)))
        to, source = choice.randrange(size - count), choice.randrange(size - count)
        kind = choice.randrange(3)
        if kind == 0 and abs(to - source) < count:
            kind = 1
        body += [f"%t{index} =l add $m, {to}", f"%s{index} =l add $m, {source}"]
        if kind == 2:
            value = choice.randrange(1, 256)
            memory[to:to + count] = bytes([value]) * count
            body.append(f"%r{index} =l call $memset(l %t{index}, w {value}, l {count})")
        else:
            memory[to:to + count] = memory[source:source + count]
            body.append(f"%r{index} =l call ${'memmove' if kind else 'memcpy'}(l %t{index}, l %s{index}, l {count})")
    body.append(f"%w =l call $write(w 1, l $m, l {size})")
    return f"data $m = {{ b {begin} }}\n" + in_main("\n".join(body)), bytes(memory)


def copies_fault(running: Running, seed: int) -> str | None:
    text, wanted = copies_text(random.Random(seed), 200)
    lowered = running.lower_here(text)
    return lowered if isinstance(lowered, str) else \
        differ("memory", wanted.decode("latin-1"), running.run(lowered.text).output)


class HeapText:
    """Random malloc, calloc, realloc and free of 12 places, each block filled with its own byte, which is looked at
    before it goes; `total` is the sum of all bytes that are seen."""

    def __init__(self, seed: int):
        self.choice = random.Random(seed)
        self.body: list[str] = []
        self.sizes, self.values, self.total, self.made = [0] * 12, [0] * 12, 0, 0
        for _ in range(160):
            place = self.choice.randrange(12)
            if self.sizes[place] == 0:
                self.take(place)
            elif self.choice.random() < 0.5:
                self.give_back(place)
            else:
                self.change(place)

    def loaded(self, place: int) -> str:
        """The block of a place, as a temporary."""
        self.made += 1
        self.body += [f"%c{self.made} =l add $places, {8 * place}", f"%p{self.made} =l loadl %c{self.made}"]
        return f"%p{self.made}"

    def store(self, place: int, call: str) -> str:
        self.made += 1
        self.body += [f"%n{self.made} =l call {call}", f"%c{self.made} =l add $places, {8 * place}",
                      f"storel %n{self.made}, %c{self.made}"]
        return f"%n{self.made}"

    def fill(self, place: int, size: int) -> None:
        self.sizes[place], self.values[place] = size, self.choice.randrange(1, 256)
        block = self.loaded(place)
        self.made += 1
        self.body.append(f"%m{self.made} =l call $memset(l {block}, w {self.values[place]}, l {size})")

    def look(self, place: int, size: int) -> None:
        self.body.append(f"call $look(l {self.loaded(place)}, l {size})")
        self.total += size * self.values[place]

    def size(self) -> int:
        return self.choice.choice((1, 8, 16, 40, 100, 1000, 1024, 1025, 3000))

    def take(self, place: int) -> None:
        size = self.size()
        if self.choice.random() < 0.5:
            self.store(place, f"$malloc(l {size})")
        else:
            # What calloc gives is zero: it adds nothing to the sum.
            self.body.append(f"call $look(l {self.store(place, f'$calloc(l {size}, l 1)')}, l {size})")
        self.fill(place, size)

    def give_back(self, place: int) -> None:
        self.look(place, self.sizes[place])
        self.body.append(f"call $free(l {self.loaded(place)})")
        self.sizes[place] = 0

    def change(self, place: int) -> None:
        size = self.size()
        self.store(place, f"$realloc(l {self.loaded(place)}, l {size})")
        self.look(place, min(size, self.sizes[place]))
        self.fill(place, size)

    def text(self) -> str:
        end = ["%sum =l loadl $sum", "%end =w call $printf(l $f, ..., l %sum)"]
        return HEAP_FRONT + in_main("\n".join(self.body + end))


HEAP_FRONT = """
data $places = { z 96 }
data $sum = { l 0 }
data $f = { b "%ld\\0" }
""" + over_bytes("look", "%s =l loadl $sum\n\t%b =l extuw %byte\n\t%t =l add %s, %b\n\tstorel %t, $sum")


def heap_fault(running: Running, seed: int) -> str | None:
    heap = HeapText(seed)
    lowered = running.lower_here(heap.text())
    return lowered if isinstance(lowered, str) else differ("sum", str(heap.total), running.run(lowered.text).output)


def reuse_fault(running: Running) -> str | None:
    """Memory that is freed is given again: a thousand times 5,000 bytes fit."""
    text = """
export function w $main() {
@start
@loop
	%i =w phi @start 0, @loop %j
	%p =l call $malloc(l 5000)
	%q =l call $realloc(l %p, l 6000)
	call $free(l %q)
	%z =l call $calloc(l 4611686018427387904, l 8)
	%y =l call $malloc(l -1)
	%x =l or %z, %y
	%j =w add %i, 1
	%c =w csltw %j, 1000
	jnz %c, @loop, @end
@end
	ret %x
}
"""
    lowered = running.lower_here(text)
    return lowered if isinstance(lowered, str) else differ("end", "done 0", running.run(lowered.text).end)


def small_heap_fault(running: Running) -> str | None:
    """The heap is what the data of the program leaves."""
    text = "data $large = { z 900000 }\n" + in_main(
        "%p =l call $malloc(l 100000)\nstorel 1, $large\n%q =l call $malloc(l 1)")
    lowered = running.lower_here(text)
    if isinstance(lowered, str):
        return lowered
    heap = int(lowered.text.split("data $heap = align 4096 { z ")[1].split(" ")[0])
    return differ("end", "done 0", running.run(lowered.text).end) or \
        (None if 0 <= (1 << 20) - 900000 - heap < 3 * 4096 else f"the heap has {heap} bytes")


# A program has at most a thousand functions.
MOST_FUNCTIONS = 800
ADDING = "float.add.d"


def whole_programs() -> list[str]:
    """The texts of the runtime as programs, each text with those that define what it names, and one that adds."""
    texts = [path.read_text() for path in sorted((FOLDER / "runtime").glob("*.ssa"))]
    defined = {name: number for number, text in enumerate(texts)
               for name in re.findall(r"(?m)^(?:export )?(?:function|data)(?: [a-z]+)? \$([\w.]+)", text)}
    named = [{defined[name] for name in re.findall(r"\$([\w.]+)", text) if name in defined} for text in texts]
    whole = [reached(number, named) for number in range(len(texts))]
    programs, adding = [], whole[defined[ADDING]]
    found = adding
    for needed in whole:
        if sum(texts[number].count("function ") for number in found | needed) > MOST_FUNCTIONS:
            programs.append(found)
            found = adding
        found = found | needed
    return ["".join(texts[number] for number in sorted(each)) for each in (*programs, found)]


def reached(first: int, named: list[set[int]]) -> set[int]:
    """What is named, and what that names, and so on."""
    found: set[int] = set()
    left = [first]
    while left:
        number = left.pop()
        if number not in found:
            found.add(number)
            left += named[number]
    return found


def texts_fault(running: Running) -> str | None:
    """The texts of the runtime are texts of the language as they stand: 1.5 and 2.25 are 3.75."""
    words = ("4609434218613702656", "4612248968380809216", "--entry", ADDING)
    ends = (running.run(text, "continue\n", words).end for text in whole_programs())
    return next(filter(None, (differ("end", "done 4615626668101337088", end) for end in ends)), None)


def results(running: Running) -> Results:
    yield "runtime/texts", texts_fault(running)
    yield "runtime/others", others_fault(running)
    yield from small_faults(running)
    lowered = running.lower_here(STRINGS)
    if isinstance(lowered, str):
        yield "runtime/strings", lowered
    else:
        run = running.run(lowered.text)
        yield "runtime/strings", differ("output", STRINGS_OUTPUT, run.output) or differ("end", "exit 7", run.end)
    lowered = running.lower_here(HARE)
    if isinstance(lowered, str):
        yield "runtime/hare", lowered
    else:
        run = running.run(lowered.text)
        yield "runtime/hare", differ("output", HARE_OUTPUT, run.output[:16]) or \
            differ("end", "exit 3", run.end) or differ("count", "5 -25 ", run.output[-6:])
    for body, place in FAULTS:
        yield f"runtime/{place}", fault_fault(running, body, place)
    for seed in range(8):
        yield f"runtime/copies {seed}", copies_fault(running, seed)
        yield f"runtime/heap {seed}", heap_fault(running, seed)
    yield "runtime/reuse", reuse_fault(running)
    yield "runtime/a small heap", small_heap_fault(running)
