"""What programs use now and then of C and POSIX, beside the machine's own library: options with names, the environment,
random numbers of 48 bits, paths, names with numbers, arrays, messages, signals, locks, and what the system is asked."""
import ctypes
import struct

from .calls import Calls, batch, native_fault
from .running import Results, Running, differ
from .telling import OPTION_LETTER, TELL

# Options with names.

NAMES = (("all", 0, 97), ("add", 1, 2), ("adder", 1, 2), ("append", 2, 98), ("file", 1, 102), ("final", 0, 3),
         ("fine", 0, 3), ("verbose", 0, -1), ("x", 1, 120), ("long-name", 0, 300))
WORDS = (b"--all", b"--add=1", b"--add", b"--ad", b"--adde=", b"--append", b"--append=x", b"--app=", b"--f", b"--fi",
         b"--file", b"--file=name", b"--fin", b"--fina", b"--verb", b"--verbose=1", b"--none", b"--none=4", b"--",
         b"-a", b"-b", b"-bx", b"-c", b"-cx", b"-ab", b"-ac", b"-z", b"-", b"word", b"other", b"", b"-file", b"-fi",
         b"-x", b"-x=3", b"-long", b"-all", b"-verbose", b"-f", b"--x=", b"--=x", b"-az", b"-;", b"-:")
LETTERS = (b"ab::c:", b":ab::c:", b"+abc:", b"-abc:", b"-:ac:b", b"+:abc", b"", b":", b"abcf:")
TRY_OPTIONS = OPTION_LETTER + """
data $try.index = { w 0 }
data $try.flag = { w 0 }
data $try.form = { b "%d %d %d %d %d\\n", b 0 }
function $try(l %getopt, w %count, l %words, l %letters, l %options, w %told) {
@start
	storew 0, $optind
	storew %told, $opterr
@loop
	storew -1, $try.index
	%found =w call %getopt(w %count, l %words, l %letters, l %options, l $try.index)
	%argument =l loadl $optarg
	call $tell.text(l %argument)
	%index =w loadw $optind
	%letter =w call $option.letter(w %found)
	%which =w loadw $try.index
	%flag =w loadw $try.flag
	%c =w call $printf(l $try.form, ..., w %found, w %index, w %letter, w %which, w %flag)
	%is.end =w ceqw %found, -1
	jnz %is.end, @end, @loop
@end
	%at =l copy %words
@word
	%text =l loadl %at
	jnz %text, @more, @done
@more
	call $tell.text(l %text)
	%at =l add %at, 8
	jmp @word
@done
	%c =w call $putchar(w 10)
	ret
}
"""


def options(calls: Calls) -> None:
    calls.functions += TRY_OPTIONS
    names = ", ".join(f"l {calls.text(name.encode())}, w {kind} 0, l {'$try.flag' if value < 0 else 0}, w {value} 0"
                      for name, kind, value in NAMES)
    table = calls.room(0, names + ", l 0, w 0 0, l 0, w 0 0")
    for number in range(250):
        words = [b"name", *(calls.choice.choice(WORDS) for _ in range(calls.choice.randrange(7)))]
        given = calls.room(0, ", ".join(f"l {calls.text(word)}" for word in words) + ", l 0")
        name = ("getopt_long", "getopt_long_only")[number % 2]
        calls.line(f"call $try(l ${name}, w {len(words)}, l {given}, l {calls.text(calls.choice.choice(LETTERS))}, "
                   f"l {table}, w {int(calls.choice.random() < 0.6)})")


# The environment.

def environment(calls: Calls) -> None:
    choice = calls.choice
    calls.word("clearenv")
    names = [calls.text(name) for name in (b"A", b"B", b"AB", b"LONG_NAME", b"", b"A=B", b"A=")]
    values = [calls.text(value) for value in (b"", b"1", b"x=y", b"a longer value")]
    own = [calls.text(value) for value in (b"A=put", b"PUT=", b"B=x=y", b"LONG_NAME", b"NONE")]
    for _ in range(150):
        name, kind = choice.choice(names), choice.random()
        if kind < 0.5:
            calls.word("setenv", f"l {name}", f"l {choice.choice(values)}", f"w {choice.randrange(2)}")
        elif kind < 0.7:
            calls.word("unsetenv", f"l {name}")
        else:
            calls.word("putenv", f"l {choice.choice(own)}")
        calls.error()
        for asked in (*names[:5], own[1]):
            calls.said("getenv", f"l {asked}")
    number = calls.named()
    calls.line(f"%e{number} =l loadl $environ")
    calls.line(f"%f{number} =l loadl %e{number}")
    calls.show(f"%f{number}")


# Random numbers.

def told_double(calls: Calls, name: str, *arguments: str) -> None:
    """Calls and says the bits of a double."""
    result = calls.call(name, "d", *arguments)
    calls.line(f"%b{result[1:]} =l cast {result}")
    calls.plain("tell", f"l %b{result[1:]}")


def numbers(calls: Calls) -> None:
    choice = calls.choice
    for seed in (None, 0, 1, -1, 2 ** 31, 123456789, 2 ** 40 + 3):
        if seed is not None:
            calls.plain("srand48", f"l {seed}")
        for _ in range(8):
            told_double(calls, "drand48")
            calls.long("lrand48")
            calls.long("mrand48")
    state = calls.room(0, "h 1 2 65535 4")
    for round_number in range(6):
        told_double(calls, "erand48", f"l {state}")
        calls.long("nrand48", f"l {state}")
        calls.long("jrand48", f"l {state}")
        calls.bytes(state, 8)
        words = " ".join(str(choice.randrange(65536)) for _ in range(8))
        if round_number % 3 == 2:
            calls.plain("lcong48", f"l {calls.room(0, 'h ' + words)}")
        else:
            calls.bytes(calls.call("seed48", "l", f"l {calls.room(0, 'h ' + words)}"), 6)
        calls.long("lrand48")


# Paths, texts, arrays.

def texts(calls: Calls) -> None:
    choice = calls.choice
    for path in (b"", b".", b"..", b"/", b"//", b"///", b"a", b"a/", b"/a", b"//a", b"///a", b"a/b", b"a//b", b"/a/b/",
                 b"a//", b"/a//", b"//a//b//", b"./a", b"a/b/c/d", b"/a/", b"//a/", b"a///b"):
        for name in ("__xpg_basename", "dirname"):
            place = calls.text(path)
            calls.said(name, f"l {place}")
            calls.show(place)
    for name in ("__xpg_basename", "dirname"):
        calls.said(name, "l 0")
    letters = (b"a", b"0", b"0", b"1", b"2", b"9", b".", b"00", b"\xe9")
    for _ in range(150):
        begin = b"".join(choice.choice(letters) for _ in range(choice.randrange(4)))
        one, other = (begin + b"".join(choice.choice(letters) for _ in range(choice.randrange(4))) for _ in range(2))
        calls.sign("strverscmp", f"l {calls.text(one)}", f"l {calls.text(other)}")
    place = calls.text(b"some bytes")
    for byte in (b"s", b"e", b"y", b"\0"):
        calls.place(place, "rawmemchr", f"l {place}", f"w {byte[0] + 256}")
    calls.line(f"%behind =l add {place}, 2")
    calls.plain("bcopy", f"l {place}", "l %behind", "l 5")
    calls.show(place)
    for signal in (-1, 0, 1, 2, 6, 9, 11, 15, 19, 31, 32, 33, 34, 40, 64, 65, 1000):
        calls.said("strsignal", f"w {signal}")
    for error in (0, 1, 2, 34, 133, 134, 5000, -1):
        for size in (0, 1, 5, 14, 40):
            buffer = calls.text(b"before")
            room = calls.room(64)
            calls.said("strerror_r", f"w {error}", f"l {buffer if size < 6 else room}", f"l {min(size, 64)}")
            calls.word("__xpg_strerror_r", f"w {error}", f"l {room}", f"l {size}")
            calls.show(room)
    for number in (0, 1, 255, 256, 0x12345678, 0xFFFFFFFF, 0x80000001):
        for name in ("htonl", "ntohl"):
            calls.word(name, f"w {number}")
        for name in ("htons", "ntohs"):
            calls.word(name, f"w {number & 0xFFFF}")
    for text in (b"", b"1", b"0x7f", b"1x", b"-1", b"99999999999999999999", b"_", b"017"):
        for name, kind in (("nan", "d"), ("nanf", "s")):
            result = calls.call(name, kind, f"l {calls.text(text)}")
            calls.line(f"%b{result[1:]} ={'l' if kind == 'd' else 'w'} cast {result}")
            calls.plain("tell" if kind == "d" else "tell.w", f"{'l' if kind == 'd' else 'w'} %b{result[1:]}")


DOUBLES = (0, 1 << 63, 1, 0xFFFFFFFFFFFFF, 0x10000000000000, 0x3FF8 << 48, 0xBFF8 << 48, 0x7FEFFFFFFFFFFFFF,
           0x7FF0 << 48, 0xFFF0 << 48, 0x7FF8 << 48, 0xFFF8 << 48, (0x7FF0 << 48) + 1, (1 << 63) + 1)
SINGLES = (0, 1 << 31, 1, 0x7FFFFF, 0x800000, 0x3FC00000, 0xBFC00000, 0x7F7FFFFF, 0x7F800000, 0xFF800000, 0x7FC00000,
           0xFFC00000, 0x80000001)


def kinds(calls: Calls) -> None:
    """What the macros of math.h ask of numbers."""
    for cls, end, values in (("d", "", DOUBLES), ("s", "f", SINGLES)):
        for bits in values:
            number = f"%x{calls.named()}"
            calls.line(f"{number} ={cls} cast {bits}")
            for name in ("__fpclassify", "isinf"):
                calls.word(name + end, f"{cls} {number}")
            for name in ("__signbit", "isnan", "finite", "__isnan", "__isinf", "__finite"):
                calls.truth(name + end, f"{cls} {number}")


COMPARE = """
data $asked = { w 0 }
function w $compare(l %a, l %b) {
@start
	%x =w loadsh %a
	%y =w loadsh %b
	%r =w sub %x, %y
	ret %r
}
function w $compare.with(l %a, l %b, l %argument) {
@start
	%n =w loadw %argument
	%m =w add %n, 1
	storew %m, %argument
	%r =w call $compare(l %b, l %a)
	ret %r
}
"""


def arrays(calls: Calls) -> None:
    choice = calls.choice
    calls.functions += COMPARE
    for _ in range(20):
        count = choice.randrange(9)
        members = calls.room(0, "h " + " ".join(str(choice.randrange(-9, 10)) for _ in range(12)))
        number = calls.room(0, f"l {count}")
        for _ in range(3):
            key = calls.room(0, f"h {choice.randrange(-9, 10)}")
            for name in ("lfind", "lsearch"):
                calls.place(members, name, f"l {key}", f"l {members}", f"l {number}", "l 2", "l $compare")
        calls.bytes(number, 8)
        calls.plain("qsort_r", f"l {members}", f"l {count}", "l 2", "l $compare.with", "l $asked")
        calls.bytes(members, 24)
        calls.bytes("$asked", 4)


# Ends and messages.

ENDS = """
data $end.form = { b "end %d\\n", b 0 }
function $at.end() {
@start
	%c =w call $printf(l $end.form, ..., w 1)
	ret
}
function $at.quick() {
@start
	%c =w call $printf(l $end.form, ..., w 2)
	ret
}
function $at.quick.first() {
@start
	%c =w call $printf(l $end.form, ..., w 3)
	ret
}
"""
ENDING = {"quick_exit": ["w 7"], "err": ["w 3", "l {form}, ..., w 5, l {text}"], "errx": ["w 4", "l 0, ..., w 5"],
          "exit": ["w 9"]}


def ending(calls: Calls, name: str) -> None:
    """Messages, and an end by a function."""
    calls.functions += ENDS
    form, text = calls.text(b"<%d %s>"), calls.text(b"text")
    for error in (0, 2, 5000):
        for warn in ("warn", "warnx"):
            number = calls.named()
            calls.line(f"%e{number} =l call $__errno_location()")
            calls.line(f"storew {error}, %e{number}")
            calls.line(f"call ${warn}(l {form}, ..., w {error}, l {text})")
            calls.line(f"call ${warn}(l 0, ...)")
            calls.error()
        calls.line(f"call $error(w 0, w {error}, l {form}, ..., w {error}, l {text})")
    for data in ("program_invocation_short_name", "__progname"):
        number = calls.named()
        calls.line(f"%n{number} =l loadl ${data}")
        calls.show(f"%n{number}")
    calls.word("atexit", "l $at.end")
    calls.word("at_quick_exit", "l $at.quick")
    calls.word("at_quick_exit", "l $at.quick.first")
    arguments = ", ".join(ENDING[name]).format(form=form, text=text)
    calls.line(f"call ${name}({arguments})")


# Signals, and locks.

SIGNALS = """
function $handler(w %signal) {
@start
	call $tell.w(w %signal)
	ret
}
function $handler.told(w %signal, l %information, l %context) {
@start
	call $tell.w(w %signal)
	call $tell.bytes(l %information, l 4)
	ret
}
"""


def signals(calls: Calls) -> None:
    calls.functions += SIGNALS
    one, other, old = calls.room(128), calls.room(128), calls.room(152)
    for name in ("sigemptyset", "sigfillset"):
        calls.word(name, f"l {other}")
        calls.bytes(other, 8)
    calls.word("sigemptyset", f"l {one}")
    for signal in (10, 12, 64, 0, 65, -1, 32, 33):
        calls.word("sigaddset", f"l {one}", f"w {signal}")
        calls.word("sigdelset", f"l {other}", f"w {signal}")
        calls.word("sigismember", f"l {other}", f"w {signal}")
        calls.error()
    calls.bytes(one, 8)
    calls.bytes(other, 8)
    for handler, flags in (("$handler", 0), ("$handler.told", 4), ("$handler", 0x40000000), ("1", 0)):
        new = calls.room(0, f"l {handler} 3, z 120, w {flags} 0, l 0")
        for signal in (10, 12, 9, 19, 0, 65, 32):
            calls.word("sigaction", f"w {signal}", f"l {new}", f"l {old}")
            calls.error()
            calls.word("sigaction", f"w {signal}", "l 0", f"l {old}")
            calls.error()
        calls.word("raise", "w 10")
        calls.word("sigprocmask", "w 0", f"l {one}", "l 0")
        for signal in (12, 10, 10):
            calls.word("raise", f"w {signal}")
        calls.word("sigpending", f"l {other}")
        calls.bytes(other, 8)
        calls.word("sigprocmask", "w 1", f"l {one}", f"l {other}")
        calls.bytes(other, 8)
        calls.word("sigprocmask", "w 9", f"l {one}", f"l {other}")
        calls.error()
        calls.word("sigprocmask", "w 9", "l 0", f"l {other}")
        calls.bytes(other, 8)
    once = calls.room(0, "l $handler 0, z 120, w 2147483648 0, l 0")
    calls.word("sigaction", "w 10", f"l {once}", "l 0")
    calls.word("raise", "w 10")
    place = calls.call("signal", "l", "w 10", "l $handler")
    calls.plain("tell", f"l {place}")
    calls.word("raise", "w 10")


RUNS_ONCE = """
function $once() {
@start
	call $tell.w(w 99)
	ret
}
"""


def locks(calls: Calls) -> None:
    calls.functions += RUNS_ONCE
    kind = calls.room(8)
    for number in range(3):
        lock = calls.room(40)
        calls.word("pthread_mutexattr_init", f"l {kind}")
        calls.word("pthread_mutexattr_settype", f"l {kind}", f"w {number}")
        calls.word("pthread_mutexattr_settype", f"l {kind}", "w 9")
        calls.word("pthread_mutex_init", f"l {lock}", f"l {kind if number else 0}")
        calls.word("pthread_mutex_lock", f"l {lock}")
        calls.word("pthread_mutex_trylock", f"l {lock}")
        if number:
            calls.word("pthread_mutex_lock", f"l {lock}")
        for _ in range(3):
            if number:
                calls.word("pthread_mutex_unlock", f"l {lock}")
        calls.word("pthread_mutex_trylock", f"l {lock}")
        calls.word("pthread_mutex_unlock", f"l {lock}")
        calls.word("pthread_mutex_destroy", f"l {lock}")
    control = calls.room(8)
    for _ in range(2):
        calls.word("pthread_once", f"l {control}", "l $once")
    keys = [calls.room(8) for _ in range(4)]
    for key in keys:
        calls.word("pthread_key_create", f"l {key}", "l 0")
        calls.bytes(key, 4)
    for number, key in enumerate(keys):
        value = f"%k{calls.named()}"
        calls.line(f"{value} =w loadw {key}")
        calls.word("pthread_setspecific", f"w {value}", f"l {number + 1}")
        calls.long("pthread_getspecific", f"w {value}")
        calls.word("pthread_key_delete", f"w {value}")
        calls.word("pthread_key_delete", f"w {value}")
        calls.long("pthread_getspecific", f"w {value}")
        calls.word("pthread_setspecific", f"w {value}", "l 3")
    calls.long("pthread_getspecific", "w 100000")
    one = calls.call("pthread_self", "l")
    calls.truth("pthread_equal", f"l {one}", f"l {one}")
    calls.word("pthread_cond_signal", f"l {calls.room(48)}")


def other_locks(calls: Calls) -> None:
    """Locks for readers and a writer, spin locks and semaphores, as far as they don't wait."""
    lock, spin, semaphore, value = calls.room(56), calls.room(4), calls.room(32), calls.room(4)
    calls.word("pthread_rwlock_init", f"l {lock}", "l 0")
    for name in ("tryrdlock", "rdlock", "trywrlock", "unlock", "trywrlock", "unlock", "trywrlock", "trywrlock",
                 "wrlock", "rdlock", "tryrdlock", "unlock", "rdlock", "unlock", "wrlock", "unlock", "destroy"):
        calls.word(f"pthread_rwlock_{name}", f"l {lock}")
    calls.word("pthread_spin_init", f"l {spin}", "w 0")
    for name in ("lock", "trylock", "unlock", "trylock", "unlock", "destroy"):
        calls.word(f"pthread_spin_{name}", f"l {spin}")
    for first in (0, 2, 0x7FFFFFFF, 0x80000000):
        calls.word("sem_init", f"l {semaphore}", "w 0", f"w {first}")
        calls.error()
        for name in ("post", "trywait", "trywait", "post", "wait", "trywait", "trywait", "trywait", "post"):
            calls.word(f"sem_{name}", f"l {semaphore}")
            calls.error()
            calls.word("sem_getvalue", f"l {semaphore}", f"l {value}")
            calls.bytes(value, 4)
    calls.word("sem_destroy", f"l {semaphore}")
    attributes = calls.room(56)
    calls.word("pthread_attr_init", f"l {attributes}")
    for name, arguments in (("setdetachstate", (0, 1, 2, -1)), ("setstacksize", (0, 16383, 16384, 1 << 20))):
        for argument in arguments:
            cls = "l" if name == "setstacksize" else "w"
            calls.word(f"pthread_attr_{name}", f"l {attributes}", f"{cls} {argument}")
    calls.word("pthread_attr_destroy", f"l {attributes}")


def locks_of_c(calls: Calls) -> None:
    calls.functions += RUNS_ONCE
    for kind in (0, 1):
        lock = calls.room(40)
        calls.word("mtx_init", f"l {lock}", f"w {kind}")
        calls.word("mtx_lock", f"l {lock}")
        calls.word("mtx_trylock", f"l {lock}")
        for _ in range(1 + kind):
            calls.word("mtx_unlock", f"l {lock}")
        calls.word("mtx_trylock", f"l {lock}")
        calls.word("mtx_unlock", f"l {lock}")
        calls.plain("mtx_destroy", f"l {lock}")
    control, key = calls.room(8), calls.room(8)
    for _ in range(2):
        calls.plain("call_once", f"l {control}", "l $once")
    calls.word("tss_create", f"l {key}", "l 0")
    calls.line(f"%key =w loadw {key}")
    calls.word("tss_set", "w %key", "l 77")
    calls.long("tss_get", "w %key")
    calls.plain("tss_delete", "w %key")
    calls.word("tss_set", "w %key", "l 78")
    calls.long("tss_get", "w %key")
    one = calls.call("thrd_current", "l")
    calls.truth("thrd_equal", f"l {one}", f"l {one}")
    condition = calls.room(48)
    for name in ("cnd_init", "cnd_signal", "cnd_broadcast"):
        calls.word(name, f"l {condition}")
    calls.plain("thrd_yield")


# Trees, lists, streams, and functions that are made of others.

IN_TREES = """
function w $in.order(l %a, l %b) {
@start
	%x =w loadw %a
	%y =w loadw %b
	%r =w sub %x, %y
	ret %r
}
function $visit(l %node, w %when, w %depth) {
@start
	%low =w sub %when, 1
	%is.first =w culew %low, 0
	%is.leaf =w ceqw %when, 3
	%is.wanted =w or %is.first, %is.leaf
	jnz %is.wanted, @wanted, @end
@wanted
	%key =l loadl %node
	%number =w loadw %key
	call $tell.w(w %number)
@end
	ret
}
function $given.back(l %key) {
@start
	%count =w loadw $given.back.count
	%count =w add %count, 1
	storew %count, $given.back.count
	ret
}
data $given.back.count = { w 0 }
"""


def trees(calls: Calls) -> None:
    """Keys go in, are found and go out, in a random order; a walk tells them in theirs."""
    calls.functions += IN_TREES
    choice = calls.choice
    for count in (0, 1, 2, 7, 20):
        root = calls.room(0, "l 0")
        numbers_in = [choice.randrange(30) for _ in range(count)]
        keys = {number: calls.room(0, f"w {number}") for number in range(-1, 31)}
        for number in numbers_in:
            node = calls.call("tsearch", "l", f"l {keys[number]}", f"l {root}", "l $in.order")
            calls.kept(keys[number], node)
        for number in [*numbers_in[:5], -1, 30, 15]:
            calls.truth_of("tfind", f"l {keys[number]}", f"l {root}", "l $in.order")
        for number in [*choice.sample(numbers_in, len(numbers_in) // 2), -1, *numbers_in[:2]]:
            calls.truth_of("tdelete", f"l {keys[number]}", f"l {root}", "l $in.order")
            calls.line(f"%n{calls.named()} =l loadl {root}")
            calls.plain("twalk", f"l %n{calls.made}", "l $visit")
        calls.line(f"%n{calls.named()} =l loadl {root}")
        calls.plain("tdestroy", f"l %n{calls.made}", "l $given.back")
        calls.bytes("$given.back.count", 4)
    for name in ("tsearch", "tfind", "tdelete"):
        calls.truth_of(name, f"l {calls.room(8)}", "l 0", "l $in.order")
    calls.plain("twalk", "l 0", "l $visit")


def lists(calls: Calls) -> None:
    elements = [calls.room(16, "l 7 7") for _ in range(4)]
    calls.plain("insque", f"l {elements[0]}", "l 0")
    for one, before in ((1, 0), (2, 0), (3, 1)):
        calls.plain("insque", f"l {elements[one]}", f"l {elements[before]}")
    for removed in (None, 2, 3, 0):
        if removed is not None:
            calls.plain("remque", f"l {elements[removed]}")
        for element in elements:
            for offset in (0, 8):
                calls.line(f"%p{calls.named()} =l add {element}, {offset}")
                calls.line(f"%q{calls.made} =l loadl %p{calls.made}")
                for number, other in enumerate(elements):
                    calls.line(f"%e{calls.made}.{number} =w ceql %q{calls.made}, {other}")
                    calls.plain("tell.w", f"w %e{calls.made}.{number}")


def made_of_others(calls: Calls) -> None:
    """sincos gives what sin and cos do, and lgamma_r what lgamma does; streams have buffers and locks."""
    choice = calls.choice
    for cls, end, size in (("d", "", 8), ("s", "f", 4)):
        sine, cosine = calls.room(size), calls.room(size)
        for x in (0.0, -0.5, 1.0, 3.0, 100.5, -7.25, choice.randrange(1000) / 8):
            calls.plain(f"sincos{end}", f"{cls} {cls}_{x}", f"l {sine}", f"l {cosine}")
            calls.plain(f"lgamma{end}_r" if not end else "lgammaf_r", f"{cls} {cls}_{x}", f"l {calls.room(4)}")
            for name, place in (("sin", sine), ("cos", cosine)):
                number = calls.call(name + end, cls, f"{cls} {cls}_{x}")
                calls.line(f"%o{number[1:]} ={cls} load{cls} {place}")
                calls.line(f"%s{number[1:]} =w ceq{cls} {number}, %o{number[1:]}")
                calls.plain("tell.w", f"w %s{number[1:]}")
            if x != 0:
                sign = calls.room(4)
                number = calls.call("lgammaf_r" if end else "lgamma_r", cls, f"{cls} {cls}_{x}", f"l {sign}")
                calls.bytes(sign, 4)
                other = calls.call(f"gamma{end}", cls, f"{cls} {cls}_{x}")
                calls.line(f"%s{number[1:]} =w ceq{cls} {number}, {other}")
                calls.plain("tell.w", f"w %s{number[1:]}")
    for x in (0.5, 1.5, 2.5, -0.5, -1.5, 1e300, 0.49999999999999994):
        number = calls.call("roundeven", "d", f"d d_{x!r}")
        calls.line(f"%b{number[1:]} =l cast {number}")
        calls.plain("tell", f"l %b{number[1:]}")
    stream = f"%f{calls.named()}"
    calls.line(f"{stream} =l loadl $stdout")
    for name in ("flockfile", "setlinebuf", "funlockfile"):
        calls.plain(name, f"l {stream}")
    calls.word("ftrylockfile", f"l {stream}")
    calls.long("__ctype_get_mb_cur_max")


GROUPS = {"trees": trees, "lists": lists, "made of others": made_of_others, "options": options,
          "environment": environment, "numbers": numbers, "texts": texts, "kinds": kinds, "arrays": arrays,
          "signals": signals, "locks": locks, "other locks": other_locks, "locks of C": locks_of_c}


# What has no equal in native code: the answers of a system that isn't there.

def alone(calls: Calls) -> None:
    for name in ("getuid", "geteuid", "getgid", "getegid", "fegetround"):
        calls.word(name)
    calls.word("fesetround", "w 0")
    calls.word("fesetround", "w 1024")
    for name in ("feclearexcept", "fetestexcept", "feraiseexcept"):
        calls.word(name, "w 61")
    calls.word("system", "l 0")
    calls.word("system", f"l {calls.text(b'ls')}")
    calls.said("tmpnam", "l 0")
    calls.said("tmpnam", f"l {calls.room(20)}")
    calls.word("pthread_create", "l 0", "l 0", "l 0", "l 0")
    calls.said("getenv", f"l {calls.text(b'PATH')}")
    times = calls.room(0, "l -1 -1 -1 -1, z 120")
    calls.word("getrusage", "w 0", f"l {times}")
    calls.bytes(times, 16)
    calls.word("getrusage", "w 2", f"l {times}")
    calls.long("times", f"l {times}")
    calls.word("clock_getres", "w 0", f"l {times}")
    calls.bytes(times, 16)
    calls.word("pthread_join", "l 1", "l 0")
    calls.word("pthread_detach", "l 1")
    calls.word("alarm", "w 5")
    calls.word("sched_yield")
    calls.word("gettid")


ALONE_OUTPUT = ("0 0 0 0 0 0 1 0 0 0 0 -1 [/tmp/file000000] [/tmp/file000001] 11 none "
                f"0 {'00' * 16} -1 0 0 {'00' * 8}01{'00' * 7} 3 3 0 0 1 ")


# Powers of ten, as Python reads their decimals.

def powers_fault(running: Running) -> str | None:
    wholes = [*range(-330, 312, 7), *range(-3, 25)]
    lines, wanted = ["export function w $main() {", "@start"], []
    library = ctypes.CDLL(None)
    library.strtof.restype = ctypes.c_float
    for index, whole in enumerate(wholes):
        lines += [f"\t%d{index} =d call $exp10(d d_{whole})", f"\t%l{index} =l cast %d{index}",
                  f"\tcall $tell(l %l{index})", f"\t%s{index} =s call $exp10f(s s_{whole})",
                  f"\t%w{index} =w cast %s{index}", f"\tcall $tell.w(w %w{index})"]
        single = library.strtof(f"1e{whole}".encode(), None)
        wanted += [struct.unpack("<q", struct.pack("<d", float(f"1e{whole}")))[0],
                   struct.unpack("<i", struct.pack("<f", single))[0]]
    lowered = running.lower_here(TELL + "\n".join(lines + ["\tret 0", "}"]) + "\n")
    return lowered if isinstance(lowered, str) else \
        differ("powers", wanted, [int(word) for word in running.run(lowered.text).output.split()])


# A line of the input without bounds.
GETS = """
data $line = { z 64 }
data $form = { b "[%s]", b 0 }
export function w $main() {
@start
	%told =l call $gets(l $line)
	%is.line =w ceql %told, $line
	jnz %is.line, @line, @end
@line
	%p =w call $printf(l $form, ..., l $line)
	jmp @start.again
@start.again
	%told =l call $gets(l $line)
	%is.line =w ceql %told, $line
	jnz %is.line, @line, @end
@end
	ret 0
}
"""


def gets_fault(running: Running) -> str | None:
    lowered = running.lower({"a.ssa": GETS}, "--link", "--input", "input", beside={"input": "one\n\nlast"})
    return differ("errors", "", lowered.errors) or differ("output", "[one][][last]", running.run(lowered.text).output)


def alone_fault(running: Running) -> str | None:
    lowered = running.lower_here(batch(alone))
    return lowered if isinstance(lowered, str) else differ("output", ALONE_OUTPUT, running.run(lowered.text).output)


# A program's own function of such a name stays, also where it calls what is nowhere.
OWN_ERROR = """
data $form = { b "own %s\\n", b 0 }
data $word = { b "error", b 0 }
export function $error(l %text) {
@start
	%c =w call $printf(l $form, ..., l %text)
	jnz %c, @end, @lost
@lost
	call $nowhere()
@end
	ret
}
export function w $main() {
@start
	call $error(l $word)
	ret 0
}
"""


# Messages by a list of arguments, and a quotient that is given as an aggregate.
LISTS = TELL + """
type :longs = { l, l }
data $form = { b "%d %s", b 0 }
data $word = { b "word", b 0 }
function $told(l %form, ...) {
@start
	%list =l alloc8 24
	vastart %list
	call $vwarn(l %form, l %list)
	vastart %list
	call $vwarnx(l %form, l %list)
	call $vwarn(l 0, l %list)
	ret
}
function $ended(w %status, l %form, ...) {
@start
	%list =l alloc8 24
	vastart %list
	%e =l call $__errno_location()
	storew 2, %e
	call $FUNCTION(w %status, l %form, l %list)
	ret
}
export function w $main() {
@start
	%p =:longs call $imaxdiv(l -17, l 5)
	%q =l loadl %p
	call $tell(l %q)
	%at =l add %p, 8
	%q =l loadl %at
	call $tell(l %q)
	%c =w call $putchar(w 10)
	call $told(l $form, ..., w 3, l $word)
	call $ended(w 6, l $form, ..., w 4, l $word)
	ret 0
}
"""
LISTS_OUTPUT = "-3 -2 \na: 3 word: Success\na: 3 word\na: Success\na: 4 word"


def lists_fault(running: Running, name: str) -> str | None:
    lowered = running.lower_here(LISTS.replace("FUNCTION", name))
    if isinstance(lowered, str):
        return lowered
    run = running.run(lowered.text)
    behind = ": No such file or directory\n" if name == "verr" else "\n"
    return differ("output", LISTS_OUTPUT + behind, run.output) or differ("end", "exit 6", run.end)


def own_error_fault(running: Running) -> str | None:
    lowered = running.lower_here(OWN_ERROR)
    return lowered if isinstance(lowered, str) else differ("output", "own error\n", running.run(lowered.text).output)


def small(calls: Calls) -> None:
    """A little of all that has no batch of its own here."""
    arrays(calls)
    alone(calls)
    numbers(calls)
    form = calls.text(b"%d")
    calls.line(f"call $warn(l {form}, ..., w 3)")
    calls.said("strsignal", "w 40")
    calls.said("__xpg_basename", f"l {calls.text(b'a/b/')}")
    calls.said("dirname", f"l {calls.text(b'a/b/')}")
    calls.sign("strverscmp", f"l {calls.text(b'a10')}", f"l {calls.text(b'a9')}")


def results(running: Running) -> Results:
    for name, make in GROUPS.items():
        yield f"rare/{name}", native_fault(running, batch(make))
    for name in ENDING:
        calls = Calls()
        ending(calls, name)
        yield f"rare/{name}", native_fault(running, calls.written())
    yield "rare/alone", alone_fault(running)
    yield "rare/powers of ten", powers_fault(running)
    yield "rare/gets", gets_fault(running)
    for name in ("verr", "verrx"):
        yield f"rare/{name}", lists_fault(running, name)
    yield "rare/a program's own error", own_error_fault(running)
    for name, make in (("small ones", small), ("options", options), ("environment", environment), ("signals", signals),
                       ("locks", locks)):
        yield f"rare/no suspicion in {name}", running.suspicion(batch(make))
