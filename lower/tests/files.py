"""Files of a program: random use of streams and descriptors against the C library in a folder of its own; and which
files a program finds, worked out by hand."""
import ctypes
import os
import pathlib
import random
import subprocess
import sys
import tempfile
from collections.abc import Callable
from typing import NamedTuple

from .floats import string_of
from .library import is_there
from .running import LOWER, Results, Running, Skipped, differ
from .telling import TELL

NAMES = ("one", "two", "three")
WORDS = ("alpha", "be", "", "g g", "12 x", "line\nnext\n", "7", "\n", "-3 word")
MODES = ("r", "w", "a", "r+", "w+", "a+", "rb", "wb+", "wx", "q")
# How open is asked: to read, to write, both, and what else.
FLAGS = (0, 1, 2, 0x41, 0x42, 0x241, 0x242, 0x401, 0x442, 0xC1)
ROOM = 60

HEAD = TELL + """
data $text = { b "%s|", b 0 }
data $to = { z 64 }
data $value = { z 8 }
data $state = { z 144 }
data $print.format = { b "%d-%s;", b 0 }
data $scan.format = { b "%d %9s", b 0 }
function $tell.text(l %count) {
@start
	%end =l add $to, %count
	storeb 0, %end
	%c =w call $printf(l $text, ..., l $to)
	ret
}
"""


class Stream(NamedTuple):
    """A stream that is open: its place in the text, the library's, the name of its file, and its mode."""

    place: str
    pointer: int
    name: str
    mode: str = ""


class Uses:
    """Calls that are made here of the C library, and written down as a text that makes the same."""

    def __init__(self, choice: random.Random):
        self.choice = choice
        self.library = ctypes.CDLL(None, use_errno=True)
        for name in ("fopen", "fgets", "ftell", "read", "write", "lseek"):
            getattr(self.library, name).restype = ctypes.c_long
        for name in ("fread", "fwrite"):
            getattr(self.library, name).restype = ctypes.c_size_t
        self.lines: list[str] = []
        self.data: list[str] = []
        self.wanted = ""
        self.made = 0
        self.streams: list[Stream] = []
        self.descriptors: list[Stream] = []
        # What was done last with a stream: C wants a call of fseek between a read and a write.
        self.last: dict[str, str] = {}
        self.buffer = ctypes.create_string_buffer(64)

    # How both are written.

    def string(self, text: str) -> str:
        self.made += 1
        self.data.append(f"data $s{self.made} = {{ b {string_of(text.encode() + bytes(1))} }}")
        return f"$s{self.made}"

    def call(self, kind: str, text: str) -> str:
        self.made += 1
        self.lines.append(f"%t{self.made} ={kind} call ${text}")
        return f"%t{self.made}"

    def tell(self, value: str, kind: str, wanted: int) -> None:
        if kind == "w":
            self.made += 1
            self.lines.append(f"%t{self.made} =l extsw {value}")
            value = f"%t{self.made}"
        self.lines.append(f"call $tell(l {value})")
        self.wanted += f"{wanted} "

    def tell_whether(self, value: str, kind: str, wanted: int) -> None:
        self.made += 1
        self.lines.append(f"%t{self.made} =w cne{kind} {value}, 0")
        self.tell(f"%t{self.made}", "w", int(wanted != 0))

    def tell_errno(self) -> None:
        place = self.call("l", "__errno_location()")
        self.made += 1
        self.lines.append(f"%t{self.made} =w loadw {place}")
        self.tell(f"%t{self.made}", "w", ctypes.get_errno())

    def tell_text(self, count: str, wanted: bytes) -> None:
        self.lines.append(f"call $tell.text(l {count})")
        self.wanted += wanted.split(b"\0")[0].decode() + "|"

    def turn(self, stream: Stream, doing: str) -> None:
        if self.last.get(stream.place, doing) != doing:
            self.call("w", f"fseek(l {stream.place}, l 0, w 1)")
            self.library.fseek(ctypes.c_void_p(stream.pointer), ctypes.c_long(0), 1)
        self.last[stream.place] = doing

    # Streams.

    def open(self) -> None:
        name, mode = self.choice.choice(NAMES), self.choice.choice(MODES)
        if len(self.streams) == 4 or any(stream.name == name for stream in self.streams + self.descriptors):
            return
        ctypes.set_errno(0)
        pointer = self.library.fopen(name.encode(), mode.encode())
        place = self.call("l", f"fopen(l {self.string(name)}, l {self.string(mode)})")
        self.tell_whether(place, "l", pointer)
        if pointer:
            self.streams.append(Stream(place, pointer, name, mode))
        else:
            self.tell_errno()

    def close(self) -> None:
        stream = self.streams.pop(self.choice.randrange(len(self.streams)))
        self.tell(self.call("w", f"fclose(l {stream.place})"), "w",
                  self.library.fclose(ctypes.c_void_p(stream.pointer)))

    def put(self) -> None:
        stream, word = self.choice.choice(self.streams), self.choice.choice(WORDS)
        self.turn(stream, "write")
        pointer, text = ctypes.c_void_p(stream.pointer), self.string(word)
        kind = self.choice.randrange(4)
        if kind == 0:
            size = self.choice.choice((1, 1, 2))
            count = len(word) // size
            self.tell(self.call("l", f"fwrite(l {text}, l {size}, l {count}, l {stream.place})"), "l",
                      self.library.fwrite(word.encode(), ctypes.c_size_t(size), ctypes.c_size_t(count), pointer))
        elif kind == 1:
            given = self.library.fputs(word.encode(), pointer)
            self.tell(self.call("w", f"fputs(l {text}, l {stream.place})"), "w", given)
        elif kind == 2:
            self.tell(self.call("w", f"fputc(w 344, l {stream.place})"), "w", self.library.fputc(344, pointer))
        else:
            number = self.choice.randrange(-100, 100)
            self.tell(self.call("w", f"fprintf(l {stream.place}, l $print.format, ..., w {number}, l {text})"), "w",
                      self.library.fprintf(pointer, b"%d-%s;", number, word.encode()))

    def get(self) -> None:
        stream = self.choice.choice(self.streams)
        self.turn(stream, "read")
        # The GNU C library's fscanf doesn't mark a stream that can't be read, as its other functions do.
        can_read = "r" in stream.mode or "+" in stream.mode
        pointer, kind = ctypes.c_void_p(stream.pointer), self.choice.randrange(4 if can_read else 3)
        if kind == 0:
            size, count = self.choice.choice((1, 1, 3)), self.choice.randrange(ROOM // 3)
            ctypes.memset(self.buffer, 0, 64)
            given = self.library.fread(self.buffer, ctypes.c_size_t(size), ctypes.c_size_t(count), pointer)
            found = self.call("l", f"fread(l $to, l {size}, l {count}, l {stream.place})")
            self.tell(found, "l", given)
            self.made += 1
            self.lines.append(f"%t{self.made} =l mul {found}, {size}")
            self.tell_text(f"%t{self.made}", self.buffer.raw[:given * size])
        elif kind == 1:
            room = self.choice.choice((2, 5, ROOM))
            given = self.library.fgets(self.buffer, room, pointer)
            found = self.call("l", f"fgets(l $to, w {room}, l {stream.place})")
            self.tell_whether(found, "l", given)
            if given:
                length = self.call("l", "strlen(l $to)")
                self.tell_text(length, self.buffer.value)
        elif kind == 2:
            given = self.library.fgetc(pointer)
            self.tell(self.call("w", f"fgetc(l {stream.place})"), "w", given)
            if given >= 0 and self.choice.random() < 0.5:
                byte = self.choice.choice((given, 90))
                self.tell(self.call("w", f"ungetc(w {byte}, l {stream.place})"), "w",
                          self.library.ungetc(byte, pointer))
        else:
            value = ctypes.c_int(0)
            self.buffer.value = b""
            given = self.library.fscanf(pointer, b"%d %9s", ctypes.byref(value), self.buffer)
            self.lines += ["storew 0, $value", "storeb 0, $to"]
            self.tell(self.call("w", f"fscanf(l {stream.place}, l $scan.format, ..., l $value, l $to)"), "w", given)
            self.made += 1
            self.lines.append(f"%t{self.made} =w loadw $value")
            self.tell(f"%t{self.made}", "w", value.value)
            self.tell_text(self.call("l", "strlen(l $to)"), self.buffer.value)

    def look(self) -> None:
        stream = self.choice.choice(self.streams)
        pointer, kind = ctypes.c_void_p(stream.pointer), self.choice.randrange(6)
        if kind < 2:
            whence, offset = self.choice.randrange(3), self.choice.choice((0, 0, 1, 5, -2, 40))
            given = self.library.fseek(pointer, ctypes.c_long(offset), whence)
            self.tell(self.call("w", f"fseek(l {stream.place}, l {offset}, w {whence})"), "w", given)
            if given == 0:
                self.last.pop(stream.place, None)
        elif kind == 2:
            # In the end of a file that is only added to, libraries differ on the place before the first write.
            self.turn(stream, "place")
            self.tell(self.call("w", f"fseek(l {stream.place}, l 0, w 2)"), "w",
                      self.library.fseek(pointer, ctypes.c_long(0), 2))
            self.tell(self.call("l", f"ftell(l {stream.place})"), "l", self.library.ftell(pointer))
        elif kind == 3:
            self.tell_whether(self.call("w", f"feof(l {stream.place})"), "w", self.library.feof(pointer))
        elif kind == 4:
            self.tell_whether(self.call("w", f"ferror(l {stream.place})"), "w", self.library.ferror(pointer))
        else:
            self.lines.append(f"call $rewind(l {stream.place})")
            self.library.rewind(pointer)
            self.last.pop(stream.place, None)

    # Descriptors, and names.

    def open_descriptor(self) -> None:
        name, flags = self.choice.choice(NAMES), self.choice.choice(FLAGS)
        if len(self.descriptors) == 4 or any(stream.name == name for stream in self.streams):
            return
        ctypes.set_errno(0)
        number = self.library.open(name.encode(), flags, 0o600)
        place = self.call("w", f"open(l {self.string(name)}, w {flags}, ..., w 384)")
        self.made += 1
        self.lines.append(f"%t{self.made} =w csltw {place}, 0")
        self.tell(f"%t{self.made}", "w", int(number < 0))
        if number < 0:
            self.tell_errno()
        else:
            self.descriptors.append(Stream(place, number, name))

    def use_descriptor(self) -> None:
        one, kind = self.choice.choice(self.descriptors), self.choice.randrange(5)
        ctypes.set_errno(0)
        if kind == 0:
            word = self.choice.choice(WORDS)
            given = self.library.write(one.pointer, word.encode(), ctypes.c_size_t(len(word)))
            self.tell(self.call("l", f"write(w {one.place}, l {self.string(word)}, l {len(word)})"), "l", given)
        elif kind == 1:
            count = self.choice.randrange(1, ROOM)
            given = self.library.read(one.pointer, self.buffer, ctypes.c_size_t(count))
            found = self.call("l", f"read(w {one.place}, l $to, l {count})")
            self.tell(found, "l", given)
            if given >= 0:
                self.tell_text(found, self.buffer.raw[:given])
        elif kind == 2:
            offset, whence = self.choice.choice((0, 3, -1, 20)), self.choice.randrange(4)
            # A fourth one is about holes on Linux, and names none here.
            whence = 9 if whence == 3 else whence
            given = self.library.lseek(one.pointer, ctypes.c_long(offset), whence)
            self.tell(self.call("l", f"lseek(w {one.place}, l {offset}, w {whence})"), "l", given)
        elif kind == 3:
            size = os.fstat(one.pointer).st_size
            self.tell(self.call("w", f"fstat(w {one.place}, l $state)"), "w", 0)
            self.made += 2
            self.lines += [f"%t{self.made - 1} =l add $state, 48", f"%t{self.made} =l loadl %t{self.made - 1}"]
            self.tell(f"%t{self.made}", "l", size)
            return
        else:
            self.descriptors.remove(one)
            given = self.library.close(one.pointer)
            self.tell(self.call("w", f"close(w {one.place})"), "w", given)
        if given < 0:
            self.tell_errno()

    def name(self) -> None:
        busy = {stream.name for stream in self.streams}
        one, two = self.choice.choice(NAMES), self.choice.choice(NAMES)
        if busy & {one, two}:
            return
        ctypes.set_errno(0)
        kind = self.choice.randrange(3)
        if kind == 0:
            given = self.library.remove(one.encode())
            told = self.call("w", f"remove(l {self.string(self.choice.choice(('', './')) + one)})")
        elif kind == 1:
            given = self.library.rename(one.encode(), two.encode())
            told = self.call("w", f"rename(l {self.string(one)}, l {self.string(two)})")
        else:
            given = self.library.access(one.encode(), 4)
            told = self.call("w", f"access(l {self.string(one)}, w 4)")
        self.tell(told, "w", given)
        if given < 0:
            self.tell_errno()

    def made_up(self, count: int) -> str:
        """A text that makes so many calls."""
        for _ in range(count):
            acts: list[Callable[[], None]] = [self.open, self.open_descriptor, self.name]
            if self.streams:
                acts += [self.put, self.put, self.get, self.get, self.get, self.look, self.look]
                acts += [self.close] if self.choice.random() < 0.3 else []
            if self.descriptors:
                acts += [self.use_descriptor] * 3
            self.choice.choice(acts)()
        while self.streams:
            self.close()
        for one in self.descriptors:
            self.library.close(one.pointer)
        body = "\n\t".join(self.lines)
        return HEAD + "\n".join(self.data) + f"\nexport function w $main() {{\n@start\n\t{body}\n\tret 0\n}}\n"


def random_fault(running: Running, seed: int) -> str | None:
    before = os.getcwd()
    with tempfile.TemporaryDirectory(prefix="files-") as folder:
        os.chdir(folder)
        try:
            uses = Uses(random.Random(seed))
            text = uses.made_up(60)
        finally:
            os.chdir(before)
    lowered = running.lower_here(text)
    if isinstance(lowered, str):
        return lowered
    run = running.run(lowered.text)
    if run.end != "done 0":
        return run.end
    given = run.output
    same = os.path.commonprefix([given, uses.wanted])
    return None if given == uses.wanted else \
        f"behind {same[-60:]!r}: {given[len(same):][:60]!r} in place of {uses.wanted[len(same):][:60]!r}"


# A main that writes the first line of the file of a name, or the number of the error.
SHOW = """
function w $show(l %name) {
@start
	%file =l call $fopen(l %name, l $mode)
	%is.file =w cnel %file, 0
	jnz %is.file, @file, @none
@file
	%line =l call $fgets(l $to, w 60, l %file)
	%c =w call $printf(l $text, ..., l $to)
	%closed =w call $fclose(l %file)
	ret 0
@none
	%place =l call $__errno_location()
	%error =w loadw %place
	%c =w call $printf(l $number, ..., w %error)
	ret 1
}
data $mode = { b "r\\0" }
data $number = { b "error %d|\\0" }
data $text = { b "%s|\\0" }
data $to = { z 64 }
"""
BY_ARGV = SHOW + """
export function w $main(w %argc, l %argv) {
@start
	%place =l add %argv, 8
	%name =l loadl %place
	%c =w call $show(l %name)
	ret %c
}
"""
# `here` stands in the data, and `t` and `here` behind it are put together.
BY_NAME = SHOW + """
data $named = { b "here\\0" }
data $made = { b "other\\0" }
export function w $main() {
@start
	%a =w call $show(l $named)
	storeb 97, $made
	%b =w call $show(l $made)
	%c =w add %a, %b
	ret %c
}
"""
# Reads the first two bytes of `here` as its input, and copies what follows through a file without a name.
AGAIN = """
data $named = { b "./here\\0" }
data $mode = { b "r\\0" }
data $byte = { z 8 }
data $text = { b "%s %d %d|\\0" }
export function w $main() {
@start
	%input =l loadl $stdin
	%same =l call $freopen(l $named, l $mode, l %input)
	%a =w call $getchar()
	%b =w call $getchar()
	%c =w call $putchar(w %b)
	%c =w call $putchar(w %a)
	%file =l call $tmpfile()
	%number =w call $fileno(l %file)
	%stream =l call $fdopen(w %number, l $mode)
	%rest =l call $fread(l $byte, l 1, l 7, l %input)
	%c =w call $fputs(l $byte, l %stream)
	%zero =w call $fflush(l %stream)
	%place =l call $lseek(w %number, l 1, w 0)
	storel 0, $byte
	%count =l call $read(w %number, l $byte, l 7)
	%output =l loadl $stdout
	%one =w call $fileno(l %output)
	%c =w call $printf(l $text, ..., l $byte, l %count, w %one)
	ret 0
}
"""
# By calls of the system: openat, fstat, lseek, read, close, and of one that is closed.
BY_NUMBER = """
data $named = { b "here\\0" }
data $state = { z 144 }
data $bytes = { z 8 }
data $text = { b "%s %ld %ld %ld %ld %ld|\\0" }
export function w $main() {
@start
	%file =l call $rt.syscall4(l 257, l -100, l $named, l 0, l 0)
	%zero =l call $rt.syscall2(l 5, l %file, l $state)
	%place =l add $state, 48
	%size =l loadl %place
	%at =l call $rt.syscall3(l 8, l %file, l -3, l 2)
	%count =l call $rt.syscall3(l 0, l %file, l $bytes, l 7)
	%closed =l call $rt.syscall1(l 3, l %file)
	%bad =l call $rt.syscall3(l 0, l %file, l $bytes, l 7)
	%none =l call $syscall(l 257, ..., l -100, l $text, l 0, l 0)
	%c =w call $printf(l $text, ..., l $bytes, l %file, l %size, l %at, l %bad, l %none)
	ret 0
}
"""
# A file is written that has the name of one of this machine; the program reads its own.
WRITTEN = SHOW + """
data $named = { b "here\\0" }
data $write = { b "w\\0" }
data $new = { b "new\\0" }
export function w $main() {
@start
	%file =l call $fopen(l $named, l $write)
	%c =w call $fputs(l $new, l %file)
	%closed =w call $fclose(l %file)
	%a =w call $show(l $named)
	ret %a
}
"""
HERE, OTHER = "first line\nnext\n", "o"


class Found(NamedTuple):
    """A program, the options and words that it is lowered with, and what it writes."""

    name: str
    text: str
    options: tuple[str, ...]
    words: tuple[str, ...]
    output: str


FOUND = (
    Found("named by a word", BY_ARGV, (), ("here",), "first line\n|"),
    Found("no file of that name", BY_ARGV, (), ("nowhere",), "error 2|"),
    Found("a folder", BY_ARGV, (), (".",), "error 2|"),
    Found("named by the text", BY_NAME, (), (), "first line\n|error 2|"),
    Found("given", BY_NAME, ("--file", "ather"), (), "first line\n|o|"),
    Found("in the place of the input", AGAIN, (), (), "ifst lin 6 1|"),
    Found("by calls of the system", BY_NUMBER, (), (), "xt\n 3 16 13 -9 -1|"),
    Found("written by the program", WRITTEN, (), (), "new|"),
)


def found_fault(running: Running, case: Found) -> str | None:
    beside = {"here": HERE, "ather": OTHER}
    with tempfile.TemporaryDirectory(prefix="files-") as place:
        folder = pathlib.Path(place)
        for name, text in ({"a.ssa": case.text} | beside).items():
            (folder / name).write_text(text)
        words = ["--link", *case.options, "--argv", "a", "a.ssa", *(("--arguments", *case.words) if case.words else ())]
        lowered = subprocess.run([sys.executable, str(LOWER), *words], cwd=folder, capture_output=True,
                                 timeout=running.seconds, stdin=subprocess.DEVNULL)
        if lowered.returncode or lowered.stderr:
            return f"status {lowered.returncode}: {lowered.stderr!r}"
        left = {name: (folder / name).read_text() for name in beside}
    return differ("files behind", beside, left) or \
        differ("output", case.output, running.run(lowered.stdout.decode("latin-1")).output)


def refused(running: Running) -> Results:
    """Files that can't be given, or are too large to be found by themselves."""
    with tempfile.TemporaryDirectory(prefix="files-") as place:
        folder = pathlib.Path(place)
        (folder / "a.ssa").write_text(BY_NAME)
        (folder / "here").write_bytes(b"x" * 300_000)
        told: dict[str, tuple[int, list[str]]] = {}
        tried: tuple[list[str], ...] = (["--file", "nowhere"], [], ["--file", "here"])
        for words in tried:
            run = subprocess.run([sys.executable, str(LOWER), "--link", *words, "a.ssa"], cwd=folder,
                                 capture_output=True, text=True, timeout=running.seconds, stdin=subprocess.DEVNULL)
            told[" ".join(words)] = (run.returncode, run.stderr.splitlines()[:1])
    yield "files/that isn't there", differ(
        "lowering", (2, ["qrev-lower: nowhere: No such file or directory"]), told["--file nowhere"])
    yield "files/too large to be found", differ(
        "lowering", (0, ["a.ssa:1: here has 300000 bytes, so the program doesn't find it: --file here gives it all the "
                         "same (native code differs)"]), told[""])
    yield "files/large and given", differ("lowering", (0, []), told["--file here"])


# Calls with the stream that a failed fopen gives, which are a fault in native code as well.
NO_STREAM = (
    "w call $fputs(l $t, l 0)", "w call $fputc(w 65, l 0)", "w call $putc(w 65, l 0)",
    "l call $fwrite(l $t, l 1, l 1, l 0)", "w call $fprintf(l 0, l $t, ...)",
    "w call $fgetc(l 0)", "w call $getc(l 0)", "l call $fgets(l $to, w 8, l 0)",
    "l call $fread(l $to, l 1, l 1, l 0)", "l call $getline(l $place, l $size, l 0)", "w call $fscanf(l 0, l $t, ...)",
    "w call $ungetc(w 65, l 0)", "w call $feof(l 0)", "w call $ferror(l 0)", "w call $fclose(l 0)",
    "w call $fseek(l 0, l 0, w 0)", "l call $ftell(l 0)", "w call $fileno(l 0)", "w call $fputwc(w 65, l 0)",
    "w call $fgetwc(l 0)", "w call $fwprintf(l 0, l $wide, ...)")
NO_STREAM_DATA = '''
data $t = { b "text", b 0 }
data $r = { b "r", b 0 }
data $wide = { w 65 0 }
data $to = { z 8 }
data $place = { l 0 }
data $size = { l 0 }
'''


def no_stream_fault(running: Running, call: str, opening: str) -> str | None:
    text = f"{NO_STREAM_DATA}export function w $main() {{\n@start\n{opening}\t%r ={call}\n\tret 0\n}}\n"
    lowered = running.lower_here(text)
    return lowered if isinstance(lowered, str) else differ("end", "fault dead address 0", running.run(lowered.text).end)


def results(running: Running) -> Results:
    for case in FOUND:
        yield f"files/{case.name}", found_fault(running, case)
    yield from refused(running)
    # What a program does with files has no suspicion.
    yield "files/no suspicion", running.suspicion(AGAIN)
    waits = None if is_there() else Skipped("a C library that ctypes finds")
    for seed in range(30):
        yield f"files/random use {seed}", waits or random_fault(running, seed)
    for call in NO_STREAM:
        for opening in ("", "\t%f =l call $fopen(l $t, l $r)\n"):
            name = call.partition("$")[2].partition("(")[0]
            yield f"files/{name} without a stream{' of files' * bool(opening)}", no_stream_fault(running, call, opening)
