"""Streams over memory of the program, beside the machine's own library; and names of new files, worked out by hand."""
import string

from .calls import Calls, batch, native_fault
from .running import Results, Running, differ

MODES = ("r", "w", "a", "r+", "w+", "a+")
SIZE = 12


def put(calls: Calls, stream: str, most: int) -> int:
    """Writes some letters, and says whether that went well."""
    count = calls.choice.randrange(1, most)
    text = "".join(calls.choice.choice(string.ascii_letters) for _ in range(count))
    calls.sign("fputs", f"l {calls.text(text.encode())}", f"l {stream}")
    return count


def blocks(calls: Calls) -> None:
    """Bytes that are handed out as a block, with a zero behind them."""
    for index in range(12):
        block, size = calls.room(8, "l 0"), calls.room(8, "l 99")
        stream = calls.call("open_memstream", "l", f"l {block}", f"l {size}")
        length = at = 0
        for _ in range(calls.choice.randrange(8)):
            kind = calls.choice.random()
            if kind < 0.5:
                at += put(calls, stream, 30)
                length = max(length, at)
            elif kind < 0.7:
                # Without a write there, and behind the end, what is handed out is the library's own affair.
                at = calls.choice.randrange(length + 1)
                calls.word("fseek", f"l {stream}", f"l {at}", "w 0")
                at += put(calls, stream, 10)
                length = max(length, at)
            else:
                calls.word("fflush", f"l {stream}")
                told(calls, block, size, length)
            calls.long("ftell", f"l {stream}")
        calls.word("fseek", f"l {stream}", "l 0", "w 2")
        calls.word("fclose", f"l {stream}")
        told(calls, block, size, length)
        kept = calls.named()
        calls.line(f"%kept.{kept} =l loadl {block}")
        calls.plain("free", f"l %kept.{kept}")


def told(calls: Calls, block: str, size: str, length: int) -> None:
    number = calls.named()
    calls.line(f"%size.{number} =l loadl {size}")
    calls.plain("tell", f"l %size.{number}")
    calls.line(f"%block.{number} =l loadl {block}")
    calls.bytes(f"%block.{number}", length + 1)


def buffers(calls: Calls) -> None:
    """Reads and writes in each mode, with a call of fseek between them as C wants it; the buffer is told at the end."""
    for mode in MODES * 4:
        buffer = calls.room(20, 'b "abc", b 0, b "defgh", b 0 ' + "7 " * 10)
        stream = calls.call("fmemopen", "l", f"l {buffer}", f"l {SIZE}", f"l {calls.text(mode.encode())}")
        calls.bytes(buffer, 20)
        calls.long("ftell", f"l {stream}")
        for _ in range(3):
            if mode != "w" and mode != "a" and calls.choice.random() < 0.6:
                for _ in range(calls.choice.randrange(1, 4)):
                    calls.word("fgetc", f"l {stream}")
            elif mode != "r":
                put(calls, stream, 4)
                calls.word("fflush", f"l {stream}")
                calls.bytes(buffer, 20)
            # Behind the end the library leaves what is in the buffer, and here there are zeros.
            offset, whence = calls.choice.choice(((0, 0), (0, 2), (-1, 2), (-1, 0), (0, 1)))
            calls.word("fseek", f"l {stream}", f"l {offset}", f"w {whence}")
            calls.long("ftell", f"l {stream}")
        calls.word("fseek", f"l {stream}", "l 0", "w 2")
        calls.long("ftell", f"l {stream}")
        calls.word("fclose", f"l {stream}")
        calls.bytes(buffer, 20)


def full_buffers(calls: Calls) -> None:
    """What doesn't fit is an error of fflush."""
    for mode in MODES[1:]:
        for size in (6, 9, 10, 11):
            buffer = calls.room(20, "b 0 " + "7 " * 19)
            stream = calls.call("fmemopen", "l", f"l {buffer}", f"l {size}", f"l {calls.text(mode.encode())}")
            calls.sign("fputs", f"l {calls.text(b'0123456789')}", f"l {stream}")
            calls.sign("fflush", f"l {stream}")
            calls.truth("ferror", f"l {stream}")
            calls.bytes(buffer, 20)
            calls.call("fclose", "w", f"l {stream}")
    calls.place("0", "fmemopen", f"l {calls.room(4)}", "l 4", f"l {calls.text(b'q')}")
    calls.error()


def scanned(calls: Calls) -> None:
    """Other functions of streams, on a buffer and on bytes without one."""
    text = b"12 -34 word\nline\nlast"
    stream = calls.call("fmemopen", "l", f"l {calls.text(text)}", f"l {len(text)}", f"l {calls.text(b'r')}")
    one, other, word = calls.room(4), calls.room(4), calls.room(16)
    calls.word("fscanf", f"l {stream}", f"l {calls.text(b'%d%d %s')}", "...", f"l {one}", f"l {other}", f"l {word}")
    for place in (one, other):
        calls.bytes(place, 4)
    calls.show(word)
    for _ in range(4):
        calls.said("fgets", f"l {word}", "w 16", f"l {stream}")
    calls.truth("feof", f"l {stream}")
    own = calls.call("fmemopen", "l", "l 0", "l 50", f"l {calls.text(b'w+')}")
    calls.word("fprintf", f"l {own}", f"l {calls.text(b'%d+%s')}", "...", "w 77", f"l {calls.text(b'text')}")
    calls.plain("rewind", f"l {own}")
    calls.said("fgets", f"l {word}", "w 16", f"l {own}")
    calls.word("fclose", f"l {own}")


NEW_FILES = r"""
data $name = { b "dir/aXXXXXX", b 0 }
data $again = { b "dir/aXXXXXX", b 0 }
data $ended = { b "XXXXXX.c", b 0 }
data $short = { b "aXXXXX", b 0 }
data $says = { b "%d %d %d %d %d %s %s %s %s", b 0 }
data $w = { b "hi", b 0 }
data $r = { b "r", b 0 }
data $to = { z 8 }
export function w $main() {
@start
	%a =w call $mkstemp(l $name)
	%n =l call $write(w %a, l $w, l 2)
	%b =w call $mkstemp(l $again)
	%c =w call $mkstemps(l $ended, w 2)
	%d =w call $mkstemp(l $short)
	%e =l call $__errno_location()
	%f =w loadw %e
	%g =l call $fopen(l $name, l $r)
	%h =l call $fgets(l $to, w 8, l %g)
	%x =w call $printf(l $says, ..., w %a, w %b, w %c, w %d, w %f, l $name, l $again, l $ended, l $to)
	ret 0
}
"""
NEW_OUTPUT = "3 4 5 -1 22 dir/a000000 dir/a000001 000000.c hi"


def new_files_fault(running: Running) -> str | None:
    lowered = running.lower_here(NEW_FILES)
    return lowered if isinstance(lowered, str) else differ("output", NEW_OUTPUT, running.run(lowered.text).output)


def results(running: Running) -> Results:
    for name, make in (("blocks", blocks), ("buffers", buffers), ("full buffers", full_buffers), ("scanned", scanned)):
        yield f"memory streams/{name}", native_fault(running, batch(make))
        yield f"memory streams/no suspicion of {name}", running.suspicion(batch(make))
    yield "memory streams/new files", new_files_fault(running)
