"""Texts: one byte, cut after each byte, each byte at each place, changed in a few places, and long ones."""
from __future__ import annotations

from collections.abc import Iterator, Sequence
from random import Random

from harness.running import FIRST, Case, Running
import oracle

from .long_texts import TABLES
from .programs import changed, random_program

CHANGED = 1500  # random programs that are changed

SCRIPT = b"step 9\nback 2\nlist\ntemps\n"

# A text with each production of the grammar, and each kind of token.
LONG = rb"""# every production
export section ".rodata" "aw" data $s = align 8 { b "hi\n\"\101" 0 -1, l $main + 4 $s 2, z 16, }
data $e = { }
data $v = {
h -2 3,

w 7
}
export
function w $f(sb %a, l %b,) { @f
ret %a
}
function $main()
{
@start # of the run
%p=l alloc8 16
	storew 7,%p
	%q =l add $s, 8
	blit %p, %q, 4
	%r =uh call $f(ub 511, l %p,)
	call $putchar(w %r)
	jnz %r, @loop, @end
@loop
	%i =w phi @start 0, @loop %j
	%j =w add %i, 1
	%c =w csltw %j, 3
	jnz %c, @loop, @more
@more
	%n =l neg -9223372036854775808
@end
	ret
}
function $h() {
@h
hlt
}
"""


def against_reference(running: Running, text: bytes, script: bytes = SCRIPT,
                      arguments: Sequence[int] = ()) -> str | None:
    """A text is accepted or refused as the reference says, and runs as it says."""
    wanted, status = oracle.transcript(text, script, args=arguments)
    return running.fault(text, script, [str(argument) for argument in arguments], wanted, status)


def changed_text(seed: int) -> tuple[bytes, list[int]]:
    """A random program that is changed in one to three places, and arguments for its `main`."""
    random = Random(seed)
    text, arguments = random_program(random)
    return changed(random, text), arguments


def changed_program(running: Running, seed: int) -> str | None:
    text, arguments = changed_text(seed)
    return against_reference(running, text, SCRIPT + b"step 300\ntemps\nback 300\n", arguments)


def one_byte(running: Running, byte: int) -> str | None:
    """A text of one byte, by a rule of its own."""
    one = chr(byte)
    if one in " \t\n\r#":
        answer = "S1"
    elif one in "$%@:":
        answer = "L2 line 1"
    elif one == '"':
        answer = "L4 line 1"
    elif one in "sd":
        answer = "P2 line 1"
    elif byte < 128 and (one.isalnum() or one in ",={}()+"):
        answer = "P1 line 1"
    else:
        answer = "L1 line 1"
    return running.fault(bytes([byte]), b"step\n", [], f"refused: {answer}\n".encode(), 1)


def first_cut(running: Running, length: int) -> str | None:
    """The first example cut after so many bytes, by a rule of its own; the reference tells the line as well."""
    text = FIRST[:length]
    run = running.run(text)
    if run is None:
        return "no end"
    if length == 0:
        lawful = run[0] == b"refused: S1\n" and run[2] == 1
    elif length >= len(FIRST) - 1:
        lawful = run[0] == b"loaded 1 functions 0 data bytes ssa yes\n#0 $main @start 0\n" and run[2] == 0
    else:
        line = 1 + text.count(b"\n")
        # The last token is the newline before the cut where nothing stands behind it.
        if text.rstrip(b"\t ").endswith(b"\n"):
            line -= 1
        lawful = run[2] == 1 and run[0] in [f"refused: {code} line {line}\n".encode() for code in ("L2", "P1", "P3")]
    return None if lawful and not run[1] else f"{run}"


def of_table(running: Running, kind: str, name: str) -> str | None:
    """A long text gives the lines that stand beside it."""
    make, answer, *script = TABLES[kind][name]
    status = 1 if answer.startswith("refused") else 0
    return running.fault(make(), b"".join(script), [], answer.encode("latin-1"), status)


def cases() -> Iterator[Case]:
    for byte in range(256):
        yield Case(f"a text of the byte {byte}", one_byte, (byte,))
    for length in range(len(FIRST) + 1):
        yield Case(f"the first example cut after {length} bytes", first_cut, (length,))
        yield Case(f"the same, by the reference, after {length}", against_reference, (FIRST[:length],))
    for length in range(len(LONG) + 1):
        yield Case(f"a text with each production cut after {length} bytes", against_reference, (LONG[:length],))
    for place in range(len(FIRST)):
        for byte in range(256):
            text = FIRST[:place] + bytes([byte]) + FIRST[place + 1:]
            yield Case(f"the byte {byte} at place {place} of the first example", against_reference, (text,))
    for seed in range(CHANGED):
        yield Case(f"seed {seed}: a random program, changed", changed_program, (seed,))
    for kind, table in TABLES.items():
        for name in table:
            yield Case(f"{kind}: {name}", of_table, (kind, name))
