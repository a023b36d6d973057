"""The exported file: what is kept of a run's values gives all of them back, and the file is small."""
from __future__ import annotations

import base64
import pathlib
import random
import subprocess
import sys
import tempfile
from typing import Iterator, Sequence

from terminal.answers import read_place
from terminal.pipe import Pipe
from terminal.scratch import Launch
from terminal.text import Program

from ..gathering import Gathering
from ..table import Table
from ..workedout import kept_of
from .causes import EXAMPLES, MOST_MOVES, POKES, TOP, evaluated
from .serving import MAIN
from .states import lowered

RANDOM, LOWERED = 200, ("floaty", "structval", "matrix")
# All values of a run, by the stream of a server and by that of a file, and whether they are the same.
SAME = """given.map(({told, streamed, kept}) => {
  const bytes = text => Uint8Array.from(atob(text), sign => sign.charCodeAt(0));
  const [one, other] = [streamed, kept].map(text => runOf(structuredClone(told), bytes(text)));
  const equal = (a, b) => a.length === b.length && a.every((value, index) => value === b[index]);
  const names = ["places", "frameAt", "setPos", "setTemp", "low", "high"];
  return [one.low.length, names.every(name => equal(one[name], other[name]))
    && equal([...one.unset], [...other.unset]) && one.end === other.end];
})"""
REFUSED = """given.map(({told, kept}) => {
  try {
    runOf(told, Uint8Array.from(atob(kept), sign => sign.charCodeAt(0)));
    return "taken";
  } catch (error) {
    return error.message;
  }
})"""
# Each instruction that is worked out, on values of all bits; and some that aren't.
MIXING = """data $seen = { z 512 }
function l $mixed(l %x, w %n) {
@start
\t%a =l shl %x, 13
\t%x1 =l xor %x, %a
\t%b =l shr %x1, 7
\t%x2 =l xor %x1, %b
\t%c =l sar %x2, %n
\t%x3 =l sub %c, %x2
\t%d =l mul %x3, 2685821657736338717
\t%e =l neg %d
\t%f =w shl %n, 37
\t%g =w sar %d, 5
\t%h =w shr %d, 9
\t%i =w mul %g, %h
\t%j =l extsw %i
\t%k =l extuh %d
\t%l =w extsb %d
\t%m =l and %j, %e
\t%o =l or %m, %k
\t%p =l extsw %l
\t%q =l add %o, %p
\t%r =l add %q, %d
\t%slot =l and %r, 31
\t%place =l add $seen, %slot
\tstorel %r, %place
\t%s =w loadsh %place
\t%t =l loadub %place
\t%u =l loadl $seen
\t%v =w copy %s
\t%w =l udiv %r, 7
\tret %r
}
export function w $main() {
@start
\tjmp @loop
@loop
\t%x =l phi @start 88172645463325252, @loop %y
\t%i =w phi @start 0, @loop %next
\t%y =l call $mixed(l %x, w %i)
\t%next =w add %i, 1
\t%more =w csltw %next, COUNT
\tjnz %more, @loop, @end
@end
\t%low =w copy %y
\tret %low
}
"""
MOVES_A_ROUND = 33


def mixing(folder: str, moves: int) -> str:
    """A text whose run makes so many moves, most of which set 64 bits that look random."""
    file = pathlib.Path(folder) / f"mixing-{moves}.ssa"
    file.write_text(MIXING.replace("COUNT", str(moves // MOVES_A_ROUND + 1)))
    return str(file)


def streams(program: str, file: str, words: Sequence[str] = (), **more: object) -> dict[str, object] | None:
    """A run as the server sends it and as a file has it; None of one that doesn't end."""
    table = Table(Program(pathlib.Path(file).read_bytes()))
    gathering = Gathering(Launch(program, file, tuple(words)), table, MOST_MOVES * 20, **more)  # type: ignore[arg-type]
    gathering.gather()
    if not gathering.end:
        return None
    streamed, kept = b"".join(gathering.parts), kept_of(gathering)
    return {"name": pathlib.Path(file).name, "told": table.told("x"), "streamed": base64.b64encode(streamed).decode(),
            "kept": base64.b64encode(kept).decode()}


def all_streams(program: str, folder: str) -> Iterator[dict[str, object] | None]:
    for file in EXAMPLES:
        yield streams(program, str(file))
    for name in LOWERED:
        yield streams(program, lowered(name, folder))
    for name, pokes in POKES.items():
        yield streams(program, str(TOP / "examples" / f"{name}.ssa"), pokes=pokes)
    yield streams(program, mixing(folder, 4000))
    sys.path.insert(0, str(TOP / "tests"))
    from robustness_tests.programs import random_program
    for seed in range(RANDOM):
        text, arguments = random_program(random.Random(seed))
        file = pathlib.Path(folder) / f"{seed}.ssa"
        file.write_bytes(text)
        words = list(map(str, arguments))
        if not subprocess.run([program, str(file), *words], stdin=subprocess.DEVNULL,
                              stdout=subprocess.DEVNULL).returncode:
            yield streams(program, str(file), words)


def values(program: str) -> str | None:
    """What a file keeps gives the same values as the debugger told, for each kind of program."""
    with tempfile.TemporaryDirectory(prefix="page-") as folder:
        given = [each for each in all_streams(program, folder) if each]
    found = evaluated(SAME, given)
    wrong = [str(each["name"]) for each, (_, is_same) in zip(given, found) if not is_same]
    if wrong:
        return f"the file of {', '.join(wrong[:5])} has other values"
    return None if len(found) > 100 and sum(count for count, _ in found) > 10_000 else f"{len(found)} runs"


def tampered(program: str) -> str | None:
    """A file in which a value was changed is refused."""
    with tempfile.TemporaryDirectory(prefix="page-") as folder:
        given = streams(program, mixing(folder, 400))
    assert given
    kept = bytearray(base64.b64decode(str(given["kept"])))
    at = 0
    while kept[at:at + 1] != b"V":
        at += 5 + int.from_bytes(kept[at + 1:at + 5], "little")
    kept[at + 25] ^= 1
    told = evaluated(REFUSED, [given, {**given, "kept": base64.b64encode(kept).decode()}])
    return None if told == ["taken", "the values of this file aren't those that were written"] else f"{told}"


def size(program: str) -> str | None:
    """100,000 moves that set 64 bits each are exported as less than 400,000 bytes."""
    with tempfile.TemporaryDirectory(prefix="page-") as folder:
        file, out = mixing(folder, 100_000), pathlib.Path(folder) / "long.html"
        subprocess.run([sys.executable, "-B", str(MAIN), "--debugger", program, "--export", str(out), "--", file],
                       check=True, capture_output=True)
        moves = read_place(Pipe([program, file]).ask("step 999999")[0][-1]).position
        length = out.stat().st_size
    return None if moves >= 100_000 and length < 400_000 else f"{moves} moves are {length} bytes"


CASES = {"the values of a file": values, "a file that was changed": tampered, "size": size}
