"""How many allocations moves and commands take, and how many bytes, counted by a preloaded library (refusing.c)."""
from __future__ import annotations

import tempfile
from collections.abc import Iterator

from harness.preloaded import Run, library
from harness.running import FIRST, LOADED, LOOP, ROWS, Case, Running, difference

# A copy of 64 bytes is the third step, an allocation the fourth; then the same of 32 bytes. Then there is no end, and
# steps take no memory.
MOVES = b"""data $d = { z 192 }
function $main() {
@s
	%x =w copy 1
	%p =l add $d, 64
	blit $d, %p, 64
	%q =l alloc16 4096
	blit $d, %p, 32
	%q =l alloc16 32
	jmp @l
@l
	jmp @l
}
"""

# The second step goes to three phis, the third to four, the fourth to five, and the fifth to none.
PHIS = b"""function $main() {
@s
	%x =w copy 1
	jmp @three
@three
	%a =w phi @s 1
	%b =w phi @s 2
	%c =w phi @s 3
	jmp @four
@four
	%d =w phi @three 1
	%e =w phi @three 2
	%f =w phi @three 3
	%g =w phi @three 4
	jmp @five
@five
	%h =w phi @four 1
	%i =w phi @four 2
	%j =w phi @four 3
	%k =w phi @four 4
	%m =w phi @four 5
	jmp @l
@l
	jmp @l
}
"""

# How many steps come first, what is asked for then, and how many allocations that takes besides those of the list of
# records. What copies and allocations overwrite is kept in a block, and more than 32 bytes of it in a second one; so
# are the slots of three phis and more, in a second block where these are more than four.
ASKED = {
    MOVES: [(0, b"accesses 1 65536 8", 1), (0, b"counts 1", 3), (0, b"frames 1 1", 2), (0, b"step", 0),
            (0, b"set %x 9", 0), (0, b"poke l 65536 9", 0), (1, b"step", 0), (1, b"set %x 9", 0),
            (1, b"poke l 65536 9", 0), (2, b"step", 2), (3, b"step", 2), (4, b"step", 1), (5, b"step", 1),
            (6, b"step", 0)],
    PHIS: [(0, b"step", 0), (1, b"step", 1), (2, b"step", 1), (3, b"step", 2), (4, b"step", 0)],
}

# The moves that make the list of records longer: the first, and each that finds it full.
LENGTHENING = (0, 4, 8, 16, 32)

# Of the programs of rows/moves/, how many moves each makes, and which of these take how many allocations of their own:
# a call one for its frame and one for the slots, if it has some; jumps, copies and allocations as above; and where the
# output
# grows.
OWN: dict[str, tuple[int, dict[int, int]]] = {
    "calls": (49, {0: 2, 2: 2, 4: 2, 46: 1}),
    "halted": (1, {}),
    "jumps": (10, {4: 1, 6: 2}),
    "output": (5, {0: 1, 2: 1, 3: 1}),
    "results-and-bytes": (9, {3: 1, 5: 2, 6: 1, 7: 2}),
}
# Pokes at each place of these runs; some are refused there.
POKES = b"set %x 7\nset %a 7\nset %b 7\nset %t0 7\npoke w $d 4294967295\n"

# Moves forward and back of which none takes memory of its own.
PLAIN = b"data $d = { l 5 }\nfunction $main() {\n@s\n\t%x =w copy 1\n\tstorel 1, $d\n\tjmp @l\n@l\n\tjmp @l\n}\n"
ROUND = b"step\nset %x 1\nset %x 2\npoke l $d 3\nback\nstep\nstep\nback\nback\nstep\nstep\nstep\n"
ROUND_SAID = b"""loaded 1 functions 8 data bytes ssa yes
#0 $main @s 0
#1 $main @s 1
#2 $main @s 1
#3 $main @s 1
#4 $main @s 1
#3 $main @s 1
#4 $main @s 2
#5 $main @l 0
#4 $main @s 2
#3 $main @s 1
#4 $main @s 2
#5 $main @l 0
#6 $main @l 0
"""

# Lines that take no memory, behind others; and what is said to all of them.
LOOKED = (b"break $main @start 1\nstep\n",
          b"print %x\ntemps\nmem 65536 2\nwhere\nlist\nout\nbreak $main\nwatch b 65536\nwatch $main %x\nstops\n"
          b"delete 2\n"
          b"back\nback\nreverse\nfly\n",
          LOADED + b"""break 1 $main @start 1
#1 $main @start 1
%x = 5
%x = 5
-- --
$main @start 1
$main @start
  0 %x =w add 2, 3
> 1 ret %x
out 0 ""
break 2 $main @start 0
watch 3 b 65536
watch 4 $main %x
break 1 $main @start 1
break 2 $main @start 0
watch 3 b 65536
watch 4 $main %x
deleted 2
#0 $main @start 0
no: at start
no: at start
no: unknown command
""")
REVERSED = (b"break $main @start 1\nstep 2\n", b"reverse\nreverse\nquit\n",
            LOADED
            + b"break 1 $main @start 1\n#2 done 5\nstop: break 1\n#1 $main @start 1\nstop: start\n#0 $main @start 0\n")
QUIET = {"what only looks": LOOKED, "a run back": REVERSED}

# A loop beside as many data as there may be.
GREATEST = b"data $z = { z 1048576 }\n" + LOOP
GREATEST_LOADED = LOADED.replace(b"0 data", b"1048576 data")

# Rounds of six moves, each of which has memory of its own in its record: a call's return, an allocation, a copy, and
# jumps to three and to five phis. The first move goes to the first round.
OWNING = b"""data $d = { z 192 }
function w $f(w %x) {
@s
	%p =l alloc16 64
	blit $d, %p, 64
	ret %x
}
function $main() {
@s
	jmp @three
@three
	%a =w phi @s 1, @five 1
	%b =w phi @s 2, @five 2
	%c =w phi @s 3, @five 3
	%r =w call $f(w %a)
	jmp @five
@five
	%d =w phi @three 1
	%e =w phi @three 2
	%f =w phi @three 3
	%g =w phi @three 4
	%h =w phi @three 5
	jmp @three
}
"""
OWNING_SAID = b"loaded 2 functions 192 data bytes ssa yes\n#0 $main @s 0\n#%d $main @five 0\n"

# Rounds of four moves: a jump, a call, a step in it and its return.
CALLING = b"""function w $f(w %x) {
@s
	%y =w add %x, 1
	ret %y
}
function $main() {
@s
	jmp @l
@l
	%r =w call $f(w 1)
	jmp @l
}
"""
CALLING_SAID = b"loaded 2 functions 0 data bytes ssa yes\n#0 $main @s 0\n#100 $main @l 1\n#3100 $main @l 1\n"


class Counting:
    """Counts what runs of a program's text take."""

    def __init__(self, running: Running, made: str, text: bytes, history: int | None) -> None:
        self.running, self.made, self.text = running, made, text
        self.words = ["--history", "all" if history is None else str(history)]

    def run(self, script: bytes) -> Run:
        with tempfile.NamedTemporaryFile(prefix="counts-", suffix=".ssa") as file:
            file.write(self.text)
            file.flush()
            run = Run(self.running, self.made, 0, [file.name, *self.words], script)
        if run.status or run.errors or not run.allocations:
            raise ValueError(f"status {run.status}, {run.allocations} allocations, standard error: {run.errors!r}")
        return run

    def more(self, script: bytes, behind: bytes) -> int:
        """How many allocations the lines after a script take."""
        more: int = self.run(script + behind).allocations - self.run(script).allocations
        return more


def steps(count: int) -> bytes:
    return b"step %d\n" % count if count else b""


def quiet(running: Running, name: str, history: int | None) -> str | None:
    """Lines that look, set stops or go back take no memory."""
    before, lines, said = QUIET[name]
    with library() as made:
        counting = Counting(running, made, FIRST, history)
        taken = counting.more(before, lines)
        return difference(said, counting.run(before + lines).written) or (f"{taken} allocations" if taken else None)


def of_each_move(running: Running, text: bytes, history: int | None) -> str | None:
    """Each kind of move takes the allocations that it is to; with a bound none for the list."""
    with library() as made:
        counting = Counting(running, made, text, history)
        for count, line, wanted in ASKED[text]:
            if history is None and count in LENGTHENING:
                wanted += 1
            taken = counting.more(steps(count), line + b"\n")
            if taken != wanted:
                return f"{taken} allocations of {line!r} behind {count} steps in place of {wanted}"
    return None


def own_text(name: str) -> bytes:
    return (ROWS / "moves" / f"{name}.ssa").read_bytes()


def of_own(running: Running, name: str, history: int | None) -> str | None:
    """Each move of a program of rows/moves/ takes the allocations that it is to, and its way back none; with a bound,
    where no list grows, pokes take none."""
    moves, own = OWN[name]
    with library() as made:
        counting = Counting(running, made, own_text(name), history)
        for count in range(moves):
            wanted = own.get(count, 0) + (history is None and count in LENGTHENING)
            taken = counting.more(steps(count), b"step\n")
            back = counting.more(steps(count + 1), b"back\n")
            poked = counting.more(steps(count), POKES) if history else 0
            if (taken, back, poked) != (wanted, 0, 0):
                return (f"{taken} allocations of step {count + 1} in place of {wanted}, {back} of its way back, "
                        f"{poked} of pokes")
        ended = counting.run(steps(moves) + b"step\n").written.splitlines()[-1]
    return None if ended == b"no: at end" else f"more than {moves} moves: {ended!r}"


def growths(running: Running) -> str | None:
    """From five moves to forty the list grows three times: to more than 8, 16 and 32."""
    with library() as made:
        counting = Counting(running, made, MOVES, None)
        for count in range(5, 40):
            line = b"step\n" if count % 2 == 0 else b"set %%x %d\n" % count
            taken, wanted = counting.more(steps(count), line), 1 if count in (8, 16, 32) else 0
            if taken != wanted:
                return f"{taken} allocations of {line!r} behind {count} steps in place of {wanted}"
    return None


def long_run(running: Running, history: int | None, most: int) -> str | None:
    """3,000 moves take at most a fixed number of allocations, and the way back over them none."""
    with library() as made:
        counting = Counting(running, made, LOOP, history)
        taken, back = counting.more(b"", b"step 3000\n"), counting.more(b"step 3000\n", b"back 3000\n")
        return difference(LOADED + b"#3000 $main @l 0\n", counting.run(b"step 3000\n").written) or (
            f"{taken} allocations, and {back} of the way back" if taken > most or back else None)


def ring(running: Running) -> str | None:
    """A bound takes its room for the load, 24 bytes for each move that is kept, in a block, however many these are."""
    with library() as made:
        few, many = (Counting(running, made, PLAIN, history).run(b"") for history in (100, 900))
        more = many.allocations - few.allocations, many.bytes - few.bytes
        return f"{more[0]} allocations of {more[1]} bytes more for 800 moves" if more != (0, 800 * 24) else None


def ring_moves(running: Running) -> str | None:
    """Then moves that need no memory of their own take none."""
    with library() as made:
        counting = Counting(running, made, PLAIN, 3)
        taken = counting.more(b"", ROUND)
        return difference(ROUND_SAID, counting.run(ROUND).written) or (f"{taken} allocations" if taken else None)


def calls_again(running: Running) -> str | None:
    """Once a bound has forgotten a return, a call of a function with as many temporaries takes no memory."""
    with library() as made:
        counting = Counting(running, made, CALLING, 3)
        taken = counting.more(steps(100), steps(3000))
        return difference(CALLING_SAID, counting.run(steps(100) + steps(3000)).written) or (
            f"{taken} allocations" if taken else None)


def given_back(running: Running) -> str | None:
    """What a forgotten record has of its own is given back: ten times as many moves with --history 3 take no more
    memory."""
    def run(moves: int) -> tuple[int, str | None]:
        kilobytes, written = running.resident(OWNING, b"step %d\n" % moves, ["--history", "3"])
        return kilobytes, difference(OWNING_SAID % moves, written)

    (few, fault), (many, other) = run(300_000), run(3_000_000)
    return fault or other or (f"{many} kB in place of {few}" if many - few > 2_000 else None)


def records(running: Running) -> str | None:
    """1,000 moves over 2^20 bytes of data take 24 bytes each, in lists of 4, 8 and so on to 1,024 records."""
    with library() as made:
        counting = Counting(running, made, GREATEST, None)
        run, most = counting.run(b"step 1000\n"), 24 * sum(2**n for n in range(2, 11))
        taken = run.bytes - counting.run(b"").bytes
        return difference(GREATEST_LOADED + b"#1000 $main @l 0\n", run.written) or (
            f"{taken} bytes, more than {most}" if taken > most else None)


def cases() -> Iterator[Case]:
    for name in QUIET:
        for history in (None, 3):
            yield Case(f"{name} takes no memory, --history {history or 'all'}", quiet, (name, history))
    for history in (None, 3):
        yield Case(f"what each kind of move takes, --history {history or 'all'}", of_each_move, (MOVES, history))
        yield Case(f"what jumps with phis take, --history {history or 'all'}", of_each_move, (PHIS, history))
    for name in OWN:
        for history in (None, 3):
            yield Case(f"what the moves of {name} take, --history {history or 'all'}", of_own, (name, history))
    yield Case("growths of the list of records", growths)
    yield Case("3,000 moves take few allocations", long_run, (None, 20))
    yield Case("3,000 moves with --history 3 take none", long_run, (3, 0))
    yield Case("the room of a bound", ring)
    yield Case("moves to and fro with --history 3 take no memory", ring_moves)
    yield Case("calls behind a forgotten return take no memory", calls_again)
    yield Case("3,000,000 moves with --history 3 take the memory of 300,000", given_back)
    yield Case("a move keeps a record and nothing beside it", records)
