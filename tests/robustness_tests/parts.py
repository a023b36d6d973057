"""Long runs over copies of states, at the edges between the copies, which are made every 2^14 moves and kept at 2^21
far away: forward, back, over copies after the present state, pokes and watches there. Places and values are worked out
from the position alone. Stops must be those of a session without the option."""
from __future__ import annotations

from collections.abc import Callable, Iterator

from harness.running import Case, Running

PART = 1 << 20
NEAR = 1 << 14
EDGES = (NEAR - 1, NEAR, NEAR + 1, PART - 1, PART, PART + 1)

# Three moves a round: an addition, a comparison and the jump. `@start` has two, the copy and the jump that isn't
# written.
TEXT = b"""export function w $main() {
@start
	%i =w copy 0
@loop
	%i =w add %i, 1
	%c =w csltw %i, 2000000000
	jnz %c, @loop, @end
@end
	ret %i
}
"""

# One megabyte of data, and as much of the stack, so that a copy takes more than all copies may under `--memory 1`.
WIDE = b"""data $d = { z 1048576 }
export function w $main() {
@start
	%p =l alloc16 1048576
	%q =l add %p, 1048568
	%e =l add $d, 1048568
	%i =w copy 0
@loop
	%i =w add %i, 1
	storew %i, %q
	storew %i, %e
	%c =w csltw %i, 2000000000
	jnz %c, @loop, @end
@end
	ret %i
}
"""


class Stand:
    """A state of TEXT's run: how many instructions of `@loop` are done, and what `%i` is; or one of the two of
    `@start`."""

    def __init__(self, position: int, block: str, index: int, count: int | None) -> None:
        self.position, self.block, self.index, self.count = position, block, index, count

    def after(self, moves: int) -> Stand:
        """The state a number of moves later."""
        position, block, index, count = self.position + moves, self.block, self.index, self.count
        if block == "start":
            if moves < 2 - index:
                return Stand(position, "start", index + moves, 0 if index + moves else None)
            moves, block, index, count = moves - (2 - index), "loop", 0, 0
        rounds, index = divmod(index + moves, 3)
        started = self.index > 0 and self.block == "loop"
        count = (count or 0) + rounds - started + (index > 0)
        return Stand(position, block, index, count % (1 << 32))

    def poked(self, value: int) -> Stand:
        """The state that a poke of `%i` leads to: the place stays, and the position rises by one."""
        return Stand(self.position + 1, self.block, self.index, value)

    def line(self) -> str:
        return f"#{self.position} $main @{self.block} {self.index}\n"

    def value(self) -> str:
        return f"%i = {self.count}\n"


START = Stand(0, "start", 0, None)


def at(position: int) -> Stand:
    return START.after(position)


class Asked:
    """A script with the expected answer to each of its lines."""

    def __init__(self) -> None:
        self.lines: list[str] = []
        self.answers: list[str] = []

    def ask(self, line: str, answer: str) -> None:
        self.lines.append(line)
        self.answers.append(answer)

    def look(self, stand: Stand) -> None:
        self.ask("print %i", stand.value())


def to_and_fro(edge: int) -> Asked:
    """Forward over an edge and back, by one and by all."""
    asked = Asked()
    ask, look = asked.ask, asked.look
    ask(f"step {edge}", at(edge).line())
    look(at(edge))
    ask("step", at(edge + 1).line())
    look(at(edge + 1))
    ask("back", at(edge).line())
    ask("back", at(edge - 1).line())
    look(at(edge - 1))
    ask(f"back {edge - 3}", at(2).line())
    look(at(2))
    ask(f"step {2 * edge}", at(2 + 2 * edge).line())
    look(at(2 + 2 * edge))
    ask(f"back {edge}", at(2 + edge).line())
    look(at(2 + edge))
    ask("back 4294967295", at(0).line())
    ask("back", "no: at start\n")
    return asked


def poked_there(edge: int) -> Asked:
    """A poke at an edge, and others next to it: gone back over, run over again, and made anew."""
    asked = Asked()
    ask, look = asked.ask, asked.look
    before = at(edge)
    poked = before.poked(7)
    ask(f"step {edge}", before.line())
    ask("set %i 7", poked.line())
    look(poked)
    ask("step 5", poked.after(5).line())
    look(poked.after(5))
    ask("back 5", poked.line())
    look(poked)
    ask("back", before.line())
    look(before)
    ask("step", before.after(1).line())
    again = before.after(1).poked(1_000_000)
    ask("set %i 1000000", again.line())
    twice = again.poked(20)
    ask("set %i 20", twice.line())
    ask(f"step {PART}", twice.after(PART).line())
    look(twice.after(PART))
    ask(f"back {PART}", twice.line())
    look(twice)
    ask("back", again.line())
    look(again)
    ask("step 2", again.after(2).line())
    look(again.after(2))
    ask(f"back {again.position + 1}", at(1).line())
    look(at(1))
    return asked


def ahead(edge: int) -> Asked:
    """Over states that copies are kept of, and over the same positions once a poke has made others of them."""
    asked = Asked()
    ask, look = asked.ask, asked.look
    far = 3 * edge
    ask(f"step {far}", at(far).line())
    ask(f"back {far - 40}", at(40).line())
    look(at(40))
    ask(f"step {edge}", at(40 + edge).line())
    look(at(40 + edge))
    ask(f"step {far - 40 - edge}", at(far).line())
    look(at(far))
    ask(f"back {far - edge}", at(edge).line())
    poked = at(edge).poked(70_000)
    ask("set %i 70000", poked.line())
    ask(f"step {edge}", poked.after(edge).line())
    look(poked.after(edge))
    ask(f"step {edge}", poked.after(2 * edge).line())
    look(poked.after(2 * edge))
    ask(f"back {edge + 10}", poked.after(edge - 10).line())
    look(poked.after(edge - 10))
    ask(f"back {edge - 9}", at(edge).line())
    ask(f"step {2 * edge}", at(far).line())
    look(at(far))
    for back in range(1, 200):
        ask("back", at(far - back).line())
        look(at(far - back))
    return asked


def computed(running: Running, made: Callable[[int], Asked], edge: int, most: str) -> str | None:
    asked = made(edge)
    head = "loaded 1 functions 0 data bytes ssa no $main %i\n" + START.line()
    script, wanted = "".join(f"{line}\n" for line in asked.lines), head + "".join(asked.answers)
    return running.fault(TEXT, script.encode(), ["--memory", most], wanted.encode(), 0)


def stops_there(edge: int) -> bytes:
    """Watches and breakpoints around an edge, forward and back, with pokes between."""
    return "\n".join([
        f"step {edge - 4}", "watch %i", "continue", "continue", "continue", "where", "print %i", "reverse", "where",
        "reverse", "reverse", "reverse", "print %i", "delete 1", "break @loop 1", "continue", "continue", "continue",
        "where", "reverse", "where", "set %i 5", "where", "reverse", "where", "continue", "print %i", "delete 2",
        "watch %c", "continue", "where", "reverse", "where",
        "stops", f"step {PART}", "where", "print %i", "delete 3", "watch %i", "back", "reverse", "where", "print %i",
        "delete 4", f"back {PART}", "where", "print %i", "reverse", "where", ""]).encode()


def as_without(running: Running, text: bytes, script: bytes, most: str, limit: str) -> str | None:
    """The transcript over copies of states is that over undo records."""
    plain = running.run(text, script, ["--limit", limit, "--history", "all"])
    if plain is None or plain[2] != 0:
        return "no session without the option"
    return running.fault(text, script, ["--limit", limit, "--memory", most], plain[0], 0)


def cases() -> Iterator[Case]:
    for edge in EDGES:
        for most in ("1", "64"):
            yield Case(f"to and fro over {edge}, --memory {most}", computed, (to_and_fro, edge, most))
            yield Case(f"pokes at {edge}, --memory {most}", computed, (poked_there, edge, most))
            yield Case(f"over copies behind {edge}, --memory {most}", computed, (ahead, edge, most))
            yield Case(f"stops around {edge}, --memory {most}", as_without, (TEXT, stops_there(edge), most, "5000000"))
    wide = (b"step 1048580\nmem 65528 16\nprint %i\nstep 1048576\nback 1048577\nprint %i\nwatch %i\nreverse\nwhere\n"
            b"reverse\nback 100000\nprint %i\nback 948575\nwhere\n")
    for most in ("1", "2", "64"):
        yield Case(f"copies of 2 MB, --memory {most}", as_without, (WIDE, wide, most, "3000000"))
