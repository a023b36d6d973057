"""Tests of questions that have more answers than anybody reads: they end soon, and show what is nearest.

Each gives what is wrong, or None.
"""
from __future__ import annotations

import re
import tempfile
import time
from typing import Callable

from .habits import ENDLESS, READY, missing, written
from .harness import PROMPT, Held

# Seconds for which the changes of a value are looked for.
LOOKED_FOR = 3
# Round k of the loop takes seven moves from #2 + 7k on, and stores at #6 + 7k; the first store is the move from #1.
ROUNDS = 200_000
STORES = f"""export function w $main() {{
@start
	%p =l alloc8 8
	storel 0, %p
@loop
	%i =l phi @start 0, @loop %i1
	%x =l loadl %p
	%y =l mul %x, 31
	%z =l add %y, %i
	storel %z, %p
	%i1 =l add %i, 1
	%c =w csltl %i1, {ROUNDS}
	jnz %c, @loop, @end
@end
	%r =l loadl %p
	%w =w copy %r
	ret %w
}}
"""
END = 7 * ROUNDS + 6
# The search stops once it has counted so many, and shows so many.
ENOUGH, SHOWN = 100_000, 1000


def interrupted_question(program: str) -> str | None:
    """Ctrl-C in a question about millions of changes shows what was found up to there. A round takes two moves behind
    the first one, so %i is 10 from #21 on."""
    with tempfile.TemporaryDirectory(prefix="endless-") as folder:
        session = Held(program, written(folder, "endless.ssa", ENDLESS), "--limit", "6000001")
        try:
            session.type("when %i >= 10\n")
            time.sleep(LOOKED_FOR)
            session.type("\x03")
            answer = session.wait_for(PROMPT)
            session.settle(READY)
            high = re.search(r"; only up to #(\d+), since Ctrl-C stopped the search", answer)
            if not high or not 21 < int(high[1]) < 6_000_001:
                return f"Ctrl-C shows {answer!r}"
            return missing(answer, "holds from #21 on", "1 time in the run from #0 to #6000001 $main @loop 0") or \
                missing(session.do("s"), "#1 $main")
        finally:
            session.close()


def stores_between(low: int, high: int) -> list[int]:
    """From which positions the stores of the loop are made."""
    return [position for position in range(low, high) if position == 1 or position >= 6 and position % 7 == 6]


def counted_nearby(program: str) -> str | None:
    """Of many writes the nearest to the session are shown, and the search says how far it looked."""
    with tempfile.TemporaryDirectory(prefix="stores-") as folder:
        session = Held(program, written(folder, "stores.ssa", STORES), "--limit", str(2 * END))
        try:
            session.do("goto end")
            fault = None
            for here in (END - 1, 700_000):
                session.do(f"goto {here}")
                fault = fault or survey_fault(session.do("writers w[16777216]"), here) or \
                    missing(session.do("writers w[16777300]"), f"0 writes in the run from #0 to #{END} done")
            return fault or session.replayed_fault()
        finally:
            session.close()


def survey_fault(answer: str, here: int) -> str | None:
    told = re.search(r"^(\d+) writes \(the 1000 nearest to #(\d+) are shown\) in the run from #0 to #\d+ done \d+; "
                     rf"only from #(\d+) to #(\d+), since the search stops behind {ENOUGH}$", answer, re.MULTILINE)
    if not told:
        return f"a survey says {answer[-300:]!r}"
    count, at, low, high = map(int, told.groups())
    around = stores_between(low, high)
    nearest = sorted(sorted(around, key=lambda position: abs(position - here))[:SHOWN])
    shown = [int(position) for position in re.findall(r"^#(\d+) \$main @\w+ \d+  line", answer, re.MULTILINE)]
    if at != here or count != len(around) or count < ENOUGH or not low <= here <= high:
        return f"{count} writes from #{low} to #{high} were counted, and {len(around)} are there"
    return None if shown == nearest else f"around #{here} {shown[:2]} to {shown[-2:]} are shown, not {nearest[:2]}"


def survey_interrupted(program: str) -> str | None:
    """Ctrl-C in a search for writes shows those that were found."""
    with tempfile.TemporaryDirectory(prefix="stores-") as folder:
        text = STORES.replace(f"{ROUNDS}", "400000000").replace("storel %z, %p", "%z1 =l copy %z")
        session = Held(program, written(folder, "stores.ssa", text), "--limit", "2000000000")
        try:
            session.do("s 20")
            session.type("writers w[16777216]\n")
            time.sleep(LOOKED_FOR)
            session.type("\x03")
            answer = session.wait_for(PROMPT)
            session.settle(READY)
            if "stopped by Ctrl-C" in answer:
                # The run's end was still looked for, and nothing had been searched.
                return missing(session.do("s"), "#21 $main")
            return missing(answer, "#1 $main @start 1  line 4: storel 0, %p", "1 write in the run from #0 to #",
                           "only from #0 to #", "since Ctrl-C stopped the search") or \
                missing(session.do("s"), "#21 $main")
        finally:
            session.close()


FLOODS: dict[str, Callable[[str], str | None]] = {call.__name__.replace("_", " "): call for call in (
    interrupted_question, counted_nearby, survey_interrupted)}
