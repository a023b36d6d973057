"""A comparison of two long runs, and a session there: right, and in little memory."""
from __future__ import annotations

import pathlib
import subprocess
import tempfile

from harness.running import difference, quoted

MOST = 100  # MB of address space that the process gets

TEXT = """function w $main() {
@start
	jmp @loop
@loop
	%%i =w phi @start 0, @loop %%next
	%%sum =w phi @start 0, @loop %%more
	%%more =w add %%sum, %%i
%s	%%next =w add %%i, 1
	%%on =w csltw %%next, %d
	jnz %%on, @loop, @end
@end
	%%r =w call $putchar(w %d)
	ret 0
}
"""

# One move to the loop, four a round and 25,000,000 rounds: so the byte comes by move 100,000,002.
GOOD = TEXT % ("", 25_000_000, 65)

# The same with five a round and 20,000,000 rounds.
BAD = TEXT % ("\t%most =w or %more, %i\n", 20_000_000, 66)

# %i and %next are 19,999,999 and 20,000,000 in the last round, and 19,999,998 and 19,999,999 in the one before it.
SCRIPT = b"back 1\nprint %next\nback 5\nprint %next\nstep 6\n"

TOLD = b"""part at event 0
good: output "A"
#100000002 $main @end 1
$main @end 1
$main @end
  0 %r =w call $putchar(w 65)
> 1 ret 0
step 100000002
bad: output "B"
#100000002 $main @end 1
$main @end 1
$main @end
  0 %r =w call $putchar(w 66)
> 1 ret 0
step 100000002
#100000001 $main @end 0
%next = 20000000
#99999996 $main @loop 0
%next = 19999999
#100000002 $main @end 1
"""


def long_fault(program: str, seconds: float) -> str | None:
    """What is wrong with the report or the answers, or None."""
    with tempfile.TemporaryDirectory(prefix="compare-") as place:
        (pathlib.Path(place) / "good.ssa").write_text(GOOD)
        (pathlib.Path(place) / "bad.ssa").write_text(BAD)
        words = ["sh", "-c", 'ulimit -v "$0" && exec "$@"', str(MOST * 1024), program, "good.ssa", "bad.ssa",
                 "--limit", "4294967295", "--session", "bad"]
        try:
            done = subprocess.run(words, cwd=place, input=SCRIPT, capture_output=True, timeout=seconds)
        except subprocess.TimeoutExpired:
            return f"no end after {seconds} seconds"
    if done.returncode != 1:
        return f"status {done.returncode}, {quoted(done.stdout)}"
    return difference(TOLD, done.stdout)
