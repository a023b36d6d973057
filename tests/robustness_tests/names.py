"""Names that are made to collide take no longer than random names, in one run.

The file colliding-names has names of seven letters that get the same place and the same tag in a table under a fixed
seed, as a text's author could find them. The tables hash with keys that are drawn when the program starts, so here they
are ordinary names. Under the fixed seed the time of such a text grew with the square of its names.
"""
from __future__ import annotations

import pathlib
import string
from collections.abc import Callable, Iterator, Sequence
from random import Random

from harness.running import Case, Running

NAMES = (pathlib.Path(__file__).resolve().parent / "colliding-names").read_text().split()
ROUNDS = 5
# How much longer the load of the colliding names may take, as a factor and in seconds besides, of a busy machine.
FACTOR, SLACK = 3, 0.03
LOW_BITS, PLACE_AND_TAG = 2**64 - 1, 0xff001fff

TEXTS: dict[str, Callable[[Sequence[str]], str]] = {
    "labels": lambda names: "function $main() {\n" + "".join(f"@{name}\n" for name in names) + "ret\n}\n",
    "temporaries": lambda names: "function $main() {\n@s\n"
    + "".join(f"%{name} =w copy 1\n" for name in names) + "ret\n}\n",
    "data": lambda names: "".join(f"data ${name} = {{ }}\n" for name in names) + "function $main() {\n@s\nret\n}\n",
}


def folded(a: int, b: int) -> int:
    product = a * b
    return (product & LOW_BITS) ^ (product >> 64)


def hashed(name: str) -> int:
    """The hash of a name of seven letters under the fixed seed."""
    step = 0x9e3779b97f4a7c15
    state = folded(0x243f6a8885a308d3 ^ len(name), step ^ 16)
    for byte in name.encode():
        state = folded(state ^ byte * 0x10101, step ^ 2)
    return (state ^ state >> 32) & 0xffffffff


def do_collide(_running: Running) -> str | None:
    """Under the fixed seed all names have one place and one tag, and none stands twice."""
    places = {hashed(name) & PLACE_AND_TAG for name in NAMES}
    return None if len(places) == 1 and len(set(NAMES)) == len(NAMES) > 7000 else \
        f"{len(NAMES)} names, {len(places)} places"


def take_no_longer(running: Running, kind: str) -> str | None:
    random = Random(7)
    others = ["".join(random.choices(string.ascii_letters, k=7)) for _ in NAMES]
    colliding, plain = TEXTS[kind](NAMES), TEXTS[kind](others)
    times = [(running.timed(colliding.encode())[0], running.timed(plain.encode())[0]) for _ in range(ROUNDS)]
    taken, beside = min(one for one, _ in times), min(other for _, other in times)
    return None if taken <= FACTOR * beside + SLACK else f"{taken:.3f} seconds, and {beside:.3f} for names at random"


def cases() -> Iterator[Case]:
    yield Case("names that collide under a fixed seed", do_collide)
    for kind in TEXTS:
        yield Case(f"names made to collide, as {kind}", take_no_longer, (kind,))
