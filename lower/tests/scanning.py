"""sscanf against that of the C library: formats with widths, lengths, sets and dropped values over texts that fit them,
nearly or not at all."""
import ctypes
import random
from collections.abc import Iterator
from typing import NamedTuple

from .floats import string_of
from .library import is_there
from .running import Results, Running, Skipped

COUNT, AT_ONCE = 1200, 400
# Each value goes to a place of its own, of so many bytes, of which each is 170 before.
PLACES, ROOM, BEFORE = 5, 24, 170
SETS = ("[a-c]", "[^,]", "[]x]", "[^]x]", "[0-9a-f]", "[-+]", "[a-]", "[z-a]", "[%d]")
NUMBERS = ("0", "7", "-12", "+5", "0x1f", "0X", "077", "08", "4294967296", "-9223372036854775809",
           "18446744073709551616", "1f", "-", "+", "x", "12a")
FLOATS = ("1.5", "-.25", "1e3", "1e+", "1e+x", ".", "-", "0x1.8p1", "0x", "inf", "INFINITY", "infix", "nan", "na",
          "1.2.3", "12e-2e", "00012", "3.4028236e38", "5e-324", "1e400")
WORDS = ("abc", "a", "cab,", "x]y", "word", "%d", "--", "", "ABC")
BETWEEN = ("", " ", "  \t", "\n", ",", ", ", "%")


class Case(NamedTuple):
    """A text, a format, and how many addresses it takes."""

    text: str
    form: str
    places: int


def conversion(choice: random.Random) -> tuple[str, str, bool]:
    """A conversion without its `%` and width, a text that may fit, and whether it takes an address."""
    kind = choice.random()
    dropped = choice.random() < 0.15
    if kind < 0.5:
        length = choice.choice(("", "", "", "hh", "h", "l", "ll", "z", "j", "t"))
        body, text = length + choice.choice("diuxXo"), choice.choice(NUMBERS)
    elif kind < 0.65:
        body, text = choice.choice(("", "l")) + choice.choice("fFeEgGaA"), choice.choice(FLOATS)
    elif kind < 0.75:
        body, text = choice.choice(("n", "hn", "ln", "hhn")), ""
        dropped = False
    else:
        # With an `l` the places take wide characters.
        body, text = choice.choice(("", "", "l")) + choice.choice(("s", "c", *SETS)), choice.choice(WORDS)
    return body, text, not dropped


def made(choice: random.Random) -> Case:
    text, form, places = "", "", 0
    while places < PLACES and (not form or choice.random() < 0.7):
        body, near, takes = conversion(choice)
        # A text without a width would leave its place.
        is_text = body[-1] in "sc]"
        widths = ("3", "10", "20") if is_text and body != "c" else ("", "", "1", "3", "10")
        if is_text and body[0] == "l":
            widths = ("1", "3", "5")
        if choice.random() < 0.1:
            near = choice.choice(NUMBERS + FLOATS + WORDS)
        gap = choice.choice(BETWEEN)
        other = gap if choice.random() < 0.8 else choice.choice(BETWEEN)
        form += "%" + ("" if takes else "*") + ("" if body[-1] == "n" else choice.choice(widths)) + body
        form += gap.replace("%", "%%")
        text += choice.choice(("", "", " ")) + near + other
        places += takes
    return Case(text[:choice.choice((99, 99, 99, 5, 0))], form, places)


def by_the_library(case: Case) -> tuple[bytes, int]:
    """What is in the places, and what the call gives."""
    places = (ctypes.c_uint8 * (PLACES * ROOM))(*[BEFORE] * (PLACES * ROOM))
    addresses = [ctypes.c_void_p(ctypes.addressof(places) + ROOM * index) for index in range(case.places)]
    given = ctypes.CDLL(None).sscanf(case.text.encode(), case.form.encode(), *addresses)
    return bytes(places), given


def program(cases: list[Case]) -> str:
    """Does each call, and writes the places and what it gives."""
    size = PLACES * ROOM
    lines = ["export function w $main() {", "@start"]
    data = [f"data $places = {{ z {size} }}", 'data $count = { b "|%d|\\n\\0" }']
    for index, case in enumerate(cases):
        addresses = ", ".join(f"l %a{index}.{place}" for place in range(case.places))
        lines += [f"\t%a{index}.{place} =l add $places, {ROOM * place}" for place in range(case.places)]
        lines += [f"\t%m{index} =l call $memset(l $places, w {BEFORE}, l {size})",
                  f"\t%r{index} =w call $sscanf(l $t{index}, l $f{index}, ...{', ' if addresses else ''}{addresses})",
                  f"\t%w{index} =l call $write(w 1, l $places, l {size})",
                  f"\t%p{index} =w call $printf(l $count, ..., w %r{index})"]
        data += [f"data ${name}{index} = {{ b {string_of(text.encode())} 0 }}"
                 for name, text in (("t", case.text), ("f", case.form))]
    return "\n".join(lines + ["\tret 0", "}"] + data) + "\n"


def batch_fault(running: Running, cases: list[Case]) -> str | None:
    lowered = running.lower_here(program(cases))
    if isinstance(lowered, str):
        return lowered
    written = running.run(lowered.text).output
    for case, (places, given) in zip(cases, map(by_the_library, cases)):
        want = f"{places.decode('latin-1')}|{given}|\n"
        have, written = written[:len(want)], written[len(want):]
        if want != have:
            return f"{case}: {have!r} in place of {want!r}"
    return f"{written!r} behind all" if written else None


def batches() -> Iterator[list[Case]]:
    choice = random.Random(6)
    for _ in range(0, COUNT, AT_ONCE):
        yield [made(choice) for _ in range(AT_ONCE)]


def results(running: Running) -> Results:
    waits = None if is_there() else Skipped("a C library that ctypes finds")
    for number, batch in enumerate(batches(), 1):
        yield f"scanning/{number} ({len(batch)} formats)", waits or batch_fault(running, batch)
        if number == 1:
            yield "scanning/no suspicion", running.suspicion(program(batch[:25]))
