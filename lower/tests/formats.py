"""printf against the C library's: formats with all flags, widths, precisions and lengths, and values of all kinds."""
import ctypes
import math
import random
import struct
from typing import NamedTuple

from .floats import double, string_of
from .running import Results, Running, differ

COUNT, AT_ONCE = 6000, 1000
LENGTHS = {"": 32, "hh": 32, "h": 32, "l": 64, "ll": 64, "z": 64, "j": 64, "t": 64}
STRINGS = ("", "a", "word", "several words", "x" * 30)
INTEGERS = (0, 1, 7, 8, 9, 10, 63, 100, 127, 128, 255, 256, 32767, 32768, 65535, 65536, 2 ** 31 - 1, 2 ** 31,
            2 ** 32 - 1, 2 ** 32, 2 ** 63 - 1, 2 ** 63, 2 ** 64 - 1)
FLOATS = (0.0, -0.0, 1.0, 0.5, 1.5, 2.5, 3.5, 0.125, 0.375, 9.5, 9.995, 99.5, 999999.5, 999999.4, 9999995.0, 0.0001,
          0.00001, 0.00009999995, 0.1, 1e15, 1e16, 1e21, 1e22, 1e23, 1e100, 1.7976931348623157e308,
          2.2250738585072014e-308, 5e-324, 123456789.0, 3.141592653589793, float("inf"), float("-inf"), float("nan"))


class Format(NamedTuple):
    """A format, and its arguments: each a class of QBE and its bits, or the index of a string; and how C takes them."""

    text: str
    arguments: list[tuple[str, int]]


def flags(choice: random.Random) -> str:
    return "".join(flag for flag in "-+ #0" if choice.random() < 0.25)


def number(choice: random.Random, most: int) -> tuple[str, list[tuple[str, int]]]:
    """A width or a precision: none, digits, or a star with its argument, which may be negative."""
    kind = choice.random()
    if kind < 0.3:
        return "", []
    value = choice.randrange(most)
    if kind < 0.85:
        return str(value), []
    return "*", [("w", (value if choice.random() < 0.7 else -value) & 0xFFFFFFFF)]


def integer(choice: random.Random) -> int:
    if choice.random() < 0.5:
        return choice.choice(INTEGERS)
    return choice.getrandbits(64) >> choice.randrange(64)


def floating(choice: random.Random) -> float:
    kind = choice.random()
    if kind < 0.4:
        return choice.choice(FLOATS)
    if kind < 0.6:
        return choice.randrange(-10 ** 6, 10 ** 6) / choice.choice((1, 2, 4, 8, 10, 100, 1000))
    if kind < 0.8:
        return choice.uniform(-1, 1) * 10.0 ** choice.randint(-12, 25)
    return double(choice.getrandbits(64))


def made(choice: random.Random) -> Format:
    width, before = number(choice, 25)
    part, behind = number(choice, 24)
    precision = f".{part}" if part or choice.random() < 0.1 else ""
    arguments = before + (behind if precision else [])
    letter = choice.choice("diuxXocspfFeEgGfegaA%")
    if letter == "%":
        return Format("%%", [])
    front = "%" + flags(choice) + width + precision
    if letter in "fFeEgGaA":
        bits = struct.unpack("<Q", struct.pack("<d", floating(choice)))[0]
        return Format(front + choice.choice(("", "l")) + letter, arguments + [("d", bits)])
    if letter == "c":
        return Format(front + "c", arguments + [("w", choice.randrange(33, 127))])
    if letter == "s":
        # Behind the last string comes a null address.
        return Format(front + "s", arguments + [("text", choice.randrange(len(STRINGS) + 1))])
    if letter == "p":
        return Format(front + "p", arguments + [("l", choice.choice((0, integer(choice))))])
    length = choice.choice(list(LENGTHS))
    bits = integer(choice) & (1 << LENGTHS[length]) - 1
    return Format(front + length + letter, arguments + [("w" if LENGTHS[length] == 32 else "l", bits)])


def by_python(form: Format) -> bytes:
    """What Python makes of the flag `#` with g. The C library drops the zeros there where the value is rounded up to a
    power of ten, `1.e+06` for 999999.5: its standard keeps them."""
    value = double(form.arguments[-1][1])
    signed = [bits - (bits >> 31 << 32) for _, bits in form.arguments[:-1]]
    text = form.text.replace("l", "")
    # A negative precision is none.
    if ".*" in text and signed[-1] < 0:
        text, signed = text.replace(".*", ""), signed[:-1]
    return (text % (*signed, value)).encode()


def by_the_library(form: Format) -> bytes:
    """What the C library's snprintf makes of it."""
    if "#" in form.text and form.text[-1] in "gG" and math.isfinite(double(form.arguments[-1][1])):
        return by_python(form)
    library = ctypes.CDLL(None)
    arguments: list[ctypes.c_double | ctypes.c_char_p | ctypes.c_uint32 | ctypes.c_uint64] = []
    for kind, bits in form.arguments:
        if kind == "d":
            arguments.append(ctypes.c_double(double(bits)))
        elif kind == "text":
            arguments.append(ctypes.c_char_p(STRINGS[bits].encode() if bits < len(STRINGS) else None))
        else:
            arguments.append(ctypes.c_uint32(bits) if kind == "w" else ctypes.c_uint64(bits))
    buffer = ctypes.create_string_buffer(2000)
    length = library.snprintf(buffer, ctypes.c_size_t(2000), form.text.encode(), *arguments)
    assert 0 <= length < 2000, form
    return buffer.raw[:length]


def program(forms: list[Format]) -> str:
    """Prints each format between bars on a line, and gives how many bytes were written in all."""
    lines = ["export function w $main() {", "@start", "\t%sum0 =w copy 0"]
    data = [f"data $text{number} = {{ b {string_of(text.encode())} 0 }}" for number, text in enumerate(STRINGS)]
    for index, form in enumerate(forms):
        arguments = "".join(f", l {f'$text{bits}' if bits < len(STRINGS) else 0}" if kind == "text"
                            else f", {kind} {bits}" for kind, bits in form.arguments)
        lines.append(f"\t%r{index} =w call $printf(l $f{index}, ...{arguments})")
        lines.append(f"\t%sum{index + 1} =w add %sum{index}, %r{index}")
        data.append(f"data $f{index} = {{ b {string_of(f'|{form.text}|'.encode())} 10 0 }}")
    return "\n".join(lines + [f"\tret %sum{len(forms)}", "}"] + data) + "\n"


def memory_program(forms: list[Format], sizes: list[int]) -> str:
    """Prints each format to memory of a size, where an `x` stands in each byte, then the memory and the count."""
    lines = ["export function w $main() {", "@start"]
    data = [f"data $text{number} = {{ b {string_of(text.encode())} 0 }}" for number, text in enumerate(STRINGS)]
    data += ["data $to = { z 400 }", 'data $count = { b "|%d|\\n\\0" }']
    for index, (form, size) in enumerate(zip(forms, sizes)):
        arguments = "".join(f", l {f'$text{bits}' if bits < len(STRINGS) else 0}" if kind == "text"
                            else f", {kind} {bits}" for kind, bits in form.arguments)
        lines.append(f"\t%m{index} =l call $memset(l $to, w 120, l 64)")
        lines.append(f"\t%r{index} =w call $snprintf(l $to, l {size}, l $f{index}, ...{arguments})")
        lines.append(f"\t%w{index} =l call $write(w 1, l $to, l 64)")
        lines.append(f"\t%p{index} =w call $printf(l $count, ..., w %r{index})")
        data.append(f"data $f{index} = {{ b {string_of(form.text.encode())} 0 }}")
    return "\n".join(lines + ["\tret 0", "}"] + data) + "\n"


def memory_fault(running: Running, forms: list[Format], choice: random.Random) -> str | None:
    """snprintf cuts what it writes to the size, and gives the whole length."""
    sizes = [choice.choice((0, 1, 2, 10, 30, 64)) for _ in forms]
    lowered = running.lower_here(memory_program(forms, sizes))
    if isinstance(lowered, str):
        return lowered
    given = running.run(lowered.text).output.split("|\n")
    for form, size, have in zip(forms, sizes, given):
        whole = by_the_library(form)
        kept = whole[:size - 1] + b"\0" if size else b""
        want = f"{(kept + b'x' * (64 - len(kept))).decode('latin-1')}|{len(whole)}"
        if want != have:
            return f"{form} in {size} bytes: {have!r} in place of {want!r}"
    return None if len(given) == len(forms) + 1 else f"{len(given)} lines"


def batch_fault(running: Running, forms: list[Format]) -> str | None:
    wanted = [f"|{by_the_library(form).decode('latin-1')}|" for form in forms]
    lowered = running.lower_here(program(forms))
    if isinstance(lowered, str):
        return lowered
    run = running.run(lowered.text)
    given = run.output.split("\n")
    for form, want, have in zip(forms, wanted, given):
        if want != have:
            return f"{form}: {have!r} in place of {want!r}"
    total = sum(len(line) + 1 for line in wanted)
    return None if run.end == f"done {total}" and len(given) == len(wanted) + 1 else \
        f"{run.end}, and {total} bytes wanted"


def positioned(choice: random.Random) -> Format:
    """Conversions that name their arguments by numbers: each of some, in any order, and some of them again."""
    arguments: list[tuple[str, int]] = []
    for _ in range(choice.randint(1, 6)):
        kind = choice.choice(("w", "l", "d", "text"))
        bits = {"w": integer(choice) & 2 ** 32 - 1, "l": integer(choice), "text": choice.randrange(len(STRINGS)),
                "d": struct.unpack("<Q", struct.pack("<d", floating(choice)))[0]}[kind]
        arguments.append((kind, bits))
    named = [*range(len(arguments)), *(choice.randrange(len(arguments)) for _ in range(choice.randrange(4)))]
    choice.shuffle(named)
    letters = {"w": ("d", "i", "u", "x", "X", "o", "hd", "hhu"), "l": ("ld", "lx", "zu", "jd", "p"),
               "d": ("f", "e", "g", "E", "G"), "text": ("s",)}
    parts = [f"{choice.choice(('', ' ', 'and'))}%{index + 1}$"
             f"{choice.choice(('', '-', '+', '0'))}{choice.choice(('', '3', '12'))}{choice.choice(('', '.2', '.7'))}"
             f"{choice.choice(letters[arguments[index][0]])}" for index in named]
    return Format("".join(parts), arguments)


class Counted(NamedTuple):
    """A format that stores by `%n` how many bytes there are, and the number that is written before."""

    text: str
    number: int


def counted_fault(running: Running, forms: list[Counted]) -> str | None:
    """`%n` of each length stores what the C library's does, and the bytes behind it stay."""
    library = ctypes.CDLL(None)
    buffer = ctypes.create_string_buffer(2000)
    lines, data, wanted = ["export function w $main() {", "@start"], ["data $n = align 8 { l 0 }"], []
    for index, (text, number) in enumerate(forms):
        place = ctypes.c_uint64(2 ** 64 - 1)
        library.snprintf(buffer, ctypes.c_size_t(2000), text.encode(), ctypes.c_int(number), ctypes.byref(place))
        wanted.append(f"{buffer.value.decode()}={place.value:x}")
        lines += ["\tstorel -1, $n", f"\t%r{index} =w call $printf(l $f{index}, ..., w {number}, l $n)",
                  f"\t%n{index} =l loadl $n", f"\t%s{index} =w call $printf(l $told, ..., l %n{index})"]
        data.append(f"data $f{index} = {{ b {string_of(text.encode())} 0 }}")
    data.append('data $told = { b "=%lx\\n\\0" }')
    lowered = running.lower_here("\n".join(lines + ["\tret 0", "}"] + data) + "\n")
    if isinstance(lowered, str):
        return lowered
    return differ("lines", wanted, running.run(lowered.text).output.split("\n")[:-1])


def results(running: Running) -> Results:
    choice = random.Random(4)
    forms = [made(choice) for _ in range(COUNT)]
    for begin in range(0, COUNT, AT_ONCE):
        batch = forms[begin:begin + AT_ONCE]
        yield f"formats/{begin // AT_ONCE + 1} ({len(batch)} formats)", batch_fault(running, batch)
    yield "formats/no suspicion", running.suspicion(program(forms[:40]).replace("\tret %sum40", "\tret 0"))
    for begin in range(0, 1000, 500):
        batch = [form for form in forms[begin:begin + 500] if not form.text.endswith("%%")]
        yield f"formats/to memory {begin // 500 + 1} ({len(batch)} formats)", memory_fault(running, batch, choice)
    yield "formats/by positions (400 formats)", batch_fault(running, [positioned(choice) for _ in range(400)])
    counted = [Counted(f"{'x' * before}%{width}d%{length}n%% behind", choice.randrange(10 ** 6))
               for length in LENGTHS for before, width in ((0, 1), (3, 7), (20, 300))]
    counted += [Counted("%1$d and %2$hhn%1$5d", 7), Counted("%2$n%1$d", 12)]
    yield f"formats/counts ({len(counted)} formats)", counted_fault(running, counted)
