"""The functions of the C library against the machine's own: random calls in batches, by ctypes. Each batch is a text
that makes the calls, compares their results with the library's, and prints the numbers of those that differ."""
import ctypes
import math
import random
import struct
from collections.abc import Callable, Iterator
from fractions import Fraction
from typing import NamedTuple

from .floats import string_of
from .running import Results, Running, Skipped, differ
from .telling import OPTION_LETTER

LONG = (1 << 64) - 1
BUFFER = 160
MOST_RECORDS = 1500
TYPES = {"w": ctypes.c_int32, "l": ctypes.c_int64, "u": ctypes.c_uint64, "d": ctypes.c_double, "s": ctypes.c_float,
         "p": ctypes.c_void_p, "b": ctypes.c_void_p, "e": ctypes.c_void_p, "v": None}


# An argument: a number, or the bytes of a text.
Given = int | bytes | float


class Shape(NamedTuple):
    """A function: its name, what it gives and takes, and how arguments are made.

    Kinds are w l d s, u for an l without a sign, p for a text (given back: its place in that text), b for a buffer with
    a text that the function changes (given back: as p), and e for the address of a long that the function sets.
    """

    name: str
    gives: str
    takes: str
    make: Callable[[random.Random], list[Given]]


class Record(NamedTuple):
    """A call: its arguments as bits or texts, and what came of it: the result, the long that was set, the buffer,
    errno."""

    arguments: list[int | bytes]
    result: int
    was_set: int
    buffer: bytes
    error: int


# Values.

INTEGERS = (0, 1, -1, 2, 9, 10, 100, 255, 256, 2 ** 31 - 1, -2 ** 31, 2 ** 31, 2 ** 32, 2 ** 63 - 1, -2 ** 63)
SPACES = (b"", b"", b"", b" ", b"\t\n ", b"\v\f\r")
DIGITS = b"0123456789abcdefghijklmnopqrstuvwxyzABCDEFGHIJKLMNOPQRSTUVWXYZ"
DOUBLES = (0.0, -0.0, 0.25, 0.5, -0.5, 0.75, 1.0, -1.0, 1.5, 2.5, -2.5, 3.0, 1e15, 4503599627370495.5,
           4503599627370496.0, 1e300, 5e-324, 2.2250738585072014e-308, math.inf, -math.inf, math.nan)


def integer(choice: random.Random) -> int:
    return choice.choice(INTEGERS) if choice.random() < 0.3 else \
        choice.getrandbits(64) - (1 << 63) >> choice.randrange(64)


def numeral(choice: random.Random) -> bytes:
    """What may be a number: spaces, a sign, a prefix, digits, and something after it."""
    front = choice.choice((b"", b"", b"0", b"0x", b"0X", b"0b"))
    length = choice.choice((0, 1, 2, 3, 5, 10, 19, 20, 24))
    letters = DIGITS[:10] if choice.random() < 0.6 else DIGITS[:choice.choice((2, 8, 16, 62))]
    digits = bytes(choice.choice(letters) for _ in range(length))
    if choice.random() < 0.15:
        digits = str(abs(choice.choice(INTEGERS)) + choice.randrange(-1, 2)).encode()
    return choice.choice(SPACES) + choice.choice((b"", b"", b"-", b"+", b"+-")) + front + digits + \
        choice.choice((b"", b"", b" 7", b"z", b".5"))


def decimal(choice: random.Random) -> bytes:
    """What may be a float: near halves, at the ends of the range, with many digits, in hexadecimal, and words."""
    kind = choice.random()
    front = choice.choice(SPACES) + choice.choice((b"", b"", b"-", b"+"))
    behind = choice.choice((b"", b"", b"x", b"e", b"e+", b".5", b" 1"))
    if kind < 0.3:
        value = struct.unpack("<d", struct.pack("<Q", choice.getrandbits(63)))[0]
        return front + f"{value:.{choice.randrange(25)}e}".encode() + behind
    if kind < 0.45:
        # Between two neighbours, or right beside that.
        bits = choice.getrandbits(52) | choice.randrange(900, 1150) << 52
        low, high = (struct.unpack("<d", struct.pack("<Q", bits + more))[0] for more in (0, 1))
        half = (Fraction(low) + Fraction(high)) / 2
        digits = str(half.numerator * 10 ** 900 // half.denominator)
        return front + digits.encode() + choice.choice((b"", b"0", b"1")) + b"e-900" + behind
    if kind < 0.6:
        digits = "".join(choice.choice("0123456789") for _ in range(choice.choice((1, 3, 17, 19, 40, 900))))
        point = choice.randrange(len(digits) + 1)
        return front + f"{digits[:point]}.{digits[point:]}e{choice.randrange(-340, 320)}".encode() + behind
    if kind < 0.8:
        digits = "".join(choice.choice("0123456789abcdefABCDEF")
                         for _ in range(choice.choice((1, 2, 13, 14, 16, 17, 30))))
        point = choice.randrange(len(digits) + 1)
        power = choice.choice(("", "p3", "P-7", f"p{choice.randrange(-1150, 1100)}"))
        return front + f"0x{digits[:point]}.{digits[point:]}{power}".encode() + behind
    return front + choice.choice((b"0", b"-0.0", b".", b".5", b"5.", b"inf", b"INFINITY", b"infin", b"nan", b"NaNa",
                                  b"e5", b"1e", b"1e999999999", b"1e-999999999", b"0x", b"0x.", b"0x.8", b"0xp1",
                                  b"00012", b"0.000e9")) + behind


def text(choice: random.Random, most: int = 24) -> bytes:
    letters = b"ab" if choice.random() < 0.7 else bytes(range(1, 256))
    return bytes(choice.choice(letters) for _ in range(choice.randrange(most)))


def likes(choice: random.Random) -> list[Given]:
    """Two texts that are often the same but for the case of letters."""
    first = text(choice)
    second = first.swapcase() if choice.random() < 0.5 else first.upper()
    return [first, second + choice.choice((b"", b"", b"A", b"z", b"\xe9")) if choice.random() < 0.8 else text(choice)]


def double(choice: random.Random) -> float:
    kind = choice.random()
    if kind < 0.25:
        return choice.choice(DOUBLES)
    if kind < 0.5:
        return choice.randrange(-4000, 4000) / choice.choice((1, 2, 4, 8, 16))
    if kind < 0.75:
        return choice.uniform(-1, 1) * 2.0 ** choice.randint(-30, 60)
    return float(struct.unpack("<d", struct.pack("<Q", choice.getrandbits(64)))[0])


def single(choice: random.Random) -> float:
    kind = choice.random()
    if kind < 0.7:
        try:
            return float(struct.unpack("<f", struct.pack("<f", double(choice)))[0])
        except OverflowError:
            return math.inf
    return float(struct.unpack("<f", struct.pack("<I", choice.getrandbits(32)))[0])


def power(choice: random.Random) -> int:
    return choice.choice((0, 1, -1, 52, -52, 1000, -1000, 1074, -1074, 1100, 2 ** 31 - 1, -2 ** 31,
                          choice.randrange(-2200, 2200)))


def base(choice: random.Random) -> int:
    return choice.choice((10, 10, 0, 16, 8, 2, 36, choice.randrange(-1, 40)))


def shapes() -> list[Shape]:
    """All functions that are tried, with as many random calls of each as `results` asks for."""
    def texts(name: str, gives: str, takes: str, *makers: Callable[[random.Random], Given]) -> Shape:
        return Shape(name, gives, takes, lambda choice: [make(choice) for make in makers])

    def size(choice: random.Random) -> int:
        return choice.randrange(30)

    def byte(choice: random.Random) -> int:
        return choice.choice((97, 98, 0, choice.randrange(-128, 256)))

    found = [texts("abs", "w", "w", lambda choice: integer(choice) >> 32), texts("labs", "l", "l", integer),
             texts("llabs", "l", "l", integer), texts("atoi", "w", "p", numeral), texts("atol", "l", "p", numeral)]
    found += [Shape(name, kind, "pew", lambda choice: [numeral(choice), 0, base(choice)])
              for name, kind in (("strtol", "l"), ("strtoll", "l"), ("strtoul", "u"), ("strtoull", "u"))]
    found += [Shape("strtod", "d", "pe", lambda choice: [decimal(choice), 0]),
              Shape("strtof", "s", "pe", lambda choice: [decimal(choice), 0]), texts("atof", "d", "p", decimal)]
    found += [texts("strcat", "b", "bp", text, text), texts("strncat", "b", "bpl", text, text, size),
              texts("strcpy", "b", "bp", text, text), texts("strncpy", "b", "bpl", text, text, size),
              texts("stpcpy", "b", "bp", text, text), texts("strlen", "l", "p", text),
              texts("strnlen", "l", "pl", text, size), texts("strchr", "p", "pw", text, byte),
              texts("strrchr", "p", "pw", text, byte),
              texts("memchr", "p", "pwl", lambda choice: text(choice) + bytes(8), byte,
                    lambda choice: choice.randrange(9)),
              texts("strstr", "p", "pp", text, lambda choice: text(choice, 4)),
              texts("strspn", "l", "pp", text, lambda choice: text(choice, 4)),
              texts("strcspn", "l", "pp", text, lambda choice: text(choice, 4)),
              texts("strpbrk", "p", "pp", text, lambda choice: text(choice, 4)),
              texts("strchrnul", "p", "pw", text, byte),
              texts("strcasestr", "p", "pp", text, lambda choice: text(choice, 3)),
              texts("stpncpy", "b", "bpl", text, text, size),
              texts("memrchr", "p", "pwl", lambda choice: text(choice) + bytes(8), byte,
                    lambda choice: choice.randrange(9)),
              texts("memmem", "p", "plpl", lambda choice: text(choice) + bytes(8), lambda choice: choice.randrange(9),
                    lambda choice: text(choice, 4) + bytes(3), lambda choice: choice.randrange(4)),
              Shape("strcasecmp", "w", "pp", likes), Shape("strncasecmp", "w", "ppl",
                                                           lambda choice: [*likes(choice), size(choice)])]
    found += [texts(name, "w", "w", lambda choice: choice.randrange(-128, 256)) for name in (
        "isalpha isdigit isalnum isspace isupper islower isxdigit iscntrl isprint isgraph ispunct isblank tolower "
        "toupper").split()]
    for end, kind, make in (("", "d", double), ("f", "s", single)):
        found += [texts(name + end, kind, kind, make)
                  for name in "fabs floor ceil trunc round rint nearbyint sqrt".split()]
        found += [texts(name + end, kind, kind * 2, make, make)
                  for name in "fmod copysign fmin fmax fdim nextafter remainder".split()]
        found.append(texts("remquo" + end, kind, kind * 2 + "e", make, make, lambda choice: 0))
        found += [texts(name + end, "l", kind, make) for name in "lround lrint llround llrint".split()]
        found += [texts("ilogb" + end, "w", kind, make), texts("logb" + end, kind, kind, make),
                  texts("scalbln" + end, kind, kind + "l", make, power)]
        found += [texts(name + end, kind, kind + "w", make, power) for name in ("ldexp", "scalbn")]
        found += [texts(name + end, kind, kind + "e", make, lambda choice: 0) for name in ("frexp", "modf")]
    return found


# What the machine's library gives.

def bits_of(kind: str, value: int | float | None) -> int:
    """A value as the bits of a long: of a NaN those of one and the same."""
    if kind in "ds":
        value = math.nan if value != value else value
        letters = ("<d", "<Q") if kind == "d" else ("<f", "<I")
        return int(struct.unpack(letters[1], struct.pack(letters[0], value))[0]) & (LONG if kind == "d" else 0xFFFFFFFF)
    return int(value or 0) & (LONG if kind in "lupb" else 0xFFFFFFFF)


def asked(shape: Shape, given: list[Given]) -> Record:
    """What the machine's library does."""
    is_mathematical = shape.gives in "ds" or shape.takes in ("d", "s")
    library = ctypes.CDLL("libm.so.6" if is_mathematical else None, use_errno=True)
    call = getattr(library, shape.name)
    call.restype, call.argtypes = TYPES[shape.gives], [TYPES[kind] for kind in shape.takes]
    buffer, place = ctypes.create_string_buffer(BUFFER), ctypes.c_int64(0)
    arguments: list[int | float] = []
    kept = []
    for kind, value in zip(shape.takes, given):
        if not isinstance(value, bytes):
            arguments.append(ctypes.addressof(place) if kind == "e" else value)
        elif kind == "b":
            ctypes.memmove(buffer, value + b"\0", len(value) + 1)
            arguments.append(ctypes.addressof(buffer))
        else:
            kept.append(ctypes.create_string_buffer(value))
            arguments.append(ctypes.addressof(kept[-1]))
    ctypes.set_errno(0)
    result = call(*arguments)
    if shape.gives in "pb":
        # A place in the first text or in the buffer, from 1 on; 0 is none.
        result = result - arguments[0] + 1 if result else 0
    was_set = place.value & LONG
    if "e" in shape.takes and shape.takes[0] == "p":
        was_set = was_set - int(arguments[0]) + 1 & LONG if was_set else 0
    bits: list[int | bytes] = [value if isinstance(value, bytes) else bits_of(kind, value)
                               for kind, value in zip(shape.takes, given)]
    error = ctypes.get_errno() if shape.name.startswith(("strto", "ato")) else 0
    if shape.name.startswith("modf"):
        was_set = bits_of(shape.gives,
                          (ctypes.c_double if shape.gives == "d" else ctypes.c_float).from_buffer(place).value)
    return Record(bits, bits_of(shape.gives, result), was_set, buffer.raw if "b" in shape.takes else b"", error)


# The text that tries them.

class Pool:
    """Texts, each with a zero after it, in an object of data."""

    def __init__(self) -> None:
        self.bytes = bytearray()

    def place(self, text: bytes) -> int:
        at = len(self.bytes)
        self.bytes += text + b"\0"
        return at


HEAD = """
data $buffer = {{ z {buffer} }}
data $set = {{ l 0 }}
data $f = {{ b "%d\\n\\0" }}
data $result = {{ l 0 }}
"""


def checked(shape: Shape, records: list[Record], pool: Pool) -> str:
    """A function `$check` that makes all calls, and prints the numbers of those that differ."""
    words = []
    for record in records:
        words += [pool.place(value) if isinstance(value, bytes) else value for value in record.arguments]
        words += [record.result, record.was_set, pool.place(record.buffer) if record.buffer else 0, record.error]
    width = 8 * (len(shape.takes) + 4)
    data = f"data $records = {{ l {' '.join(map(str, words))} }}\n"
    lines = ["export function w $main() {", "@start", "\t%bad =w copy 0", "\t%at =l copy $records",
             "\t%number =w copy 0", "@loop", f"\t%is =w cultw %number, {len(records)}", "\tjnz %is, @call, @end",
             "@call", "\tstorel 0, $set", "\t%errno =l call $__errno_location()", "\tstorew 0, %errno",
             "\t%first =l copy 0", *loading(shape)]
    given = ", ".join(f"{'l' if kind in 'upbe' else kind} %v{index}" for index, kind in enumerate(shape.takes))
    gives = "l" if shape.gives in "upb" else shape.gives
    lines += [f"\t%r ={gives} call ${shape.name}({given})", *comparing(shape, len(shape.takes)),
              "\tjnz %differs, @differs, @next", "@differs", "\t%p =w call $printf(l $f, ..., w %number)",
              "\t%bad =w add %bad, 1", "@next", f"\t%at =l add %at, {width}", "\t%number =w add %number, 1",
              "\tjmp @loop", "@end", f"\tret {len(records)}", "}"]
    return data + "\n".join(lines) + "\n"


def loading(shape: Shape) -> Iterator[str]:
    """The arguments of a record."""
    for index, kind in enumerate(shape.takes):
        yield f"\t%p{index} =l add %at, {8 * index}"
        if kind in "ds":
            yield f"\t%v{index} ={kind} load{kind} %p{index}"
        elif kind == "e":
            yield f"\t%v{index} =l copy $set"
        else:
            yield f"\t%l{index} =l loadl %p{index}"
            if kind == "w":
                yield f"\t%v{index} =w copy %l{index}"
            elif kind == "p":
                yield f"\t%v{index} =l add $pool, %l{index}"
            elif kind == "b":
                yield f"\t%from{index} =l add $pool, %l{index}"
                yield f"\t%c{index} =l call $memset(l $buffer, w 0, l {BUFFER})"
                yield f"\t%d{index} =l call $strcpy(l $buffer, l %from{index})"
                yield f"\t%v{index} =l copy $buffer"
            else:
                yield f"\t%v{index} =l copy %l{index}"


def comparing(shape: Shape, count: int) -> Iterator[str]:
    """Whether what came of a call differs from what the library gave."""
    for index, name in enumerate(("result", "set", "pool", "error")):
        yield f"\t%{name}.place =l add %at, {8 * (count + index)}"
        yield f"\t%want.{name} =l loadl %{name}.place"
    if shape.gives in "ds":
        nan = 0x7FF8 << 48 if shape.gives == "d" else 0x7FC00000
        yield f"\t%bits ={'l' if shape.gives == 'd' else 'w'} cast %r"
        yield f"\t%wide =l {'copy' if shape.gives == 'd' else 'extuw'} %bits"
        yield f"\t%is.nan =l cuo{shape.gives} %r, %r"
        yield "\t%mask =l sub %is.nan, 1"
        yield "\t%kept =l and %wide, %mask"
        yield f"\t%other =l mul %is.nan, {nan}"
        yield "\t%got =l or %kept, %other"
    elif shape.gives in "pb":
        yield "\t%is.any =l cnel %r, 0"
        yield "\t%offset =l sub %r, %v0"
        yield "\t%offset =l add %offset, 1"
        yield "\t%got =l mul %offset, %is.any"
    else:
        yield f"\t%got =l {'extuw' if shape.gives == 'w' else 'copy'} %r"
    yield "\t%differs =w cnel %got, %want.result"
    yield "\t%now =l loadl $set"
    if shape.takes[:2] == "pe":
        yield "\t%is.set =l cnel %now, 0"
        yield "\t%now =l sub %now, %v0"
        yield "\t%now =l add %now, 1"
        yield "\t%now =l mul %now, %is.set"
    elif shape.name in ("modf", "modff"):
        # A NaN is there where the result is one.
        yield "\t%now =l mul %now, %mask"
        yield "\t%now =l sub 0, %now"
        yield "\t%now =l or %now, %other"
    yield "\t%other.set =w cnel %now, %want.set"
    yield "\t%differs =w or %differs, %other.set"
    yield "\t%e =w loadw %errno"
    yield "\t%other.error =w cnew %e, %want.error"
    yield "\t%differs =w or %differs, %other.error"
    if "b" in shape.takes:
        yield "\t%wanted =l add $pool, %want.pool"
        yield f"\t%other.buffer =w call $memcmp(l $buffer, l %wanted, l {BUFFER})"
        yield "\t%differs =w or %differs, %other.buffer"


def batch_fault(running: Running, shape: Shape, count: int, seed: int) -> str | None:
    choice = random.Random(f"{shape.name} {seed}")
    records = [asked(shape, shape.make(choice)) for _ in range(count)]
    # One that is wrong must be told.
    records.append(records[0]._replace(result=records[0].result ^ 1))
    pool = Pool()
    body = checked(shape, records, pool)
    text = HEAD.format(buffer=BUFFER) + f"data $pool = {{ b {string_of(bytes(pool.bytes))} 0 }}\n" + body
    fault, told = running.told_of_batch(text, len(records), str(count))
    if fault or not told:
        return fault
    return f"{len(told)} differ, as {records[int(told[0])]}"


def suspicion_fault(running: Running, count: int) -> str | None:
    """Nothing that the functions do in right calls is suspicious."""
    pool = Pool()
    bodies, calls = [], []
    for shape in shapes():
        choice = random.Random(f"{shape.name} suspicion")
        body = checked(shape, [asked(shape, shape.make(choice)) for _ in range(count)], pool)
        bodies.append(body.replace("export function w $main", f"function w $try.{shape.name}")
                      .replace("$records", f"$records.{shape.name}"))
        calls.append(f"\t%r.{shape.name} =w call $try.{shape.name}()\n")
    return running.suspicion(
        HEAD.format(buffer=BUFFER) + f"data $pool = {{ b {string_of(bytes(pool.bytes))} 0 }}\n" + "".join(bodies) +
        "export function w $main() {\n@start\n" + "".join(calls) + "\tret 0\n}\n")


# Sorting, random numbers and streams.

SORTED = """
data $members = {{ l {members} }}
data $key = {{ l {key} }}
function w $compare(l %a, l %b) {{
@start
	%x =w loadw %a
	%y =w loadw %b
	%less =w csltw %x, %y
	%more =w csgtw %x, %y
	%r =w sub %more, %less
	%n =w loadw $asked
	%m =w add %n, 1
	storew %m, $asked
	ret %r
}}
data $asked = {{ w 0 }}
data $f = {{ b "%d %d\\n\\0" }}
export function w $main() {{
@start
	call $qsort(l $members, l {count}, l 8, l $compare)
	%n =w loadw $asked
	%place =l call $bsearch(l $key, l $members, l {count}, l 8, l $compare)
	%is =w cnel %place, 0
	%p =w call $printf(l $f, ..., w %n, w %is)
	%w =l call $write(w 1, l $members, l {size})
	ret 0
}}
"""


def merges(count: int, values: list[int]) -> int:
    """How often sorting by merging asks about two members."""
    if count < 2:
        return 0
    half = count // 2
    first, second = sorted(values[:half]), sorted(values[half:])
    number = merges(half, values[:half]) + merges(count - half, values[half:])
    while first and second:
        (first if first[0] <= second[0] else second).pop(0)
        number += 1
    return number


def sorting_fault(running: Running, seed: int) -> str | None:
    """Members whose low words are compared, and whose high words say where they were."""
    choice = random.Random(seed)
    count = choice.choice((1, 2, 3, 7, 40, 200))
    keys = [choice.randrange(-20, 20) for _ in range(count)]
    key = choice.randrange(-25, 25)
    members = [index << 32 | value & 0xFFFFFFFF for index, value in enumerate(keys)]
    wanted = [members[index] for index in sorted(range(count), key=keys.__getitem__)]
    text = SORTED.format(members=" ".join(map(str, members)), count=count, size=8 * count, key=key & 0xFFFFFFFF)
    lowered = running.lower_here(text)
    if isinstance(lowered, str):
        return lowered
    run = running.run(lowered.text)
    head = f"{merges(count, keys)} {int(key in keys)}\n"
    return differ("output", head.encode() + struct.pack(f"<{count}Q", *wanted), run.output.encode("latin-1"))


def random_fault(running: Running) -> str | None:
    """Sequences of several seeds, and that of no seed."""
    library = ctypes.CDLL(None)
    body: list[str] = []
    wanted: list[int] = []
    library.srand(1)
    for seed in (None, 0, 1, 42, 2 ** 31 - 1, 2 ** 31, 2 ** 32 - 1, 123456789):
        if seed is not None:
            library.srand(ctypes.c_uint32(seed))
            body.append(f"call $srand(w {seed})")
        for _ in range(40):
            body += [f"%r{len(wanted)} =w call $rand()",
                     f"%p{len(wanted)} =w call $printf(l $f, ..., w %r{len(wanted)})"]
            wanted.append(library.rand())
    text = 'data $f = { b "%d " , b 0 }\nexport function w $main() {\n@start\n' + "\n".join(body) + "\n\tret 0\n}\n"
    lowered = running.lower_here(text)
    return lowered if isinstance(lowered, str) else \
        differ("numbers", "".join(f"{number} " for number in wanted), running.run(lowered.text).output)


STREAMS = """
data $line = { z 16 }
data $f = { b "[%s]", b 0 }
data $more = { b "%d %d %d|", b 0 }
data $text = { b "text", b 0 }
export function w $main() {
@start
	%c =w call $getchar()
	%input =l loadl $stdin
	%out =l loadl $stdout
	%err =l loadl $stderr
@loop
	%p =l call $fgets(l $line, w 8, l %input)
	%is =w cnel %p, 0
	jnz %is, @line, @end
@line
	%n =w call $fprintf(l %out, l $f, ..., l $line)
	jmp @loop
@end
	%e =w call $feof(l %input)
	%d =w call $getchar()
	%n =w call $fprintf(l %err, l $more, ..., w %c, w %d, w %e)
	%n =w call $fputs(l $text, l %err)
	%n =w call $fputc(w 65, l %out)
	%n =w call $putc(w 322, l %out)
	%n =l call $fwrite(l $text, l 2, l 1, l %out)
	%n =w call $fflush(l 0)
	%r =l call $write(w 9, l $text, l 4)
	call $perror(l $text)
	%s =l call $strerror(w 34)
	%n =w call $puts(l %s)
	%s =l call $strerror(w -1)
	%n =w call $puts(l %s)
	call $__assert_fail(l $text, l $text, w 12, l $line)
	hlt
}
"""
INPUT = "xone\nlonger than eight\n\nlast"
STREAMS_OUTPUT = "[one\n][longer ][than ei][ght\n][\n][last]120 -1 1|textABtetext: Bad file descriptor\n" \
    "Numerical result out of range\nUnknown error -1\ntext:12: last: Assertion `text' failed.\n"


def streams_fault(running: Running) -> str | None:
    lowered = running.lower({"a.ssa": STREAMS}, "--link", "--input", "input", beside={"input": INPUT})
    ended = running.run(lowered.text)
    return differ("errors", "", lowered.errors) or differ("output", STREAMS_OUTPUT, ended.output) or \
        differ("end", "fault halted", ended.end)


def is_there() -> bool:
    """Whether the machine has a C library with these functions."""
    try:
        return hasattr(ctypes.CDLL("libm.so.6"), "fmod") and hasattr(ctypes.CDLL(None), "strtol")
    except OSError:
        return False


# Options, each call of getopt on words that are drawn.

OPTION_WORDS = (b"-a", b"-b", b"-ab", b"-c", b"-cx", b"-ac", b"-acx y", b"-", b"--", b"word", b"-z", b"-za", b"-:", b"")
OPTION_LETTERS = (b"abc:", b":abc:", b"c:za", b"")
TRY_OPTIONS = OPTION_LETTER + """
function $try(w %count, l %words, l %options) {
@start
	storew 0, $optind
	storew 0, $opterr
@loop
	%found =w call $getopt(w %count, l %words, l %options)
	%argument =l loadl $optarg
	%index =w loadw $optind
	%told =w call $option.letter(w %found)
	%is.any =w cnel %argument, 0
	jnz %is.any, @tell, @none
@none
	%argument =l copy $none
@tell
	%written =w call $printf(l $format, ..., w %found, l %argument, w %index, w %told)
	%is.end =w ceqw %found, -1
	jnz %is.end, @end, @loop
@end
	ret
}
data $none = { b "none\\0" }
data $format = { b "%d %s %d %d\\n\\0" }
"""


def options_found(words: list[bytes], letters: bytes) -> str:
    """What the machine's library finds, without a look behind the first word that is no option."""
    library = ctypes.CDLL(None)
    library.getopt.argtypes = [ctypes.c_int, ctypes.c_void_p, ctypes.c_char_p]
    texts = [ctypes.create_string_buffer(word) for word in words]
    pointers = (ctypes.c_void_p * (len(words) + 1))(*map(ctypes.addressof, texts), None)
    index, told = ctypes.c_int.in_dll(library, "optind"), ctypes.c_int.in_dll(library, "opterr")
    index.value, told.value = 0, 0
    lines = ""
    while True:
        found = library.getopt(len(words), pointers, b"+" + letters)
        argument = ctypes.c_char_p.in_dll(library, "optarg").value
        letter = ctypes.c_int.in_dll(library, "optopt").value if found in (58, 63) else 0
        lines += f"{found} {'none' if argument is None else argument.decode()} {index.value} {letter}\n"
        if found == -1:
            return lines


def options_fault(running: Running) -> str | None:
    choice = random.Random(5)
    wanted, calls, data = "", "", ""
    for number in range(150):
        words = [b"name", *(choice.choice(OPTION_WORDS) for _ in range(choice.randrange(6)))]
        letters = choice.choice(OPTION_LETTERS)
        wanted += options_found(words, letters)
        names = []
        for place, word in enumerate(words):
            names.append(f"l $word.{number}.{place}")
            data += f"data $word.{number}.{place} = {{ b {string_of(word + bytes(1))} }}\n"
        data += f"data $words.{number} = {{ {', '.join(names)}, l 0 }}\n"
        data += f"data $letters.{number} = {{ b {string_of(letters + bytes(1))} }}\n"
        calls += f"\tcall $try(w {len(words)}, l $words.{number}, l $letters.{number})\n"
    # Words of the last kind are told of, as the library's source has it.
    wanted += "name: invalid option -- 'z'\nname: option requires an argument -- 'c'\n"
    data += 'data $told = { l $word.0.0, l $told.z, l $told.c, l 0 }\ndata $told.z = { b "-z\\0" }\n' \
        'data $told.c = { b "-c\\0" }\ndata $told.letters = { b "c:\\0" }\n'
    calls += "\tstorew 1, $optind\n\tstorew 1, $opterr\n" + \
        "\t%found =w call $getopt(w 3, l $told, l $told.letters)\n" * 2
    program = "export function w $main() {\n@start\n" + calls + "\tret 0\n}\n" + TRY_OPTIONS + data
    lowered = running.lower_here(program)
    return lowered if isinstance(lowered, str) else differ("output", wanted, running.run(lowered.text).output)


def results(running: Running, most: int = 320) -> Results:
    for seed in range(12):
        yield f"library/sorting {seed}", sorting_fault(running, seed)
    yield "library/streams", streams_fault(running)
    waits = None if is_there() else Skipped("a C library that ctypes finds")
    yield "library/rand", waits or random_fault(running)
    yield "library/options", waits or options_fault(running)
    yield "library/no suspicion", waits or suspicion_fault(running, 4)
    for shape in shapes():
        count = most if shape.gives in "ds" else 384 if shape.name.startswith(("is", "to")) else most
        yield f"library/{shape.name} ({count} calls)", waits or batch_fault(running, shape, count, 1)
