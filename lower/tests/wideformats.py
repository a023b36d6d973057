"""printf with conversions of wide characters, and wprintf and its kin, beside the machine's own library in the C
locale."""
from .calls import Calls, batch, native_fault
from .letters import filled
from .running import Results, Running, differ
from .telling import with_lists


def items_of(text: str) -> str:
    """Wide characters of data, with a zero behind."""
    return f"w {' '.join(str(ord(each)) for each in text)} 0"


def conversion(calls: Calls, is_wide: bool) -> tuple[str, list[str]]:
    """A conversion of a character, a text or a number, with its arguments."""
    choice = calls.choice
    text, arguments = "%" + "".join(flag for flag in "-+ #0" if choice.random() < 0.2), []
    for most in (12, 8):
        kind = choice.random()
        if most == 8 and kind > 0.4:
            text += "."
        if kind > 0.7:
            text += "*"
            arguments.append(f"w {choice.randrange(-most, most)}")
        elif kind > 0.4:
            text += str(choice.randrange(1, most))
    letters = ("s", "ls", "S", "c", "lc", "C", "d", "lx", "g", "p")
    letter = choice.choice(letters[:-1] if "." in text or "0" in text else letters)
    if letter in ("s", "ls", "S"):
        word = choice.choice(("", "a", "word", "several words"))
        other = choice.choice(("\xe9", "\u20ac")) if choice.random() < 0.15 and (is_wide or letter != "s") else ""
        content = word + other
        # A byte that is no character of its own stands in for the other one.
        narrow = calls.text((word + "\xe9" * bool(other)).encode("latin-1"))
        value = f"l {narrow if letter == 's' else calls.room(0, items_of(content))}"
    elif letter in ("c", "lc", "C"):
        value = f"w {choice.choice((65, 122, 32, 0x20ac if letter != 'c' and is_wide else 66))}"
    else:
        value = {"d": f"w {choice.randrange(-5000, 5000)}", "lx": f"l {choice.getrandbits(40)}",
                 "g": f"d d_{choice.randrange(100000) / 8}", "p": "l 0"}[letter]
    return text + letter, [*arguments, value]


def wide_formats(calls: Calls) -> None:
    """Conversions of wide characters by printf, and of both by swprintf; a failure leaves the room undefined."""
    for index in range(240):
        is_wide = index % 2 == 1
        parts = [conversion(calls, is_wide) for _ in range(calls.choice.randrange(1, 4))]
        format, arguments = "|".join(text for text, _ in parts), [each for _, given in parts for each in given]
        room = filled(calls, 400)
        given = ["...", *arguments]
        if is_wide:
            size = calls.choice.choice((100, 100, 100, 12, 5, 1, 0))
            form = calls.room(0, items_of(format + "\u20ac" * (index % 7 == 0)))
            count = calls.call("swprintf", "w", f"l {room}", f"l {size}", f"l {form}", *given)
        else:
            count = calls.call("snprintf", "w", f"l {room}", "l 100", f"l {calls.text(format.encode())}", *given)
        calls.plain("tell.w", f"w {count}")
        # How many bytes are told: none after a failure.
        number = calls.named()
        calls.line(f"%behind.{number} =w add {count}, 1")
        calls.line(f"%wide.{number} =l extuw %behind.{number}")
        calls.line(f"%bytes.{number} =l mul %wide.{number}, {4 if is_wide else 1}")
        calls.plain("tell.bytes", f"l {room}", f"l %bytes.{number}")
    place = calls.room(8)
    for text, value in ((b"%ls", "a\xe9"), (b"<%ls>", "abc")):
        calls.word("asprintf", f"l {place}", f"l {calls.text(text)}", "...", f"l {calls.room(0, items_of(value))}")


# What writes wide characters alone: in native code a stream takes either these or bytes.
WIDE_STREAM = f"""
data $form = {{ {items_of("%d %s %ls %lc%5.1f|")} }}
data $other = {{ {items_of("<%-6s>%%")} }}
data $lines = {{ {items_of("%d %d %d" + chr(10))} }}
data $narrow = {{ b "narrow", b 0 }}
data $wide = {{ {items_of("wide")} }}
export function w $main() {{
@start
	%out =l loadl $stdout
	%a =w call $wprintf(l $form, ..., w -7, l $narrow, l $wide, w 65, d d_2.25)
	%b =w call $fwprintf(l %out, l $other, ..., l $narrow)
	%c =w call $fputws(l $wide, l %out)
	%d =w call $wprintf(l $lines, ..., w %a, w %b, w %c)
	ret %d
}}
"""
# The same by lists, where the address of a text's cells is read: 4 are the characters of each.
LISTS = with_lists(f"""
data $form = {{ {items_of("%d %s;")} }}
data $word = {{ b "w", b 0 }}
data $room = {{ z 40 }}
function w $say(l %form, ...) {{
@start
	%a =w call $vwprintf(l %form, l %list)
	%out =l loadl $stdout
	%b =w call $vfwprintf(l %out, l %form, l %list)
	%c =w call $vswprintf(l $room, l 5, l %form, l %list)
	%put =w call $fputws(l $room, l %out)
	%d =w call $vswprintf(l $room, l 4, l %form, l %list)
	%x =w mul %a, %b
	%y =w mul %c, %d
	%z =w sub %x, %y
	ret %z
}}
export function w $main() {{
@start
	%r =w call $say(l $form, ..., w 5, l $word)
	ret %r
}}
""")


def lists_fault(running: Running) -> str | None:
    lowered = running.lower_here(LISTS)
    if isinstance(lowered, str):
        return lowered
    run = running.run(lowered.text)
    return differ("output", "5 w;5 w;5 w;", run.output) or differ("end", f"done {4 * 4 + 4}", run.end)


def results(running: Running) -> Results:
    for seed in range(2):
        yield f"wide formats/{seed}", native_fault(running, batch(wide_formats, seed))
    yield "wide formats/a stream", native_fault(running, WIDE_STREAM)
    yield "wide formats/lists", lists_fault(running)
    yield "wide formats/no suspicion", running.suspicion(WIDE_STREAM)
