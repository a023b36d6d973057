"""The locale, characters of several bytes and wide characters beside the machine's own library in the C locale."""
from .calls import Calls, batch, native_fault
from .running import Results, Running, differ
from .telling import TELL

KINDS = "alpha digit space alnum upper lower punct print cntrl xdigit graph blank".split()
WIDE = (0, 9, 32, 47, 48, 57, 65, 90, 91, 97, 122, 126, 127, 128, 160, 255, 256, 0x17F, 0x20AC, 0x10FFFF, 0x110000,
        2 ** 31 - 1, 2 ** 31, 2 ** 32 - 1)


def locale(calls: Calls) -> None:
    for name in (b"", b"C", b"POSIX", b"C.UTF-7", b"xx_YY", b"c"):
        text = calls.text(name)
        for category in (0, 1, 5, 6, 12, 13, -1):
            calls.said("setlocale", f"w {category}", f"l {text}")
            if not 0 <= category < 13:
                calls.error()
        calls.line("%e" + calls.named() + " =l call $__errno_location()")
        calls.line(f"storew 0, %e{calls.made}")
    for category in (0, 6, 99):
        calls.said("setlocale", f"w {category}", "l 0")
        calls.error()
    convention = calls.call("localeconv", "l")
    for index in range(10):
        calls.line(f"%p{index} =l add {convention}, {8 * index}")
        calls.line(f"%q{index} =l loadl %p{index}")
        calls.show(f"%q{index}")
    calls.line(f"%numbers =l add {convention}, 80")
    calls.bytes("%numbers", 14)
    for letters in (b"", b"a", b"several", b"\xe9\xff"):
        for size in (0, 1, 3, 8, 20):
            buffer = calls.room(24, "b " + "7 " * 24)
            calls.long("strxfrm", f"l {buffer}", f"l {calls.text(letters)}", f"l {size}")
            calls.bytes(buffer, 24)


def some_bytes(calls: Calls) -> bytes:
    """Bytes of which some are beyond the first 128."""
    choice = calls.choice
    return bytes(choice.randrange(1, 128) if choice.random() < 0.9 else choice.randrange(128, 256)
                 for _ in range(choice.randrange(8)))


def wide_text(calls: Calls, most: int = 8, letters: tuple[int, ...] = (97, 98, 99)) -> str:
    items = [calls.choice.choice(letters) for _ in range(calls.choice.randrange(most))]
    return calls.room(0, f"w {' '.join(map(str, [*items, 0]))}")


def filled(calls: Calls, size: int) -> str:
    return calls.room(size, "b " + "7 " * size)


def several_bytes(calls: Calls) -> None:
    choice = calls.choice
    state = calls.room(8)
    for byte in (*range(0, 256, 5), 255, 127, 128):
        text, to = calls.text(bytes([byte])), filled(calls, 4)
        for count in (0, 1, 2):
            calls.long("mbrtowc", f"l {to}", f"l {text}", f"l {count}", f"l {state}")
            calls.long("mbrlen", f"l {text}", f"l {count}", f"l {state}")
            calls.word("mbtowc", f"l {to}", f"l {text}", f"l {count}")
            calls.word("mblen", f"l {text}", f"l {count}")
            calls.error()
            calls.bytes(to, 4)
        # After an error the state of the machine's library is its own affair.
        calls.line(f"storel 0, {state}")
    for name in ("mbtowc", "mbrtowc"):
        calls.word(name, "l 0", "l 0", "l 0", *(["l " + state] if name == "mbrtowc" else []))
    for character in WIDE:
        to = filled(calls, 8)
        calls.long("wcrtomb", f"l {to}", f"w {character}", f"l {state}")
        calls.word("wctomb", f"l {to}", f"w {character}")
        calls.word("wctomb", "l 0", f"w {character}")
        calls.long("wcrtomb", "l 0", f"w {character}", f"l {state}")
        calls.error()
        calls.bytes(to, 8)
        calls.line(f"storel 0, {state}")
        for name in ("btowc", "wctob"):
            calls.word(name, f"w {character}")
    for byte in range(-130, 258, 3):
        calls.word("btowc", f"w {byte}")
    calls.truth("mbsinit", "l 0")
    calls.truth("mbsinit", f"l {state}")
    for _ in range(60):
        size = choice.randrange(10)
        narrow, to = calls.text(some_bytes(calls)), filled(calls, 48)
        wide, back = wide_text(calls, 8, (65, 66, 127, 127, 128, 300)), filled(calls, 48)
        for name, source, target, width in (("mbstowcs", narrow, to, 48), ("wcstombs", wide, back, 48)):
            calls.long(name, f"l {target}", f"l {source}", f"l {size}")
            calls.error()
            calls.bytes(target, width)
            calls.long(name, "l 0", f"l {source}", f"l {size}")
            calls.error()
        for name, source in (("mbsrtowcs", narrow), ("wcsrtombs", wide)):
            place, target = calls.room(0, f"l {source}"), filled(calls, 48)
            calls.long(name, f"l {target}", f"l {place}", f"l {size}", f"l {state}")
            calls.error()
            calls.bytes(target, 48)
            calls.kept(source, place)
            calls.line(f"storel 0, {state}")


def wide_texts(calls: Calls) -> None:
    choice = calls.choice
    for _ in range(50):
        one, other = wide_text(calls), wide_text(calls, 4)
        letter, count = choice.choice((97, 98, 99, 100, 0)), choice.randrange(6)
        calls.long("wcslen", f"l {one}")
        calls.long("wcsnlen", f"l {one}", f"l {count}")
        for name in ("wcschr", "wcsrchr"):
            calls.place(one, name, f"l {one}", f"w {letter}")
        for name in ("wcsstr", "wcspbrk"):
            calls.place(one, name, f"l {one}", f"l {other}")
        for name in ("wcsspn", "wcscspn"):
            calls.long(name, f"l {one}", f"l {other}")
        for name in ("wcscmp", "wcscoll"):
            calls.sign(name, f"l {one}", f"l {other}")
        calls.sign("wcsncmp", f"l {one}", f"l {other}", f"l {count}")
        eight = [" ".join(str(choice.choice((97, 98, -1, 2 ** 31 - 1))) for _ in range(8)) for _ in range(2)]
        first, second = (calls.room(0, f"w {words}") for words in eight)
        calls.sign("wmemcmp", f"l {first}", f"l {second}", f"l {count}")
        calls.place(first, "wmemchr", f"l {first}", f"w {letter}", f"l {count}")
        for name in ("wcscpy", "wcscat"):
            to = calls.room(0, "w 120 121 0" + " 7" * 20)
            calls.place(to, name, f"l {to}", f"l {one}")
            calls.bytes(to, 60)
        for name in ("wcsncpy", "wcsncat", "wmemcpy", "wmemmove", "wcsxfrm"):
            to = calls.room(0, "w 120 121 0" + " 7" * 20)
            source = first if name[0:2] == "wm" else one
            if name == "wcsxfrm":
                calls.long(name, f"l {to}", f"l {source}", f"l {count}")
            else:
                calls.place(to, name, f"l {to}", f"l {source}", f"l {count}")
            calls.bytes(to, 60)
        calls.place(first, "wmemset", f"l {first}", "w 65", f"l {count}")
        calls.line(f"%m{calls.made} =l add {first}, 8")
        calls.place(first, "wmemmove", f"l %m{calls.made}", f"l {first}", f"l {count}")
        calls.bytes(first, 32)
        copy = calls.call("wcsdup", "l", f"l {one}")
        calls.sign("wcscmp", f"l {copy}", f"l {one}")
        place, set_of = calls.room(8), wide_text(calls, 3)
        given = one
        for _ in range(4):
            calls.place(one, "wcstok", f"l {given}", f"l {set_of}", f"l {place}")
            given = "0"
        calls.bytes(one, 8)


def wide_numbers(calls: Calls) -> None:
    choice = calls.choice
    for _ in range(80):
        text = choice.choice((b"", b" ", b"\t-", b"+", b"0x", b"-0")) + \
            bytes(choice.choice(b"0179aFz") for _ in range(choice.choice((0, 1, 3, 25))))
        behind: tuple[int, ...] = choice.choice(((), (300,), (32, 51), (-1,)))
        words = [*text, *behind]
        place = calls.room(0, f"w {' '.join(map(str, [*words, 0]))}")
        end = calls.room(0, "l 0")
        base = choice.choice((0, 10, 16, 8, 36, 2, 1, 37, -1))
        for name in ("wcstol", "wcstoul", "wcstoll", "wcstoull", "wcstoimax", "wcstoumax"):
            calls.long(name, f"l {place}", f"l {choice.choice((end, end, '0'))}", f"w {base}")
            calls.error()
            calls.kept(place, end)


def wide_doubles(calls: Calls) -> None:
    for text in (b"", b"1.5", b" -2e3x", b"0x1p-3", b"inf", b"nan", b"1e400", b"."):
        for behind in ((), (300, 49)):
            place = calls.room(0, f"w {' '.join(map(str, [*text, *behind, 0]))}")
            end = calls.room(0, "l 0")
            for name, cls, wide in (("wcstod", "d", "l"), ("wcstof", "s", "w")):
                result = calls.call(name, cls, f"l {place}", f"l {end}")
                calls.line(f"%b{result[1:]} ={wide} cast {result}")
                calls.plain("tell" if wide == "l" else "tell.w", f"{wide} %b{result[1:]}")
                calls.kept(place, end)


def kinds(calls: Calls) -> None:
    for character in (*range(0, 128, 3), *WIDE):
        for kind in KINDS:
            calls.truth(f"isw{kind}", f"w {character}")
        for name in ("towlower", "towupper"):
            calls.word(name, f"w {character}")
    for kind in (*KINDS, "other", ""):
        found = calls.call("wctype", "l", f"l {calls.text(kind.encode())}")
        calls.line(f"%is{found[1:]} =w cnel {found}, 0")
        calls.plain("tell.w", f"w %is{found[1:]}")
        for character in WIDE:
            calls.truth("iswctype", f"w {character}", f"l {found}")
    for name in ("tolower", "toupper"):
        found = calls.call("wctrans", "l", f"l {calls.text(name.encode())}")
        for character in WIDE:
            calls.word("towctrans", f"w {character}", f"l {found}")


GROUPS = {"locale": locale, "several bytes": several_bytes, "wide texts": wide_texts, "wide numbers": wide_numbers,
          "wide doubles": wide_doubles, "kinds": kinds}
# Streams of the machine's library are for bytes or for wide characters, so that this is by the C standard.
STREAMS = TELL + """
data $line = { z 32 }
data $text = { w 111 107 10 0 }
data $bad = { w 97 300 98 0 }
export function w $main() {
@start
	%out =l loadl $stdout
	%in =l loadl $stdin
	%r =w call $putwchar(w 65)
	call $tell.w(w %r)
	%r =w call $putwc(w 128, l %out)
	call $tell.w(w %r)
	%r =w call $fputws(l $text, l %out)
	call $tell.w(w %r)
	%r =w call $fputws(l $bad, l %out)
	call $tell.w(w %r)
	%r =w call $getwchar()
	call $tell.w(w %r)
	%r =w call $ungetwc(w %r, l %in)
	call $tell.w(w %r)
@lines
	%p =l call $fgetws(l $line, w 5, l %in)
	%is =w cnel %p, 0
	jnz %is, @line, @end
@line
	%r =w call $fputws(l $line, l %out)
	%r =w call $putwchar(w 124)
	jmp @lines
@end
	%r =w call $fgetwc(l %in)
	call $tell.w(w %r)
	ret 0
}
"""
STREAMS_OUTPUT = "A65 -1 ok\n1 a-1 120 120 xy\n|long|er\n|\n|last|-1 "


def streams_fault(running: Running) -> str | None:
    lowered = running.lower({"a.ssa": STREAMS}, "--link", "--input", "input", beside={"input": "xy\nlonger\n\nlast"})
    return differ("errors", "", lowered.errors) or \
        differ("output", STREAMS_OUTPUT, running.run(lowered.text).output)


def small(calls: Calls) -> None:
    """A little of all."""
    locale(calls)
    one, other = wide_text(calls), wide_text(calls)
    calls.long("wcslen", f"l {one}")
    calls.sign("wcscmp", f"l {one}", f"l {other}")
    calls.place(one, "wcsstr", f"l {one}", f"l {other}")
    buffer, place = calls.room(80), calls.room(8)
    calls.place(buffer, "wcscpy", f"l {buffer}", f"l {one}")
    calls.place(buffer, "wcsncpy", f"l {buffer}", f"l {one}", "l 9")
    calls.place(buffer, "wcsncat", f"l {buffer}", f"l {one}", "l 9")
    calls.place(buffer, "wcstok", f"l {buffer}", f"l {other}", f"l {place}")
    calls.long("mbstowcs", f"l {buffer}", f"l {calls.text(b'text')}", "l 9")
    number = calls.room(0, "w 45 49 50 51 300 0")
    calls.long("wcstol", f"l {number}", f"l {place}", "w 10")
    calls.long("wcstoul", f"l {number}", f"l {place}", "w 77")
    kind = calls.call("wctype", "l", f"l {calls.text(b'digit')}")
    calls.truth("iswctype", "w 48", f"l {kind}")
    calls.truth("iswctype", "w 300", f"l {kind}")


def results(running: Running) -> Results:
    for name, make in GROUPS.items():
        yield f"letters/{name}", native_fault(running, batch(make))
    yield "letters/streams", streams_fault(running)
    yield "letters/no suspicion", running.suspicion(batch(small))
