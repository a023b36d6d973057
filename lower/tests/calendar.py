"""Dates and times of C beside the machine's own library, at UTC: random ones and those at the edges."""
from .calls import Calls, batch, native_fault
from .running import Results, Running, differ
from .telling import TELL

DATE_BYTES = 36
EDGES = (0, -1, 1, 86399, 86400, -86400, -86401, 951782400, 951868799, 68169600, 4107542399, 4107542400, 253402300799,
         253402300800, -62135596800, -62135596801, -62167219200, -62167219201, 67768036191676799, 67768036191676800,
         -67768040609740800, -67768040609740801, 2 ** 31 - 1, 2 ** 31, -2 ** 31, 2 ** 63 - 1, -2 ** 63, 2 ** 62)
LETTERS = "aAbBcCdDeFgGhHIjklmMnpPrRsStTuUVwWxXyYzZ%"
# What strptime takes of what strftime writes; and what each takes wherever a date stands.
READ = tuple("aAbBCdDeFgGhHIjklmMnprRStTuUVwWxXyYzZ%c") + \
    ("Ec", "Ex", "EX", "OM", "-d", "_H", "^a")
FEW = (b"%Y-%m-%d", b"%Y %j", b"%C%y %j", b"%Y %U %w", b"%Y %W %a", b"%y %U %u", b"%Y %b %d", b"%I:%M %p", b"%s",
       b"%Y %m", b"%d %b", b"%j")
WRONG = ("%d", "%H:%M", "%Y", "%y", "%b", "%A", "%p", "%z", "%j", "%Oc", "%E", "%", "%P", "%+", "a%%b", " %d",
         "%n%e%t")
GIVEN = ("0", "", "5", "32", "07", " 7x", "366", "367", "24:00", "23:60", "9:5", "99999", "Mayor", "JUNE", "mon",
         "tUESday", "AM", "pMx", "p", "+05", "-0530", "+05:30", "+0560", "+05:3", "Z", "z", "a%b", "a b", "  12  ",
         "2024")
OTHERS = "EfiJKLNOoqQv[]"
INTEGERS = (0, 1, -1, 12, -12, 13, 59, 60, 61, 365, 366, 1000, -1000, 2 ** 31 - 1, -2 ** 31)


def drawn_time(calls: Calls) -> int:
    choice = calls.choice
    kind = choice.random()
    if kind < 0.2:
        return choice.choice(EDGES)
    if kind < 0.8:
        # From the year 1 to the year 9999.
        return choice.randrange(-62135596800, 253402300800)
    return choice.getrandbits(64) - (1 << 63) >> choice.randrange(64)


def told_date(calls: Calls, date: str) -> None:
    """Says the numbers of a date, its offset and its zone."""
    calls.bytes(date, DATE_BYTES)
    number = calls.named()
    calls.line(f"%p{number} =l add {date}, 40")
    calls.line(f"%v{number} =l loadl %p{number}")
    calls.plain("tell", f"l %v{number}")
    calls.line(f"%q{number} =l add {date}, 48")
    calls.line(f"%z{number} =l loadl %q{number}")
    calls.show(f"%z{number}")


def times(calls: Calls) -> None:
    """From times to dates, their texts, and back."""
    for time in (*EDGES, *(drawn_time(calls) for _ in range(60))):
        place, date, text = calls.room(0, f"l {time}"), calls.room(56), calls.room(40)
        for name in ("gmtime_r", "localtime_r"):
            found = calls.call(name, "l", f"l {place}", f"l {date}")
            calls.line(f"%is{found[1:]} =w cnel {found}, 0")
            calls.plain("tell.w", f"w %is{found[1:]}")
            calls.error()
            calls.line(f"jnz %is{found[1:]}, @some{found[1:]}, @none{found[1:]}")
            calls.body.append(f"@some{found[1:]}")
            told_date(calls, date)
            calls.said("asctime_r", f"l {date}", f"l {text}")
            calls.said("asctime", f"l {date}")
            calls.long("timegm" if name == "gmtime_r" else "mktime", f"l {date}")
            told_date(calls, date)
            calls.body.append(f"@none{found[1:]}")
        calls.said("ctime", f"l {place}")
        calls.said("ctime_r", f"l {place}", f"l {text}")
        calls.error()
    known = calls.room(0, "l 1000000000")
    for name in ("gmtime", "localtime"):
        told_date(calls, calls.call(name, "l", f"l {known}"))
    calls.said("asctime", "l 0")
    calls.error()


def drawn_date(calls: Calls, is_wild: bool) -> str:
    """A date whose numbers may be out of their ranges."""
    choice = calls.choice
    numbers = [choice.randrange(60), choice.randrange(60), choice.randrange(24), choice.randrange(1, 32),
               choice.randrange(12), choice.randrange(-1899, 8100), choice.randrange(7), choice.randrange(366)]
    if is_wild:
        for index in range(len(numbers)):
            if choice.random() < 0.3:
                numbers[index] = choice.choice(INTEGERS) if choice.random() < 0.5 else choice.randrange(-5000, 5000)
    return calls.room(0, f"w {' '.join(map(str, numbers))} {choice.choice((0, 0, 0, -1))} 0, l 0 0")


def dates(calls: Calls) -> None:
    """Dates whose numbers are out of range."""
    for number in range(250):
        date = drawn_date(calls, True)
        calls.long("timegm" if number % 2 else "mktime", f"l {date}")
        calls.error()
        told_date(calls, date)
        end, begin = (calls.choice.getrandbits(50) - 2 ** 49 for _ in range(2))
        result = calls.call("difftime", "d", f"l {end}", f"l {begin}")
        calls.line(f"%l{result[1:]} =l cast {result}")
        calls.plain("tell", f"l %l{result[1:]}")


def formatted(calls: Calls, date: str, form: bytes, size: int) -> None:
    """Calls strftime, and says what it wrote where all of it fits."""
    buffer = calls.room(max(size, 1) + 40)
    count = calls.call("strftime", "l", f"l {buffer}", f"l {size}", f"l {calls.text(form)}", f"l {date}")
    calls.plain("tell", f"l {count}")
    calls.bytes(buffer, 0)
    calls.line(f"jnz {count}, @t{count[1:]}, @n{count[1:]}")
    calls.body.append(f"@t{count[1:]}")
    calls.show(buffer)
    calls.body.append(f"@n{count[1:]}")


def formats(calls: Calls) -> None:
    """Each letter with each modifier and each flag."""
    for letter in LETTERS + OTHERS:
        date = drawn_date(calls, calls.choice.random() < 0.3)
        for front in ("", "E", "O", "-", "_", "0", "^", "#", "^_", "#-"):
            formatted(calls, date, f"<%{front}{letter}>".encode(), 60)
    for form in (b"", b"%", b"%%", b"plain", b"%-", b"%E", b"100%% of %Y"):
        formatted(calls, drawn_date(calls, False), form, 60)


def texts(calls: Calls) -> None:
    """Formats of several letters, of any dates, in memory that is often too small."""
    choice = calls.choice
    for _ in range(150):
        date = drawn_date(calls, choice.random() < 0.5)
        form = "".join(choice.choice((" ", "-", "x", "")) + "%" + choice.choice(("", "", "", "-", "_", "^")) +
                       choice.choice(LETTERS) for _ in range(choice.randrange(1, 8)))
        formatted(calls, date, form.encode(), choice.choice((0, 1, 2, 5, 10, 20, 40, 200, 200, 200)))
    # The years whose first and last days belong to weeks of others.
    for year in range(70, 110):
        leap = int(year % 4 == 0)
        for month, day, in_year in ((0, 1, 0), (0, 3, 2), (11, 29, 362 + leap), (11, 31, 364 + leap)):
            date = calls.room(0, f"w 0 0 0 {day} {month} {year} 0 {in_year} 0 0, l 0 0")
            calls.long("timegm", f"l {date}")
            formatted(calls, date, b"%G-%V-%g %U %W %j %a", 60)


def read(calls: Calls, text: str, form: bytes) -> None:
    """Reads a text as a format says: how far it is taken, and the date if it is."""
    date = calls.room(56)
    found = calls.call("strptime", "l", f"l {text}", f"l {calls.text(form)}", f"l {date}")
    calls.far(text, found)
    calls.line(f"%is{found[1:]} =w cnel {found}, 0")
    calls.line(f"jnz %is{found[1:]}, @some{found[1:]}, @none{found[1:]}")
    calls.body.append(f"@some{found[1:]}")
    told_date(calls, date)
    calls.body.append(f"@none{found[1:]}")


def reading(calls: Calls) -> None:
    """Dates from what they were written as, in all their letters and in a few of them."""
    for index in range(260):
        time = calls.choice.randrange(-62135596800 // 4, 253402300800 // 2)
        place, date, text = calls.room(0, f"l {time}"), calls.room(56), calls.room(200)
        # The machine's library refuses a second `O`.
        letters = calls.choice.sample(READ, calls.choice.randrange(1, 6))
        form = calls.choice.choice((" ", "/", "-x ")).join("%" + letter for letter in letters).encode()
        if index % 4 == 0:
            form = calls.choice.choice(FEW)
        calls.call("gmtime_r", "l", f"l {place}", f"l {date}")
        calls.call("strftime", "l", f"l {text}", "l 200", f"l {calls.text(form)}", f"l {date}")
        read(calls, text, form)


def misreading(calls: Calls) -> None:
    """Each text by each format, of which few fit."""
    for form in WRONG:
        # Its day of the week in the year 0 is another one.
        for given in GIVEN[form == "%Y":]:
            read(calls, calls.text(given.encode()), form.encode())


GROUPS = {"times": times, "dates": dates, "formats": formats, "texts": texts, "reading": reading,
          "misreading": misreading}


def small(calls: Calls) -> None:
    """A little of all."""
    place, date, text = calls.room(0, "l 1234567890"), calls.room(56), calls.room(80)
    calls.call("localtime_r", "l", f"l {place}", f"l {date}")
    for name in ("asctime", "mktime", "timegm"):
        calls.call(name, "l", f"l {date}")
    calls.said("ctime", f"l {place}")
    form = calls.text("".join(f"%{letter}|%-{letter}|%#{letter} " for letter in LETTERS).encode())
    calls.long("strftime", f"l {text}", "l 80", f"l {form}", f"l {date}")
    far = calls.room(2000)
    calls.long("strftime", f"l {far}", "l 2000", f"l {form}", f"l {date}")
    calls.show(far)
    calls.word("timespec_get", f"l {date}", "w 1")


# The hour of daylight saving that a date claims is taken back, and the clock stands at 0.
WORKED = TELL + """
data $date = { w 0 0 0 1 0 70 0 0 1 0, l 0 0 }
data $now = { l 7 7 }
export function w $main() {
@start
	%t =l call $mktime(l $date)
	call $tell(l %t)
	%i =w call $timespec_get(l $now, w 1)
	call $tell.w(w %i)
	%i =w call $timespec_get(l $now, w 9)
	call $tell.w(w %i)
	%n =l loadl $now
	call $tell(l %n)
	ret 0
}
"""


def results(running: Running) -> Results:
    for name, make in GROUPS.items():
        for seed in range(2):
            yield f"calendar/{name} {seed}", native_fault(running, batch(make, seed))
    lowered = running.lower_here(WORKED)
    yield "calendar/daylight saving and the clock", lowered if isinstance(lowered, str) else \
        differ("output", "-3600 1 0 0 ", running.run(lowered.text).output)
    yield "calendar/no suspicion", running.suspicion(batch(small))
