"""What programs find around them, beside the machine's own library: messages in their language, what the locale says,
rights and times of files, descriptors; and by hand what the machine would answer by its own name and its terminal."""
import itertools

from .calls import Calls, batch, native_fault
from .running import Results, Running, differ

TEXTS = (b"a message", b"", b"another")
DOMAINS = (b"one", b"two", b"")
# All items of the C library: those of LC_CTYPE, LC_NUMERIC, LC_TIME, LC_MONETARY and LC_MESSAGES that programs name.
ITEMS = (14, 0x10000, 0x10001, *range(0x20000, 0x2002C), 0x4000F, 0x50000, 0x50001, 0x7FFFFFFF)


def messages(calls: Calls) -> None:
    texts = [calls.text(text) for text in TEXTS]
    for text in texts:
        calls.said("gettext", f"l {text}")
        calls.said("dgettext", f"l {calls.text(b'one')}", f"l {text}")
        calls.said("dcgettext", "l 0", f"l {text}", "w 5")
    for count in (0, 1, 2, -1, 1 << 32):
        words = (f"l {texts[0]}", f"l {texts[2]}", f"l {count}")
        calls.said("ngettext", *words)
        calls.said("dngettext", "l 0", *words)
        calls.said("dcngettext", f"l {calls.text(b'two')}", *words, "w 5")
    for name in (None, b"mine", None, b"", None, b"messages", b"other"):
        calls.said("textdomain", f"l {calls.text(name)}" if name is not None else "l 0")


def domains(calls: Calls) -> None:
    domains_of = [f"l {calls.text(name)}" for name in DOMAINS] + ["l 0"]
    for name, values in (("bindtextdomain", (b"/a", b"/b", None)), ("bind_textdomain_codeset", (b"UTF-8", None))):
        # Native code gives another folder for a domain that was never bound: that of its own making.
        for domain in domains_of:
            calls.said(name, domain, f"l {calls.text(b'first')}")
        for _ in range(20):
            value = calls.choice.choice(values)
            calls.said(name, calls.choice.choice(domains_of), f"l {calls.text(value)}" if value else "l 0")


def locale(calls: Calls) -> None:
    for item in ITEMS:
        calls.said("nl_langinfo", f"w {item}")


def rights(calls: Calls) -> None:
    """Changes of a file that is there, of one that isn't, and of descriptors."""
    here, gone = f"l {calls.text(b'made here')}", f"l {calls.text(b'not made')}"
    user = "w -1"
    for flags in (0x241, 0, 1, 2, 0x401, 0x402):
        descriptor = f"w {calls.call('open', 'w', here, f'w {flags}', '...', 'w 420')}"
        for command in (1, 2, 3, 4):
            calls.word("fcntl", descriptor, f"w {command}", "...", "w 0")
        for name, arguments in (("fchmod", ("w 420",)), ("fchown", (user, user)), ("futimens", ("l 0",)),
                                ("fsync", ()), ("fdatasync", ()), ("futimes", ("l 0",))):
            calls.word(name, descriptor, *arguments)
            calls.word(name, "w 77", *arguments)
            calls.error()
        calls.word("fcntl", "w 77", "w 3", "...", "w 0")
        calls.error()
        calls.word("close", descriptor)
    at = "w -100"
    for place in (here, gone):
        for name, before, arguments in (
                ("chmod", (), ("w 420",)), ("chown", (), (user, user)), ("lchown", (), (user, user)),
                ("utime", (), ("l 0",)), ("utimes", (), ("l 0",)), ("fchmodat", (at,), ("w 420", "w 0")),
                ("fchownat", (at,), (user, user, "w 0")), ("utimensat", (at,), ("l 0", "w 0")),
                ("faccessat", (at,), ("w 0", "w 0")), ("truncate", (), ("l 5",))):
            calls.word(name, *before, place, *arguments)
            calls.error()
        state = calls.room(144)
        calls.word("fstatat", at, place, f"l {state}", "w 0")
        calls.error()
        calls.line(f"%s{state[1:]} =l add {state}, 48")
        calls.bytes(f"%s{state[1:]}", 8)
    calls.word("unlink", here)


def system(calls: Calls) -> None:
    calls.word("umask", "w 18")
    for rights_left in (63, 0o7777, 0, 18):
        calls.word("umask", f"w {rights_left}")
    terminal, block = calls.room(64), calls.room(8, "l -1")
    for name, arguments in (("tcgetattr", (f"l {terminal}",)), ("tcsetattr", ("w 0", f"l {terminal}"))):
        calls.word(name, "w 1", *arguments)
        calls.error()
    calls.word("ioctl", "w 1", "l 21523", "...", f"l {terminal}")
    calls.error()
    calls.said("ttyname", "w 1")
    calls.error()
    calls.plain("openlog", f"l {calls.text(b'name')}", "w 0", "w 8")
    calls.plain("syslog", "w 191", f"l {calls.text(b'')}", "...")
    calls.plain("closelog")
    calls.plain("explicit_bzero", f"l {block}", "l 5")
    calls.bytes(block, 8)


GROUPS = {"messages": messages, "domains": domains, "locale": locale, "rights": rights, "the system": system}


# What native code answers by the machine that it runs on.

def alone(calls: Calls) -> None:
    place, names = calls.room(8), calls.room(390)
    for to, size in ((place, 8), (place, 2), (place, 1), (place, 0), (0, 0), (0, 2), (0, 1)):
        calls.said("getcwd", f"l {to}", f"l {size}")
        calls.error()
    calls.word("uname", f"l {names}")
    for number in range(6):
        calls.line(f"%n{number} =l add {names}, {65 * number}")
        calls.show(f"%n{number}")
    for size in (10, 9):
        to = calls.room(16)
        calls.word("gethostname", f"l {to}", f"l {size}")
        calls.error()
        calls.show(to)
    root, other = f"l {calls.text(b'root')}", f"l {calls.text(b'other')}"
    for name, arguments in (("getpwuid", ("w 0", "w 1")), ("getpwnam", (root, other)), ("getgrgid", ("w 0", "w 1")),
                            ("getgrnam", (root, other))):
        entry = calls.call(name, "l", arguments[0])
        for offset in (0, 8, *((24, 32, 40) if "pw" in name else ())):
            calls.line(f"%a{calls.named()} =l add {entry}, {offset}")
            calls.line(f"%t{calls.made} =l loadl %a{calls.made}")
            calls.show(f"%t{calls.made}")
        calls.line(f"%a{calls.named()} =l add {entry}, 16")
        calls.bytes(f"%a{calls.made}", 8 if "pw" in name else 4)
        calls.truth_of(name, arguments[1])
    calls.said("getlogin")
    calls.error()
    calls.word("getdtablesize")
    for descriptor, command in itertools.product((0, 1, 3), (1, 3, 5)):
        calls.word("fcntl", f"w {descriptor}", f"w {command}", "...", "w 0")
        calls.error()


ALONE_OUTPUT = (
    "[/] 0 [/] 0 none 34 none 22 [/] 0 [/] 0 none 34 0 [Linux] [localhost] [6.1.0] [#1] [x86_64] [(none)] "
    "0 0 [localhost] -1 36 [localhost] "
    + 2 * f"[root] [x] [root] [/root] [/bin/sh] {'00' * 8} 0 " + 2 * f"[root] [x] {'00' * 4} 0 " + "none 25 19 "
    "0 0 0 0 -1 22 0 0 1 0 -1 22 -1 9 -1 9 -1 9 ")

# What asks about a file, without opening one, finds those that the text names.
ASKS = """
data $form = { b "%d %d|", b 0 }
data $here = { b "here", b 0 }
data $gone = { b "gone", b 0 }
export function w $main() {
@start
	%there =w call $access(l $here, w 4)
	%other =w call $access(l $gone, w 4)
	%c =w call $printf(l $form, ..., w %there, w %other)
	ret 0
}
"""


def asks_fault(running: Running) -> str | None:
    lowered = running.lower({"a.ssa": ASKS}, "--link", beside={"here": "text"})
    return differ("errors", "", lowered.errors) or differ("output", "0 -1|", running.run(lowered.text).output)


def alone_fault(running: Running) -> str | None:
    lowered = running.lower_here(batch(alone))
    return lowered if isinstance(lowered, str) else differ("output", ALONE_OUTPUT, running.run(lowered.text).output)


def all_of_them(calls: Calls) -> None:
    for make in (*GROUPS.values(), alone):
        make(calls)


def results(running: Running) -> Results:
    for name, make in GROUPS.items():
        yield f"around/{name}", native_fault(running, batch(make))
    yield "around/alone", alone_fault(running)
    yield "around/files that are asked about", asks_fault(running)
    yield "around/no suspicion", running.suspicion(batch(all_of_them))
