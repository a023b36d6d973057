"""Random programs against native code: arithmetic of all classes, conversions, memory, joins, loops and calls. The C
library prints the results there, and the runtime here."""
import random

from .native import is_there, native
from .running import Results, Running, Skipped, differ

PROGRAMS = 16
INTEGERS = {"w": ("add", "sub", "mul", "and", "or", "xor"), "l": ("add", "sub", "mul", "and", "or", "xor")}
FLOATS = ("add", "sub", "mul", "div")
COMPARISONS = ("eq", "ne", "sle", "slt", "sge", "sgt", "ule", "ult", "uge", "ugt")
FLOAT_COMPARISONS = ("eq", "ne", "le", "lt", "ge", "gt", "o", "uo")
KINDS = "wlds"
TELL = """
data $words = { b "%u %lx ", b 0 }
data $floats = { b "%.17g %a\\n", b 0 }
function d $number(d %x) {
@start
	%is.nan =w cuod %x, %x
	jnz %is.nan, @nan, @number
@nan
	ret d_0.5
@number
	ret %x
}
function $tell(w %w, l %l, d %d, s %s) {
@start
	%n =w call $printf(l $words, ..., w %w, l %l)
	%x =d call $number(d %d)
	%e =d exts %s
	%y =d call $number(d %e)
	%m =w call $printf(l $floats, ..., d %x, d %y)
	ret
}
"""


class Body:
    """A function as it grows: the temporaries that may be used, by their classes."""

    def __init__(self, choice: random.Random, functions: list[str]):
        self.choice, self.functions = choice, functions
        self.lines: list[str] = []
        self.known: dict[str, list[str]] = {kind: [f"%{kind}"] for kind in KINDS}
        self.made = 0

    def value(self, kind: str) -> str:
        """A temporary or a constant of a class."""
        if self.choice.random() < 0.8:
            return self.choice.choice(self.known[kind])
        if kind in "ds":
            return f"{kind}_{self.choice.choice((0, 1, -2.5, 0.1, 1e10, 3.75, -0.001))}"
        return str(self.choice.choice((0, 1, 2, 7, 255, -1, 65535, 2147483647, self.choice.getrandbits(31))))

    def give(self, kind: str, text: str) -> None:
        self.made += 1
        name = f"%{kind}{self.made}"
        self.lines.append(f"\t{name} ={kind} {text}")
        self.known[kind].append(name)

    def step(self) -> None:
        self.choice.choice((self.arithmetic, self.arithmetic, self.division, self.comparison, self.conversion,
                            self.memory, self.join, self.call))()

    def arithmetic(self) -> None:
        kind = self.choice.choice(KINDS)
        if kind in "wl" and self.choice.random() < 0.3:
            amount = self.choice.randrange(32 if kind == "w" else 64)
            self.give(kind, f"{self.choice.choice(('shl', 'shr', 'sar'))} {self.value(kind)}, {amount}")
        elif self.choice.random() < 0.1:
            self.give(kind, f"neg {self.value(kind)}")
        else:
            name = self.choice.choice(INTEGERS[kind] if kind in "wl" else FLOATS)
            self.give(kind, f"{name} {self.value(kind)}, {self.value(kind)}")

    def division(self) -> None:
        kind = self.choice.choice("wl")
        divisor = self.choice.choice((3, 7, 10, 1000, 65537))
        self.give(kind, f"{self.choice.choice(('div', 'rem', 'udiv', 'urem'))} {self.value(kind)}, {divisor}")

    def comparison(self) -> None:
        kind = self.choice.choice(KINDS)
        name = self.choice.choice(COMPARISONS if kind in "wl" else FLOAT_COMPARISONS)
        self.give(self.choice.choice("wl"), f"c{name}{kind} {self.value(kind)}, {self.value(kind)}")

    def conversion(self) -> None:
        gives, name, takes = self.choice.choice((
            ("l", "extsw", "w"), ("l", "extuw", "w"), ("w", "extsb", "w"), ("w", "extuh", "w"), ("w", "extub", "w"),
            ("d", "swtof", "w"), ("d", "uwtof", "w"), ("d", "sltof", "l"), ("s", "swtof", "w"), ("s", "sltof", "l"),
            ("d", "exts", "s"), ("s", "truncd", "d"), ("d", "ultof", "l"), ("w", "copy", "l")))
        self.give(gives, f"{name} {self.value(takes)}")

    def memory(self) -> None:
        """A store to a slot of 32 bytes, and a load from it."""
        store, kind, size = self.choice.choice((("storeb", "w", 1), ("storeh", "w", 2), ("storew", "w", 4),
                                                ("storel", "l", 8), ("stores", "s", 4), ("stored", "d", 8)))
        load, gives, width = self.choice.choice((("loadsb", "w", 1), ("loadub", "l", 1), ("loadsh", "l", 2),
                                                 ("loaduh", "w", 2), ("loadw", "w", 4), ("loadsw", "l", 4),
                                                 ("loaduw", "l", 4), ("loadl", "l", 8)))
        self.made += 1
        for number, (text, bytes_of) in enumerate(((f"{store} {self.value(kind)}, ", size), ("", width))):
            self.lines.append(f"\t%p{self.made}.{number} =l add %slot, {self.choice.randrange(33 - bytes_of)}")
            if text:
                self.lines.append(f"\t{text}%p{self.made}.{number}")
        self.give(gives, f"{load} %p{self.made}.1")

    def join(self) -> None:
        """Two ways, and a phi."""
        kind = self.choice.choice(KINDS)
        self.made += 1
        label = self.made
        self.lines.append(f"\tjnz {self.choice.choice(self.known['w'])}, @yes{label}, @no{label}")
        values = []
        for side in ("yes", "no"):
            self.lines.append(f"@{side}{label}")
            self.made += 1
            self.lines.append(f"\t%{kind}{self.made} ={kind} copy {self.value(kind)}")
            values.append(f"@{side}{label} %{kind}{self.made}")
            self.lines.append(f"\tjmp @both{label}")
        self.lines.append(f"@both{label}")
        self.made += 1
        self.lines.append(f"\t%{kind}{self.made} ={kind} phi {', '.join(values)}")
        self.known[kind].append(f"%{kind}{self.made}")

    def call(self) -> None:
        if self.functions:
            name = self.choice.choice(self.functions)
            self.give(name[2], f"call {name}({', '.join(f'{kind} {self.value(kind)}' for kind in KINDS)})")


def program(seed: int) -> str:
    choice = random.Random(seed)
    functions: list[str] = []
    parts = [TELL]
    for number in range(6):
        kind = choice.choice(KINDS)
        body = Body(choice, functions)
        for _ in range(30):
            body.step()
        head = [f"function {kind} $f{kind}{number}(w %w, l %l, d %d, s %s) {{", "@start", "\t%slot =l alloc8 32",
                "\tstorel 0, %slot", *(f"\t%q{at} =l add %slot, {at}\n\tstorel 0, %q{at}" for at in (8, 16, 24))]
        parts.append("\n".join([*head, *body.lines, f"\tret {body.known[kind][-1]}", "}"]))
        functions.append(f"$f{kind}{number}")
    lines = ["export function w $main() {", "@start", "\t%w0 =w copy 3", "\t%l0 =l copy -17", "\t%d0 =d copy d_1.25",
             "\t%s0 =s copy s_-0.5", "@loop"]
    lines += [f"\t%{kind} ={kind} phi @start %{kind}0, @loop %{kind}9" for kind in KINDS]
    lines.append("\t%i =w phi @start 0, @loop %j")
    last = {kind: f"%{kind}" for kind in KINDS}
    for index, name in enumerate(functions):
        given = ", ".join(f"{kind} {last[kind]}" for kind in KINDS)
        lines.append(f"\t%r{index} ={name[2]} call {name}({given})")
        last[name[2]] = f"%r{index}"
        lines.append(f"\tcall $tell({', '.join(f'{kind} {last[kind]}' for kind in KINDS)})")
    lines += [f"\t%{kind}9 ={kind} copy {last[kind]}" for kind in KINDS]
    lines += ["\t%j =w add %i, 1", "\t%is =w cultw %j, 4", "\tjnz %is, @loop, @end", "@end", "\tret %w9", "}"]
    return "\n".join([*parts, *lines]) + "\n"


def fault(running: Running, seed: int) -> str | None:
    text = program(seed)
    # By C alone: qbe has wrong code of its own for some (docs/FROM_A_COMPILER.md).
    wanted = native([text], [], is_by_c=True)
    lowered = running.lower_here(text)
    if isinstance(lowered, str):
        return lowered
    run = running.run(lowered.text)
    word, _, number = run.end.partition(" ")
    return differ("status", wanted.status, int(number) & 255 if word == "done" else run.end) or \
        differ("output", wanted.output, run.output)


def results(running: Running) -> Results:
    for seed in range(PROGRAMS):
        yield f"chance/{seed}", fault(running, seed) if is_there() else Skipped("gcc")
