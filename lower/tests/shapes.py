"""Random functions and calls of all shapes: classes, aggregates, environments, dots, by names and by addresses, with
arguments of other classes and too many of them. Each function mixes all its arguments into a number, which Python
computes too."""
import random

from .running import Results, Running, differ

PROGRAMS, FUNCTIONS, CALLS = 12, 12, 40
LONG = (1 << 64) - 1
SIZES = {"w": 4, "s": 4, "l": 8, "d": 8}
# Types by their names: the text, the size, and the instruction that has memory for it.
TYPES = {":small": ("{ b 3 }", 3, "alloc4"), ":pair": ("{ w, l }", 16, "alloc8"),
         ":three": ("{ d, s, h }", 16, "alloc8"), ":big": ("{ l 5 }", 40, "alloc8"),
         ":wide": ("align 16 { l 2, b }", 32, "alloc16"),
         ":dark": ("align 8 { 24 }", 24, "alloc8"), ":union": ("{ { b 5 } { w } }", 8, "alloc4")}
FACTOR = 1099511628211


def mixed(total: int, value: int) -> int:
    return (total * FACTOR + value) & LONG


class Function:
    """A function: its parameters, the kinds of its variadic arguments, its environment and its result."""

    def __init__(self, number: int, choice: random.Random):
        self.name, self.seed = f"$f{number}", choice.getrandbits(64)
        kinds = ["w", "l", "s", "d", *TYPES]
        self.parameters = [choice.choice(kinds) for _ in range(choice.randrange(8))]
        self.has_environment = choice.random() < 0.2
        self.behind = [choice.choice("wlsd") for _ in range(choice.randrange(1, 6))] if choice.random() < 0.3 else None
        self.returns = choice.choice(kinds)

    def text(self) -> str:
        """It writes over its aggregates, which the caller must not see."""
        parameters = [f"{kind} %p{index}" for index, kind in enumerate(self.parameters)]
        parameters = ["env %e"] * self.has_environment + parameters + ["..."] * (self.behind is not None)
        lines = [f"function {self.returns} {self.name}({', '.join(parameters)}) {{", "@start",
                 f"\t%t =l copy {self.seed}"]
        if self.has_environment:
            lines += mixing("%e")
        for index, kind in enumerate(self.parameters):
            lines += taken(kind, f"%p{index}", f"p{index}")
            if kind in TYPES:
                lines.append(f"\tstoreb 255, %p{index}")
        if self.behind is not None:
            lines += ["\t%list =l alloc8 24", "\tvastart %list"]
            for index, kind in enumerate(self.behind):
                lines += [f"\t%v{index} ={kind} vaarg %list"] + taken(kind, f"%v{index}", f"v{index}")
        return "\n".join(lines + self.ending()) + "\n}\n"

    def ending(self) -> list[str]:
        if self.returns in TYPES:
            _, size, alloc = TYPES[self.returns]
            return [f"\t%r =l {alloc} {size}",
                    *(f"\t%a{at} =l add %r, {at}\n\tstoreb %t, %a{at}" for at in range(size)), "\tret %r"]
        if self.returns in "wl":
            return ["\tret %t"]
        if self.returns == "d":
            return ["\t%r =d cast %t", "\tret %r"]
        return ["\t%low =w copy %t", "\t%r =s cast %low", "\tret %r"]

    def result(self, environment: int, values: list[int | bytes], behind: list[int]) -> int:
        """What it mixes of what it is given."""
        total = self.seed
        if self.has_environment:
            total = mixed(total, environment)
        for value in values:
            for part in value if isinstance(value, bytes) else [value]:
                total = mixed(total, part)
        for value in behind:
            total = mixed(total, value)
        return total


def mixing(value: str) -> list[str]:
    return [f"\t%t =l mul %t, {FACTOR}", f"\t%t =l add %t, {value}"]


def taken(kind: str, value: str, name: str) -> list[str]:
    """Mixes a value of a kind; of an aggregate each byte."""
    if kind in TYPES:
        lines = []
        for at in range(TYPES[kind][1]):
            lines += [f"\t%{name}.at{at} =l add {value}, {at}", f"\t%{name}.b{at} =l loadub %{name}.at{at}",
                      *mixing(f"%{name}.b{at}")]
        return lines
    if kind == "l":
        return mixing(value)
    if kind == "d":
        return [f"\t%{name}.l =l cast {value}", *mixing(f"%{name}.l")]
    word = value if kind == "w" else f"%{name}.w"
    front = [] if kind == "w" else [f"\t{word} =w cast {value}"]
    return front + [f"\t%{name}.l =l extuw {word}", *mixing(f"%{name}.l")]


class Program:
    """The functions, and a main function that calls them and prints what they give."""

    def __init__(self, seed: int):
        self.choice = random.Random(seed)
        self.functions = [Function(number, self.choice) for number in range(FUNCTIONS)]
        self.lines: list[str] = []
        self.data: list[str] = []
        self.wanted: list[str] = []
        for number in range(CALLS):
            self.call(number, self.choice.choice(self.functions))

    def argument(self, kind: str, name: str) -> tuple[str, int | bytes]:
        """An argument of a kind, as a constant, a temporary or bytes of data, and its value."""
        choice = self.choice
        if kind in TYPES:
            content = choice.randbytes(TYPES[kind][1])
            self.data.append(f"data ${name} = align 16 {{ b {' '.join(map(str, content))} }}")
            return f"{kind} ${name}", content
        return self.numeric(kind, name)

    def numeric(self, kind: str, name: str) -> tuple[str, int]:
        """An argument that is no aggregate, and its bits."""
        choice = self.choice
        value = choice.getrandbits(8 * SIZES[kind])
        if choice.random() < 0.5:
            return f"{kind} {value}", value
        self.lines.append(f"\t%{name} ={kind} copy {value}")
        return f"{kind} %{name}", value

    def other(self, kind: str, name: str) -> tuple[str, int]:
        """An argument of the other integer class than the parameter's, which is cut or extended by zeros."""
        if kind == "w":
            text, value = self.numeric("l", name)
            return text, value & 0xFFFFFFFF
        return self.numeric("w", name)

    def call(self, number: int, function: Function) -> None:
        choice = self.choice
        arguments: list[str] = []
        values: list[int | bytes] = []
        for index, kind in enumerate(function.parameters):
            name = f"c{number}.a{index}"
            given: tuple[str, int | bytes] = \
                self.other(kind, name) if kind in "wl" and choice.random() < 0.1 else self.argument(kind, name)
            arguments.append(given[0])
            values.append(given[1])
        behind = [self.numeric(kind, f"c{number}.v{index}") for index, kind in enumerate(function.behind or ())]
        has_dots = function.behind is not None or choice.random() < 0.1
        environment = choice.getrandbits(64)
        written = [f"env {environment}"] * (function.has_environment or choice.random() < 0.1) + arguments
        written += ["..."] * has_dots + [text for text, _ in behind]
        if function.behind is None and choice.random() < 0.1:
            # One that the function doesn't take.
            written.append("w 1")
            has_address = False
        else:
            has_address = choice.random() < 0.4
        target = function.name
        if has_address:
            target = f"%g{number}"
            self.lines += [f"\t%h{number} =l add $functions, {8 * int(function.name[2:])}",
                           f"\t{target} =l loadl %h{number}"]
        self.lines.append(f"\t%r{number} ={function.returns} call {target}({', '.join(written)})")
        self.tell(number, function, function.result(environment, values, [value for _, value in behind]))

    def tell(self, number: int, function: Function, total: int) -> None:
        """Prints a result: a number, or each byte of an aggregate mixed."""
        kind, result = function.returns, f"%r{number}"
        if kind in TYPES:
            self.lines.append("\t%t =l copy 1")
            self.lines += taken(kind, result, f"r{number}")
            wanted = 1
            for _ in range(TYPES[kind][1]):
                wanted = mixed(wanted, total & 255)
            result = "%t"
        else:
            wanted = total if kind in "ld" else total & 0xFFFFFFFF
            if kind in "sd":
                self.lines.append(f"\t%x{number} ={'w' if kind == 's' else 'l'} cast {result}")
                result = f"%x{number}"
            if kind in "ws":
                self.lines.append(f"\t%y{number} =l extuw {result}")
                result = f"%y{number}"
        self.lines.append(f"\t%o{number} =w call $printf(l $format, ..., l {result})")
        self.wanted.append(f"{wanted:x}")

    def text(self) -> str:
        types = "".join(f"type {name} = {body}\n" for name, (body, _, _) in TYPES.items())
        functions = "".join(function.text() for function in self.functions)
        table = "data $functions = { l " + " ".join(function.name for function in self.functions) + " }\n"
        main = "export function w $main() {\n@start\n" + "\n".join(self.lines) + "\n\tret 0\n}\n"
        return types + functions + main + table + 'data $format = { b "%lx\\n\\0" }\n' + "\n".join(self.data) + "\n"


def fault(running: Running, seed: int) -> str | None:
    program = Program(seed)
    lowered = running.lower_here(program.text())
    if isinstance(lowered, str):
        return lowered
    run = running.run(lowered.text)
    return differ("end", "done 0", run.end) or differ("results", program.wanted, run.output.split("\n")[:-1])


def results(running: Running) -> Results:
    for seed in range(PROGRAMS):
        yield f"shapes/{seed}", fault(running, seed)
