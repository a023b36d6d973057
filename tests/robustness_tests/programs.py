"""Random programs of the whole language: data, functions, loops, phis, memory, calls.

Most keep all rules; most temporaries are set before they are used, and most addresses are live. The rest makes refusals
and faults, which should occur too.
"""
from __future__ import annotations

import re
from collections.abc import Sequence
from random import Random

from oracle.tree import ALLOCS, COMPARISONS, EXTENSIONS, LOADS, SHIFTS, STORES, TYPES, class_of

NUMBERS = [0, 1, 2, 3, 5, 7, 8, 16, 31, 32, 33, 63, 64, 127, 128, 255, 256, 32767, 32768, 65535, 65536, 2**31 - 1,
           2**31, 2**32 - 1, 2**32, 2**63 - 1, 2**63, 2**64 - 1, -1, -2, -7, -128, -2**31, -2**63]
SIZES = (0, 1, 4, 9, 30, 2**20, 2**64 - 1)
BUILT_IN = (("putchar", "w", "w"), ("puts", "l", "w"), ("exit", "w", None))
SAME = ("add", "sub", "mul", "div", "rem", "udiv", "urem", "and", "or", "xor")


class Function:
    """What callers know of a function."""

    def __init__(self, random: Random, number: int) -> None:
        self.name = f"f{number}"
        self.type = random.choice(TYPES + (None, None, "w", "l"))
        self.params = [random.choice(TYPES + ("w", "l")) for _ in range(random.choice((0, 0, 1, 2, 3)))]


class Writer:
    """Writes one program by the choices of a source of randomness."""

    def __init__(self, random: Random) -> None:
        self.random = random
        self.functions = [Function(random, n) for n in range(random.choice((1, 1, 2, 3, 4)))]
        main = self.functions[0]
        main.name = "main"
        main.params = main.params[:random.randrange(3)]
        self.datas = [f"d{n}" for n in range(random.choice((0, 1, 2, 3)))]

    def often(self, percent: int) -> bool:
        return self.random.randrange(100) < percent

    def text(self) -> bytes:
        parts = [self.data(name) for name in self.datas] + [self.function(one) for one in self.functions]
        if self.often(30):
            self.random.shuffle(parts)
        return "".join(parts).encode("latin-1")

    def number(self) -> str:
        return str(self.random.choice(NUMBERS) if self.often(60) else self.random.randrange(20))

    # Data.

    def data(self, name: str) -> str:
        align = f"align {self.random.choice((1, 2, 4, 8, 16, 32))} " if self.often(50) else ""
        fields = [self.field() for _ in range(self.random.randrange(4))] + ["b 0"]
        export = self.random.choice(("", "", "export ", "export\n", 'section ".x" '))
        return f"{export}data ${name} = {align}{{ {', '.join(fields)} }}\n"

    def field(self) -> str:
        letter = self.random.choice("bhwlz")
        if letter == "z":
            return f"z {self.random.randrange(20)}"
        items = [self.item(letter) for _ in range(self.random.randrange(1, 4))]
        return f"{letter} {' '.join(items)}"

    def item(self, letter: str) -> str:
        if letter == "b" and self.often(60):
            return self.random.choice(('"hello"', '"\\000"', '"\\"\\\\\\377\\t"', '"~ \\012"', '""'))
        if letter == "l" and self.often(50):
            name = self.random.choice(self.datas + [one.name for one in self.functions] + ["puts", "exit"])
            return f"${name}" + (f" + {self.random.randrange(9)}" if self.often(40) else "")
        return self.number()

    # Functions.

    def function(self, it: Function) -> str:
        self.pool = {"w": [f"w{n}" for n in range(self.random.randrange(2, 5))],
                     "l": [f"l{n}" for n in range(self.random.randrange(2, 4))]}
        self.pointers: list[tuple[str, int]] = []
        self.single = self.often(25)
        self.fresh = 0
        params = []
        for n, type_ in enumerate(it.params):
            params.append(f"{type_} %p{n}")
            self.pool[class_of(type_)].append(f"p{n}")
        labels = ["start"] + [f"b{n}" for n in range(self.random.choice((0, 1, 2, 3, 5)))]
        bodies: list[list[str]] = []
        jumps: list[str | None] = []
        targets: list[list[str]] = []
        for place, label in enumerate(labels):
            body = self.beginning() if place == 0 else []
            for _ in range(self.random.randrange(6)):
                body += self.instruction()
            bodies.append(body)
            jump, to = self.jump(it, labels, place)
            jumps.append(jump)
            targets.append(to)
        lines = [f"function {it.type + ' ' if it.type else ''}${it.name}({', '.join(params)}) {{"]
        for place, label in enumerate(labels):
            lines.append(f"@{label}")
            before = [labels[n] for n in range(len(labels)) if label in targets[n]]
            if place and before:
                lines += self.phis(before)
            lines += [f"\t{line}" for line in bodies[place]]
            if jumps[place]:
                lines.append(f"\t{jumps[place]}")
        return "\n".join(lines) + "\n}\n"

    def beginning(self) -> list[str]:
        lines = []
        for class_ in "wl":
            for name in self.pool[class_]:
                if not name.startswith("p") and self.often(93):
                    lines.append(f"%{name} ={class_} copy {self.number()}")
        for n in range(self.random.randrange(3)):
            size = self.random.choice((0, 1, 4, 8, 16, 40))
            self.pointers.append((f"%a{n}", size))
            lines.append(f"%a{n} =l {self.random.choice(ALLOCS)} {size}")
        return lines

    def target(self, class_: str) -> str:
        if self.single:
            self.fresh += 1
            name = f"t{self.fresh}"
            return name
        return self.random.choice(self.pool[class_])

    def value(self, class_: str) -> str:
        if self.often(65):
            names = self.pool[class_] + (self.pool["l"] if class_ == "w" and self.often(20) else [])
            return "%" + self.random.choice(names)
        if self.often(8):
            return "$" + self.random.choice(self.datas + [one.name for one in self.functions] + ["putchar"])
        return self.number()

    def address(self) -> str:
        """An address, most often one that is live for a few bytes."""
        if self.often(4):
            return self.value("l")
        choices = [f"${name}" for name in self.datas]
        choices += [name for name, size in self.pointers if size or self.often(20)]
        return self.random.choice(choices) if choices else self.value("l")

    def instruction(self) -> list[str]:
        random = self.random
        kind = random.choices(("same", "shift", "compare", "one", "load", "store", "blit", "alloc", "call", "pointer"),
                              (26, 8, 10, 14, 10, 14, 4, 3, 12, 6))[0]
        class_ = random.choice("wl")
        if kind == "store":
            op = random.choice(STORES)
            return [f"{op} {self.value('l' if op == 'storel' else 'w')}, {self.address()}"]
        if kind == "blit":
            return [f"blit {self.address()}, {self.address()}, {random.choice((0, 1, 2, 3, 8))}"]
        if kind == "call":
            return [self.call()]
        if kind == "pointer":
            self.fresh += 1
            name = f"%q{self.fresh}"
            line = f"{name} =l add {self.address()}, {random.randrange(4)}"
            self.pointers.append((name, 1))
            return [line]
        if kind == "alloc" or kind == "load" and class_ == "l" and self.often(30):
            op = "loadl" if kind == "load" else random.choice(ALLOCS)
            operand = self.address() if kind == "load" else str(random.choice(SIZES[:random.choice((4, 5, 5, 5, 7))]))
            return [f"%{self.target('l')} =l {op} {operand}"]
        if kind == "load":
            op = random.choice([one for one in LOADS if one != "loadl"])
            return [f"%{self.target(class_)} ={class_} {op} {self.address()}"]
        if kind == "same":
            op = random.choice(SAME)
            is_safe = op[-3:] in ("div", "rem") and self.often(85)
            second = str(random.choice((1, 2, 3, -1, 7, 10))) if is_safe else self.value(class_)
            return [f"%{self.target(class_)} ={class_} {op} {self.value(class_)}, {second}"]
        if kind == "shift":
            op = random.choice(SHIFTS)
            return [f"%{self.target(class_)} ={class_} {op} {self.value(class_)}, {self.value('w')}"]
        if kind == "compare":
            op = random.choice(COMPARISONS)
            return [f"%{self.target(class_)} ={class_} {op} {self.value(op[-1])}, {self.value(op[-1])}"]
        op = random.choice(("neg", "copy") + EXTENSIONS)
        if op in EXTENSIONS:
            class_ = "l" if op[-1] == "w" else class_
            return [f"%{self.target(class_)} ={class_} {op} {self.value('w')}"]
        return [f"%{self.target(class_)} ={class_} {op} {self.value(class_)}"]

    def call(self) -> str:
        random = self.random
        if self.often(40):
            name, param, type_ = random.choice(BUILT_IN[:random.choice((2, 2, 3))])
            params = [param]
            arguments = [f"{param} {self.address() if name == 'puts' else self.value(param)}"]
        else:
            it = random.choice(self.functions)
            name, params, type_ = it.name, it.params, it.type
            arguments = [f"{one} {self.value(class_of(one))}" for one in params]
        if self.often(4):
            arguments = arguments[1:] or [f"w {self.value('w')}"]
        target = ""
        if type_ and self.often(70):
            keeps = self.often(60) or class_of(type_) == "l"
            written = type_ if keeps else random.choice(("w", "sb", "ub", "sh", "uh"))
            target = f"%{self.target(class_of(type_))} ={written} "
        callee = f"${name}" if self.often(94) else self.value("l")
        return f"{target}call {callee}({', '.join(arguments)})"

    def jump(self, it: Function, labels: Sequence[str], place: int) -> tuple[str | None, list[str]]:
        """The jump that ends a block, and the labels that it goes to."""
        random, others = self.random, labels[1:]
        is_last = place + 1 == len(labels)
        kind = random.choices(("ret", "hlt", "jmp", "jnz", "none"), (40 if is_last else 8, 2, 20, 45, 25))[0]
        if kind == "none" and not is_last:
            return None, [labels[place + 1]]
        if not others or kind in ("ret", "none"):
            bare = it.type is None or self.often(8)
            exit_ = f"call $exit(w {self.value('w')})\n\t" if self.often(12) else ""
            return exit_ + ("ret" if bare else f"ret {self.value(class_of(it.type))}"), []
        if kind == "hlt":
            return "hlt", []
        if kind == "jmp":
            to = random.choice(others)
            return f"jmp @{to}", [to]
        both = [random.choice(others), random.choice(others)]
        return f"jnz {self.value('w')}, @{both[0]}, @{both[1]}", both

    def phis(self, before: Sequence[str]) -> list[str]:
        lines = []
        for _ in range(self.random.choice((0, 0, 1, 2, 3))):
            class_ = self.random.choice("wl")
            sources = [f"@{label} {self.value(class_)}" for label in before]
            self.random.shuffle(sources)
            lines.append(f"\t%{self.random.choice(self.pool[class_])} ={class_} phi {', '.join(sources)}")
        return lines


def random_program(random: Random) -> tuple[bytes, list[int]]:
    """The text of a program, and arguments for its `main`."""
    writer = Writer(random)
    arguments = [random.choice(NUMBERS) % 2**64 for _ in writer.functions[0].params]
    return writer.text(), arguments


TOKENS = """$main $f1 $d0 $ %w0 %l0 %zz % @start @b0 @ :t w l s d sb uh b h z align data function export section phi
call ret jmp jnz hlt blit add copy storew loadl alloc8 extsw ceqw ceqs type env cast s_1 d_x 0 1 -1 7
18446744073709551615 3 4096 18446744073709551616 -9223372036854775809 1048576 "a" "\\400" " "\\q" , = { }
( ) + ... . - # ?""".split() + ["\n", "\n\n", "# x\n", "\0", "\xff", "\r", "\t"]
PIECE = re.compile(r"[$%@:]?[A-Za-z0-9._]+|\s+|[^\sA-Za-z0-9]")


def kind_of(piece: str) -> str:
    return "number" if piece.isdigit() else "word" if piece.isalpha() else piece[0]


def changed(random: Random, given: bytes) -> bytes:
    """A text with one to three changes: of pieces against others of their kind, of bytes, of pieces or of lines."""
    text = given.decode("latin-1")
    for _ in range(random.choice((1, 1, 2, 3))):
        pieces, lines = PIECE.findall(text), text.splitlines(True)
        if not pieces:
            break
        kind = random.randrange(10)
        at = random.randrange(len(pieces))
        if kind < 6:
            replaced = kind_of(pieces[at])
            pieces[at] = random.choice([one for one in pieces + TOKENS if kind_of(one) == replaced])
            text = "".join(pieces)
        elif kind == 6:
            at = random.randrange(len(text))
            text = text[:at] + chr(random.randrange(256)) * random.randrange(2) + text[at + 1:]
        elif kind == 7:
            other = random.choice(TOKENS) if random.randrange(2) else random.choice(pieces)
            pieces[at:at + random.choice((0, 1, 1, 1))] = [other] * random.randrange(2)
            text = "".join(pieces)
        else:
            at = random.randrange(len(lines))
            lines[at:at + random.randrange(2)] = [random.choice(lines)] * random.randrange(2)
            text = "".join(lines)
    return text.encode("latin-1")
