"""Random scripts of every command for a program, with refused lines among them."""
from __future__ import annotations

from random import Random

from oracle.grammar import parse
from oracle.tokens import Refused, cut
from oracle.tree import Func, Program

from .programs import NUMBERS

# Lines that no program makes lawful, and spacing that says nothing.
ODD = """fly|step 0|step -1|step 4294967296|step 00003|accesses|accesses 1
accesses 1 $d0|accesses 0 $d0 1|accesses 1 $nope 1|accesses 1 $d0 0|accesses 1 $d0 4294967296
accesses 4294967296 0 1|accesses 9 18446744073709551615 9|accesses 5 $d0+18446744073709551615 3
counts|counts 0|counts 4294967296|counts x|counts 1 2|counts 00002
frames|frames 9|frames 0 1|frames 1 0|frames 4294967296 1|frames 1 4294967296|frames 9 x|frames 1 1 1|frames 02 01
back 1 2|back x|print|print x|print %|set %x
set %w0 18446744073709551616|set %w0 -9223372036854775809|set %w0 -0|poke b 0|poke q 0 1|poke w 65536 -1
mem 0 0|mem 0 257|mem 18446744073709551615 4|mem 18446744073709551616 1|mem $d0+ 1
mem $d0+18446744073709551615 2|mem $nope 1|mem $puts 3|watch|watch q 0|watch w|watch $main|watch $main x
watch w $main %x|watch b 18446744073709551615|break|break main|break $nope|break $main @nope
break $main @start 99|break $main @start -1|delete|delete -1|delete 99|delete 18446744073709551616
stops now|STEP|quitt|where.|list #""".replace("\n", "|").split("|")
ODD += ["", " ", "\t\r", " \t step\r", "step\0", "out\t", "\xff\xfe", "a" * 256, "a" * 257, " " * 257,
        "step" + " " * 252, "step" + " " * 253]
KINDS = {"step": 14, "step N": 12, "accesses": 6, "counts": 6, "frames": 6, "back": 8, "back N": 10, "continue": 10,
         "reverse": 9, "break": 6, "watch bytes": 5, "watch temp": 5, "delete": 4, "stops": 2, "set": 6, "poke": 6,
         "print": 6, "temps": 5, "mem": 5, "where": 4, "list": 3, "out": 3, "odd": 6}


def random_script(random: Random, text: bytes, lines: int) -> bytes:
    """A script of a number of lines for a text, which may be a refused one."""
    program: Program | None = None
    try:
        program = parse(cut(text))
    except Refused:
        pass
    return "".join(line + "\n" for line in Lines(random, program).some(lines)).encode("latin-1")


class Lines:
    def __init__(self, random: Random, program: Program | None) -> None:
        self.random = random
        self.funcs = program.funcs if program else []
        self.datas = [item.name for item in program.datas] if program else []

    def some(self, count: int) -> list[str]:
        kinds = self.random.choices(list(KINDS), list(KINDS.values()), k=count)
        lines = [self.line(kind) for kind in kinds]
        if self.random.randrange(12) == 0:
            lines.insert(self.random.randrange(count + 1), "quit")
        return lines

    def count(self) -> int:
        return self.random.choice((1, 2, 3, 5, 10, 40, 300, 4294967295))

    def func(self) -> Func | None:
        return self.random.choice(self.funcs) if self.funcs else None

    def temp(self, func: Func | None = None) -> str:
        func = func or self.func()
        temps = func.temps if func else []
        return self.random.choice(temps) if temps else "x"

    def address(self) -> str:
        random = self.random
        kind = random.randrange(5)
        if kind < 2 and self.datas:
            return f"${random.choice(self.datas)}" + (f"+{random.randrange(12)}" if kind else "")
        if kind == 2:
            return str(16777216 + random.randrange(40))
        if kind == 3 and random.randrange(4) == 0:
            return str(random.choice(NUMBERS) % 2**64)
        return str(65536 + random.randrange(30))

    def value(self) -> str:
        return str(self.random.choice(NUMBERS) if self.random.randrange(2) else self.random.randrange(-5, 100))

    def line(self, kind: str) -> str:
        random = self.random
        if kind in ("step N", "back N"):
            return f"{kind[:4]} {self.count()}"
        if kind == "counts":
            return f"counts {self.count()}"
        if kind == "frames":
            return f"frames {self.count()} {random.choice((1, 2, 5, 12, 40, 4294967295))}"
        if kind == "accesses":
            return f"accesses {self.count()} {self.address()} {random.choice((1, 2, 4, 30, 4294967295))}"
        if kind == "break":
            func = self.func()
            if func is None:
                return "break $main"
            block = random.choice(func.blocks)
            whole = ["break", f"${func.name}", f"@{block.label}", str(random.randrange(len(block.insts) + 1))]
            return " ".join(whole[:random.choice((2, 3, 4, 4))])
        if kind == "watch bytes":
            return f"watch {random.choice('bhwl')} {self.address()}"
        if kind == "watch temp":
            func = self.func()
            return f"watch ${func.name if func else 'f'} %{self.temp(func)}"
        if kind == "delete":
            return f"delete {random.randrange(1, 6)}"
        if kind == "set":
            return f"set %{self.temp()} {self.value()}"
        if kind == "poke":
            return f"poke {random.choice('bhwl')} {self.address()} {self.value()}"
        if kind == "print":
            return f"print %{self.temp()}"
        if kind == "mem":
            return f"mem {self.address()} {random.choice((1, 2, 8, 16, 70, 256))}"
        if kind == "odd":
            return random.choice(ODD)
        return kind
