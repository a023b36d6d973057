"""Texts at each limit and one past it, and texts that are long in two ways at once, with the expected answers.

Limits that are tested elsewhere by a folder of their own are left out.
"""
from __future__ import annotations

from collections.abc import Callable, Iterable
from typing import Union

# What makes a text, what it gives, and the script that is run on it, if there is one.
Long = Union[tuple[Callable[[], bytes], str], tuple[Callable[[], bytes], str, bytes]]


def loaded(functions: int = 1, data: int = 0, form: str = "yes", place: str = "$main @s 0") -> str:
    return f"loaded {functions} functions {data} data bytes ssa {form}\n#0 {place}\n"


def main_of(lines: Iterable[str], head: str = "function $main() {@s\n", end: str = "ret\n}\n") -> bytes:
    return (head + "".join(lines) + end).encode("latin-1")


def padded(text: bytes, length: int) -> bytes:
    """The text with a comment after it, of a number of bytes in all."""
    return text + b"#" * (length - len(text))


def parameters(count: int) -> str:
    return ",".join(f"w %{n}" for n in range(count))


def at_pages(count: int) -> bytes:
    """So many objects at multiples of 4096."""
    return b"".join(b"data $d%d = align 4096 { b 1 }\n" % n for n in range(count)) + RET


def functions(count: int) -> bytes:
    return b"".join(b"function $f%d() {@s\nret\n}\n" % n for n in range(count))


def labels(count: int, head: str = "function $main() {@s\n") -> bytes:
    """A function with a number of labels."""
    return main_of((f"@{n}\n" for n in range(count - 1)), head)


N = 500_000
RET = b"function $main() {@s\nret\n}\n"

# What is at a limit and what is one past it, but for those that are folders of rows/.
LIMITS: dict[str, Long] = {
    "a text of 2^20 bytes": (lambda: padded(RET, 2**20), loaded()),
    "a text of one byte more": (lambda: padded(RET, 2**20 + 1), "refused: L6 line 1\n"),
    "a text of two bytes more with no token": (lambda: b"?" * (2**20 + 2), "refused: L6 line 1\n"),
    "2^20 newlines": (lambda: b"\n" * 2**20, "refused: S1\n"),
    "2^20 spaces": (lambda: b" " * 2**20, "refused: S1\n"),
    "2^20 commas": (lambda: b"," * 2**20, "refused: P1 line 1\n"),
    "2^20 letters": (lambda: b"a" * 2**20, "refused: P1 line 1\n"),
    "2^20 sigils": (lambda: b"$" * 2**20, "refused: P1 line 1\n"),
    "2^20 colons": (lambda: b":" * 2**20, "refused: L2 line 1\n"),
    "2^20 digits": (lambda: b"9" * 2**20, "refused: L3 line 1\n"),
    "2^20 zeros": (lambda: b"0" * 2**20, "refused: P1 line 1\n"),
    "2^20 minus signs": (lambda: b"-" * 2**20, "refused: L1 line 1\n"),
    "2^20 dots": (lambda: b"." * 2**20, "refused: L1 line 1\n"),
    "2^20 - 1 dots": (lambda: b"." * (2**20 - 1), "refused: P2 line 1\n"),
    "2^20 quotes": (lambda: b'"' * 2**20, "refused: P1 line 1\n"),
    "2^20 - 1 quotes": (lambda: b'"' * (2**20 - 1), "refused: L4 line 1\n"),
    "a quote and 2^20 - 1 backslashes": (lambda: b'"' + b"\\" * (2**20 - 1), "refused: L4 line 1\n"),
    "a newline and 2^20 - 1 bytes 0": (lambda: b"\n" + b"\0" * (2**20 - 1), "refused: L1 line 2\n"),
    "65,535 labels": (lambda: labels(65535), loaded()),
    "65,536 labels": (lambda: labels(65536), "refused: C12 line 1\n"),
    "65,536 parameters": (lambda: main_of([], f"function $main({parameters(65536)}) {{@s\n"), "refused: C12 line 1\n"),
    "65,535 parameters and a temporary": (
        lambda: main_of(["%x =w copy 0\n"], f"\nfunction $main({parameters(65535)}) {{@s\n"), "refused: C12 line 2\n"),
    "1,000 functions, the last with 65,536 labels": (
        lambda: functions(999) + labels(65536), "refused: C12 line 2998\n"),
    "1,001 functions, the last with 65,536 labels": (
        lambda: functions(1000) + labels(65536), "refused: C12 line 3001\n"),
    "256 objects at multiples of 4096": (lambda: at_pages(256), loaded(data=255 * 4096 + 1)),
    "257 objects at multiples of 4096": (lambda: at_pages(257), "refused: Y1 line 257\n"),
    "data of 2^20 bytes, then none": (lambda: b"data $a = { z 1048576 }\ndata $b = { }\n" + RET, loaded(data=2**20)),
    "data of 2^20 bytes, then one": (
        lambda: b"data $a = { z 1048576 }\ndata $b = { b 0 }\n" + RET, "refused: Y1 line 2\n"),
    "2^64 - 1 bytes of data": (lambda: b"data $a = { z 18446744073709551615 }\n" + RET, "refused: Y1 line 1\n"),
    "2^64 bytes of data in two fields": (
        lambda: b"data $a = { z 9223372036854775808, z 9223372036854775808 }\n" + RET, "refused: Y1 line 1\n"),
    "2^64 bytes of data in two objects": (
        lambda: b"data $a = { b 1 }\ndata $b = { z 18446744073709551615 }\n" + RET, "refused: Y1 line 2\n"),
    "an alignment of 0": (lambda: b"data $a = align 0 { b 1 }\n" + RET, "refused: Y2 line 1\n"),
    "an alignment of 8192": (lambda: b"data $a = align 8192 { b 1 }\n" + RET, "refused: Y2 line 1\n"),
    "an alignment of 2^63": (lambda: b"data $a = align 9223372036854775808 { b 1 }\n" + RET, "refused: Y2 line 1\n"),
    "a number of 500,000 zeros before its digit": (
        lambda: main_of([f"%x =w copy {'0' * N}7\n"]), loaded() + "#1 $main @s 1\n%x = 7\n", b"step\nprint %x\n"),
    "the least number and one less": (
        lambda: main_of([f"%x =l copy {n}\n" for n in (-2**63, -2**63 - 1)]), "refused: L3 line 3\n"),
    "a function's name of 500,000 bytes": (
        lambda: b"function $" + b"f" * N + b"() {@s\nret\n}\n" + main_of([f"call ${'f' * N}()\n"]),
        loaded(2) + "#1 $" + "f" * N + " @s 0\n", b"step\n"),
    "a temporary's name of 1,000,000 bytes": (
        lambda: main_of([f"%{'t' * 2 * N} =w copy 1\n"]), loaded() + "#1 $main @s 1\n%" + "t" * 2 * N + " = 1\n",
        b"step\ntemps\n"),
    "a label's name of 1,000,000 bytes": (
        lambda: main_of([f"@{'b' * 2 * N}\n"]), loaded() + "#1 $main @" + "b" * 2 * N + " 0\n", b"step\n"),
    "an object's name of 1,000,000 bytes": (lambda: b"data $" + b"d" * 2 * N + b" = { b 1 }\n" + RET, loaded(data=1)),
}


def thousand_calls() -> bytes:
    """1,000 functions of which each calls the next, from `$f0`."""
    middle = b"".join(b"function $f%d() {@s\ncall $f%d()\nret\n}\n" % (n, n + 1) for n in range(1, 999))
    return b"function $main() {@s\ncall $f1()\nret\n}\n" + middle + b"function $f999() {@s\nret\n}\n"


def many_arguments(count: int) -> bytes:
    arguments = ",".join(f"w {n}" for n in range(count))
    callee = main_of([], f"function w $f({parameters(count)}) {{@s\n", f"ret %{count - 1}\n}}\n")
    return callee + main_of([f"%x =w call $f({arguments})\n"])


# What is long in two ways at once: each would be paid for by the other in a careless table.
LONG_TWICE: dict[str, Long] = {
    "38,000 phis under a label of 500,000 bytes": (
        lambda: main_of([f"@{'b' * N}\n"] + ["%x=w phi@s 1\n"] * 38000), loaded(form="no $main %x")
        + f"#1 $main @{'b' * N} 0\n%x = 1\n", b"step\nprint %x\n"),
    "38,000 labels in a function with a name of 500,000 bytes": (
        lambda: labels(38000, f"function ${'f' * N}() {{@s\n"), "refused: S1\n"),
    "two names of 500,000 bytes that differ in the last byte": (
        lambda: main_of([f"%{'x' * N}a =w copy 1\n", f"%{'x' * N}b =w copy 2\n"]),
        loaded() + "#2 $main @s 2\n" + f"%{'x' * N}a = 1\n" + f"%{'x' * N}b = 2\n", b"step 2\ntemps\n"),
    "a fault that tells a name of 500,000 bytes": (
        lambda: main_of([f"%y =w copy %{'x' * N}\n", f"%{'x' * N} =w copy 1\n"]),
        loaded() + f"#1 fault unset temporary %{'x' * N}\n#0 $main @s 0\n#1 fault unset temporary %{'x' * N}\n",
        b"step\nback\nstep\n"),
    "a call of 40,000 arguments": (
        lambda: many_arguments(40000), loaded(2) + "#2 $main @s 1\n%x = 39999\n#0 $main @s 0\n#3 done\n",
        b"step 2\nprint %x\nback 2\nstep 3\n"),
    "1,000 functions that call each other": (
        thousand_calls, loaded(1000) + "#999 $f999 @s 0\n$f999 @s 0\n"
        + "".join(f"$f{n} @s 1\n" for n in range(998, 0, -1)) + "$main @s 1\nstop: end\n#1999 done\n#0 $main @s 0\n",
        b"step 999\nwhere\ncontinue\nback 1999\n"),
    "a phi that names a label 100,000 times": (
        lambda: main_of(["@b\n", "%x =w phi " + ",".join(["@s 1"] * 100_000) + "\n"]), "refused: C8 line 3\n"),
    "300 phis of 300 labels": (
        lambda: main_of([f"@{n}\njnz 1,@z,@{n + 1}\n" for n in range(299)] + ["@299\njmp @z\n@z\n"] + [
            "%x =w phi " + ",".join(f"@{n} {n}" for n in range(300)) + "\n"] * 300),
        loaded(form="no $main %x") + "#2 $main @z 0\n%x = 0\n", b"step 2\nprint %x\n"),
    "90,000 objects of one name": (lambda: b"data $a={}\n" * 90_000 + RET, "refused: C1 line 2\n"),
    "a label that 60,000 jumps name and none defines": (
        lambda: main_of([f"@{n}\njmp @x\n" for n in range(60000)], end="}\n"), "refused: C3 line 3\n"),
    "40,000 objects with the address of the next": (
        lambda: b"".join(b"data $%d={l $%d}\n" % (n, (n + 1) % 40000) for n in range(40000)) + RET,
        loaded(data=40000 * 16 - 8) + "10 00 01 00 00 00 00 00\n", b"mem $0 8\n"),
    "a string of 250,000 escapes": (
        lambda: b'data $a = { b "' + b"\\001" * 250_000 + b'" }\n' + RET, loaded(data=250_000) + "01 --\n",
        b"mem $a+249999 2\n"),
    "250,000 escapes of which the last is none": (
        lambda: b'data $a = { b "' + b"\\001" * 250_000 + b'\\8" }\n' + RET, "refused: L5 line 1\n"),
}

TABLES = {"limit": LIMITS, "long twice": LONG_TWICE}
