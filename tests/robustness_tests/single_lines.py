"""Single lines of a script, a session each: the shapes of words, their number, the order of refusals, separators of
words.

Lines that are already in a folder of rows/ are left out."""
from __future__ import annotations

from collections.abc import Iterator

from harness.running import Case, Running

TEXT = b"""data $c = { l -1 -1 }
data $c.1$ = { b 4 5 6 7 }
data $d = { w 1 }
function l $main() {
@start
	%x =l copy 5
	%a.1_$Z =w copy 1
	jmp @b
@b
	ret %x
}
function $f(w %x.2) {
@s
	ret
}
"""
LOADED = "loaded 2 functions 36 data bytes ssa yes\n#0 $main @start 0\n"

# Lines that are refused for their words.
REFUSED = {
    "unknown command": ["fly 1 2", "Step", "steps", "ste", "step\v2", "$main"],
    "missing word": [
        "accesses", "accesses 1", "accesses 1 $d", "counts", "frames", "frames 1",
        "set", "set %x", "poke", "poke b", "watch", "watch w", "watch $f", "delete", "mem", "mem 0"],
    "bad word": [
        # counts
        "accesses x", "accesses 0 $d 1", "accesses 4294967296 $d 1", "accesses 1 d 1", "accesses 1 $d 0",
        "accesses 1 $d 4294967296", "accesses 1 $d x",
        "counts x", "counts 0", "counts -1", "counts 4294967296",
        "frames x", "frames 0 1", "frames 1 0", "frames 4294967296 1", "frames 1 4294967296", "frames 1 -1",
        "step +1", "step x", "step 1x", "back -1", "back 0", "back 4294967296", "back 18446744073709551617",
        # values
        "set %x -9223372036854775809", "set %x 18446744073709551616", "set %x -", "set %x --1", "set %x +1",
        "set %x 1x", "set %x 1-", "set %x $c",
        # names
        "set $x 1", "set x", "print %", "print %a-b", "print %%x", "print @x", "break main", "break $", "break @b",
        "break $main 1", "break $main b", "break $main @", "break $main $b", "watch %x", "watch $f x", "watch $f $x",
        # indices and numbers of stops
        "break $main @b x", "break $main @b -1", "break $main @b 18446744073709551616", "delete x", "delete -1",
        "delete 18446744073709551616",
        # addresses, widths, and numbers of bytes
        "mem 18446744073709551616 1", "mem $ 1", "mem $c+ 1", "mem $c+-1 1", "mem $c+1+1 1", "mem $+1 1", "mem 5+1 1",
        "mem -1 1", "mem $c+18446744073709551616 1", "mem $c+x 1", "mem $c-1 1", "mem c 1", "mem %x 1", "mem 0 0",
        "mem 0 -1", "mem 0 x", "poke q 0 1", "poke bb 0 1", "poke B 0 1", "poke w x 1", "poke w $d x", "watch bb 0",
        "watch w x",
        # a word of the wrong shape is told before one that is missing behind it, and before one too many
        "poke q", "mem x", "watch q", "print x y"],
    "extra word": [
        "accesses 1 $d 1 1", "counts 1 2", "frames 1 2 3",
        "step 1 2", "continue 1", "reverse 1", "break $main @b 1 2", "watch w 1 2", "watch $f %x.2 1", "delete 1 2",
        "stops 1", "set %x 1 2", "poke b 0 1 2", "print %x %y", "temps %x", "mem 0 1 2", "list 1", "out 1",
        # words are counted before what they name is looked up
        "print %nope 1", "break $nope @b 1 2", "delete 9 1"],
}

# Scripts that are taken, and their answers.
TAKEN = [
    # counts
    ("step 1", "#1 $main @start 1\n"),
    ("step 3\nback 0000000000000000000000000000000000007", "#3 $main @b 0\n#0 $main @start 0\n"),
    ("accesses 1 0 1", "#1 $main @start 1\n"),
    ("accesses 0000000000000000000000000000000000001 $nope 1", "no: unknown place\n"),
    ("counts 1", "count 1 $main @start 0\n#1 $main @start 1\n"),
    ("counts 0000000000000000000000000000000000001", "count 1 $main @start 0\n#1 $main @start 1\n"),
    ("frames 1 4294967295", "#1 $main @start 1\n"),
    ("frames 0000000000000000000000000000000000001 01", "#1 $main @start 1\n"),
    # values
    ("set %x -0\nprint %x", "#1 $main @start 0\n%x = 0\n"),
    ("set %x -1\nprint %x", "#1 $main @start 0\n%x = 18446744073709551615\n"),
    ("set %x -0001\nprint %x", "#1 $main @start 0\n%x = 18446744073709551615\n"),
    ("set %x 18446744073709551615\nprint %x", "#1 $main @start 0\n%x = 18446744073709551615\n"),
    ("set %x -9223372036854775808\nprint %x", "#1 $main @start 0\n%x = 9223372036854775808\n"),
    ("set %a.1_$Z -1\nprint %a.1_$Z", "#1 $main @start 0\n%a.1_$Z = 4294967295\n"),
    ("poke h $d -1\nmem $d 5", "#1 $main @start 0\nff ff 00 00 --\n"),
    ("poke b $d 258\nmem $d 4", "#1 $main @start 0\n02 00 00 00\n"),
    ("poke h 7 -1", "no: dead address\n"),
    # addresses
    ("mem 0 1", "--\n"),
    ("mem 18446744073709551615 256", " ".join(["--"] * 256) + "\n"),
    ("mem $c.1$ 2", "04 05\n"),
    ("mem $c.1$+0002 2", "06 07\n"),
    ("mem $c+18446744073709551615 2", "-- ff\n"),
    ("poke l $c+8 1\nmem $c 16", "#1 $main @start 0\n" + "ff " * 8 + "01" + " 00" * 7 + "\n"),
    ("watch l $c+8", "watch 1 l 65544\n"),
    ("watch b $c+18446744073709486081", "watch 1 b 1\n"),
    # names, whole
    ("print %a.1_$Z", "%a.1_$Z unset\n"),
    ("print %a.1_", "no: unknown temporary\n"),
    ("print %a.1_$Zz", "no: unknown temporary\n"),
    ("watch $f %x.2", "watch 1 $f %x.2\n"),
    ("watch $f %x", "no: unknown place\n"),
    ("mem $c.1 1", "no: unknown place\n"),
    # places and stops
    ("break $f", "break 1 $f @s 0\n"),
    ("break $main @b", "break 1 $main @b 0\n"),
    ("break $main @start 2", "break 1 $main @start 2\n"),
    ("break $main @start 3", "no: unknown place\n"),
    ("break $main @b 18446744073709551615", "no: unknown place\n"),
    ("delete 0", "no: no such stop\n"),
    ("delete 18446744073709551615", "no: no such stop\n"),
    # spacing
    (" \t\r ", ""),
    ("\t step \r 2\t", "#2 $main @start 2\n"),
    ("quit\r\nstep", ""),
    (" quit \nstep", ""),
    # a line that is cut for its length, and the next one
    ("a" * 258 + "\nwhere", "no: line too long\n$main @start 0\n"),
    ("a" * 5000 + "\nwhere", "no: line too long\n$main @start 0\n"),
]


def of_script(running: Running, script: str, answers: str) -> str | None:
    return running.fault(TEXT, f"{script}\n".encode(), [], (LOADED + answers).encode(), 0)


def cases() -> Iterator[Case]:
    for refusal, lines in REFUSED.items():
        for line in lines:
            yield Case(f"line {line!r}", of_script, (line, f"no: {refusal}\n"))
    for script, answers in TAKEN:
        yield Case(f"lines {script[:40]!r}", of_script, (script, answers))
