"""Texts that QBE, the assembler or the linker refuses: each is refused with file and line, and nothing is written."""
import pathlib
import subprocess
import sys
import tempfile

from .running import LOWER, Results, Running, differ


def in_main(*lines: str) -> str:
    """A function whose first instruction stands on line 3."""
    return "function w $main() {\n@start\n" + "".join(f"\t{line}\n" for line in lines) + "\tret 0\n}\n"


def blocks(*lines: str) -> str:
    """A function whose second block begins on line 4."""
    return "function w $main(w %a, l %b) {\n@start\n\tjnz %a, @one, @two\n" + \
        "".join(line + "\n" for line in lines) + "}\n"


# The text, the line that is told, and a part of what is said.
TEXTS = [
    # Tokens.
    ("data $a = { b ! }", 1, "begins no token"),
    ("data $a = { b 1 }\r\n\rdata $b = { b 1 }\n", 2, r"`\015` begins no token"),
    ("\xef\xbb\xbfdata $a = { b 1 }\n", 1, "byte order mark"),
    (in_main("%gr\xc3\xb6 =w copy 1"), 3, r"`\303` begins no token: names have letters of ASCII"),
    (in_main("%x =w copy -"), 3, "begins no token"),
    (in_main("%1 =w copy 1"), 3, "without a name"),
    (in_main("%x =w frob 1"), 3, "no word of the language"),
    ('data $a = { b "abc }\n', 1, "has no end"),
    ('data $a = { w 1,\n  l $"ab }\n', 2, "has no end"),
    (in_main("%x =w copy s_"), 3, "no word"),
    (in_main("%x =d copy d_ -3"), 3, "as in `d_-3.5`, without a space"),
    (in_main("%x =d copy -d_3.0"), 3, "the sign of a float stands behind its letter"),
    # Definitions.
    ("export", 1, "expected"),
    ("export type :t = { w }", 1, "linkage"),
    ("thread function $f() {\n@s\n\tret\n}", 1, "thread"),
    ('section "a" section "b" data $a = { w 1 }', 1, "one section"),
    ("section data $a = { w 1 }", 1, "the name of the section"),
    ("42", 1, "definition"),
    ("dbgfile 3", 1, "a string"),
    # Types.
    ("type :t = { w, q }", 1, "no word"),
    ("type :t = { w, sb }", 1, "the type of a field"),
    ("type :t = { 8 }", 1, "alignment"),
    ("type :t = { w\n l }", 2, "`,` or `}`"),
    ("type :t = { :u }", 1, ":u isn't defined"),
    ("type :t = { { w } l }", 1, "a member of the union"),
    ("type :t = w", 1, "expected"),
    # Data.
    ("data $a = { w }", 1, "a constant"),
    ("data $a = align 3 { w 1 }", 1, "power of two"),
    ("data $a = align -8 { w 1 }", 1, "power of two"),
    ('data $a = { w "text" }', 1, "strings"),
    ("data $a = { w 1 l 2 }", 1, "`,` or `}`"),
    ("data $a = { sb 1 }", 1, "the size"),
    ("data $a = { l $b +\n 4 }", 1, "what is added"),
    ("data $a = { z -1 }", 1, "zeros"),
    ("data $a = { b 1 }\n\ndata $a = { b 2 }", 3, "a second time"),
    ("common data $a = { z 8 }", 1, "no word of the language"),
    # Functions.
    ("function $f(w) {\n@s\n\tret\n}", 1, "a parameter"),
    ("function $f(w 1) {\n@s\n\tret\n}", 1, "a parameter"),
    ("function $f(..., w %x) {\n@s\n\tret\n}", 1, "behind `...`"),
    ("function $f(env %a, env %b) {\n@s\n\tret\n}", 1, "only one `env`"),
    ("function $f(w %a\n, w %b) {\n@s\n\tret\n}", 1, "`,` or `)`"),
    ("function :t $f() {\n@s\n\tret\n}", 1, ":t isn't defined"),
    ("function $f() {\n}", 2, "empty"),
    ("function $f() {\n\tret\n}", 2, "a label"),
    ("function $f() {\n@s\n\t%x =w copy 1\n}", 4, "no jump"),
    ("function $f() {\n@s\n\tret\n\tret\n}", 4, "a label"),
    ("function $f() {\n@s\n\tret 1\n}", 3, "no return type"),
    ("function $f() {\n@s\n", 3, "expected"),
    # Instructions.
    (in_main("%x =w add 1"), 3, "2 operands"),
    (in_main("%x =w add 1, 2, 3"), 3, "the end of the line"),
    (in_main("%x =w add 1, @start"), 3, "a value"),
    (in_main("add 1, 2"), 3, "expected"),
    (in_main("%x =sb add 1, 2"), 3, "class of a result"),
    (in_main("%x =s and s_1, s_2"), 3, "gives no s"),
    (in_main("%x =w exts s_1"), 3, "gives no w"),
    (in_main("%x =w extsw 1"), 3, "gives no w"),
    (in_main("%p =w alloc4 4"), 3, "gives no w"),
    (in_main("%x =s ceqs s_1, s_2"), 3, "gives no s"),
    (in_main("%x =w phi @start 1"), 3, "beginning of a block"),
    (in_main("%n =l copy 8", "blit 0, 0, %n"), 4, "blit"),
    (in_main("blit 0, 0, -1"), 3, "blit"),
    (in_main("vastart"), 3, "without dots"), ("function $f(...) {\n@s\n\tvastart\n\tret\n}", 3, "a value"),
    (in_main("%p =l alloc8 24", "vastart %p"), 4, "without dots"),
    (in_main("call $f(w 1, ..., w 2, ...)"), 3, "only one `...`"),
    (in_main("call $f(1)"), 3, "a type"),
    (in_main("call $f(:t %x)"), 3, ":t isn't defined"),
    (in_main("call $f() ret"), 3, "the end of the line"),
    (in_main("dbgloc %x"), 3, "the line"),
    (in_main("%x =w copy thread %y"), 3, "a global"),
    # Classes.
    (in_main("%x =w copy 1", "%y =l copy %x"), 4, "wants a l"),
    (in_main("%x =d copy d_1", "%y =s copy %x"), 4, "wants a s"),
    (in_main("%x =w copy 1", "%y =s add %x, %x"), 4, "wants a s"),
    (in_main("%x =w copy 1", "%x =s copy s_1"), 4, "is given a s"),
    (in_main("%x =w copy %y"), 3, "nothing defines"),
    (in_main("%x =s copy s_1", "storew %x, 0"), 4, "wants a w"),
    (in_main("%x =s copy s_1", "call $f(d %x)"), 4, "wants a d"),
    (in_main("%x =s copy s_1", "call %x()"), 4, "wants a l"),
    (in_main("%x =d add $main, d_1"), 3, "is an address"),
    ("function s $f() {\n@s\n\t%x =d copy d_1\n\tret %x\n}", 4, "wants a s"),
    ("function $f(w %x) {\n@s\n\tcall $g(env %x)\n\tret\n}", 3, "wants a l"),
    # Values.
    (in_main("%x =w add %y, 1", "%y =w copy 1"), 3, "before it is defined"),
    (in_main("%p =l alloc4 4", "%x =w loadw %p"), 3, "never stored to"),
    (in_main("%p =l alloc4 -4", "storew 1, %p"), 3, "bytes"),
    (blocks("@one", "\t%p =l alloc4 -4", "\tcall $g(l %p)", "@two", "\tret 0"), 5, "bytes"),
    # A slot that is kept in a temporary has its value from the store.
    (in_main("%p =l alloc4 4", "%x =w loadw %p", "storew 1, %p"), 4, "before it is defined"),
    # In a block to which control comes, and defined in one to which it doesn't.
    (blocks("@one", "@two", "\t%x =w add %y, 1", "\tret %x", "@dead", "\t%y =w copy 7", "\tjmp @two"), 6,
     "before it is"),
    # By a phi, which QBE doesn't rename, and in a block that has another way to it.
    (blocks("@one", "\t%x =w phi @start 1", "@two", "\tret %x"), 7, "before it is defined"),
    # A value of a phi isn't renamed either.
    (blocks("@one", "\t%x =w copy 1", "\tjmp @two", "@two", "\t%x =w copy 2", "\tjmp @end", "@end",
            "\t%y =w phi @two %x", "\tret %y"), 8, "more than once"),
    # It is used in other blocks than those behind its definition.
    (blocks("@one", "\t%x =w copy 1", "\tret %x", "@two", "\tret %x"), 8, "before it is defined"),
    (blocks("@one", "\t%x =w add %x, 1", "\t%x =w add %x, 1", "@two", "\tret 0"), 5, "before it is defined"),
    # Blocks.
    (blocks("@one", "@two", "@one", "\tret 0"), 6, "a second time"),
    (blocks("@one", "\tret 0"), 3, "@two is used"),
    (blocks("@one", "@two", "\tjmp @start"), 6, "the first block"),
    (blocks("@one", "@two", "\t%x =w phi @start 1", "\tret %x"), 6, "for other blocks"),
    (blocks("@one", "@two", "\t%x =w phi @start 1, @one 2, @two 3", "\tret %x"), 6, "for other blocks"),
    (blocks("@one", "@two", "\t%x =w phi @start 1, @one 2, @one 3", "\tret %x"), 6, "two values"),
    (blocks("@one", "@two", "\t%x =l phi @start %b, @one %a", "\tret 0"), 6, "wants a l"),
    (blocks("@one", "@two", "\tdbgloc 1", "\t%x =w phi @start 1, @one 2", "\tret %x"), 7, "beginning"),
]

# What QBE accepts, though it looks as if it didn't.
ACCEPTED = [
    'data $a = { b "\\\xb2\\8\xff" }', "data $a = { w 1-2, l $a+-8 }",
    "", "# nothing\n", "export\n\nfunction\tw $main() {\n@start\n\tret 0 # end\n}", "data $a = {}data $b = { w 1, }",
    "data $a = align 0 { w 1 }", "type :t = align 0 { w }\ntype :u = align -8 { 3 }",
    "type :t = { w, }\ntype :u = align 4 { 3 }\ntype :v = { { :t } { :u 2 } }\n",
    in_main("%x =w call $f(w 1, )"), in_main("%x =w copy 1", "%x =l copy 2", "storew %x, 0"),
    in_main("dbgloc 1", "dbgloc 2, 3"), "function $f(w %a,\tenv %b, ...)\n\n{ @s\n\tret\n}\n",
    blocks("@one", "\tjmp @two", "@dead", "\tjmp @two", "@two", "\t%x =w phi @start 1, @one 2, @dead 3", "\tret %x"),
    blocks("@one", "\t%y =w copy 1", "\tjmp @two", "@two", "\tret %y"),
    in_main("%p =l alloc4 4", "storew 1, %p", "%x =w loadw %p"), in_main("%x =w loadl $main", "%y =s load $main"),
]


def refusal_fault(running: Running, text: str, line: int, said: str) -> str | None:
    found = running.lower_here(text, is_linked=False)
    if not isinstance(found, str):
        return f"{text!r} is accepted"
    return None if found.startswith(f"a.ssa:{line}: ") and said in found else \
        f"{text!r}: {found!r}, and line {line} wanted"


def command_fault(running: Running, name: str, text: str) -> str | None:
    """The command itself: a refused text leaves no byte, on standard output and in a file, and no map."""
    with tempfile.TemporaryDirectory(prefix="lower-") as place:
        folder = pathlib.Path(place)
        (folder / name).write_text(text)
        options: list[list[str]] = [[], ["--output", "out.ssa"]]
        runs = [subprocess.run([sys.executable, str(LOWER), *words, name], capture_output=True, text=True, cwd=folder,
                               timeout=running.seconds) for words in options]
        for run in runs:
            if run.returncode != 1 or run.stdout or not run.stderr.startswith(f"{name}:3: "):
                return f"status {run.returncode}, {run.stdout!r}, {run.stderr!r}"
        return differ("files", [name], sorted(path.name for path in folder.iterdir()))


def command_line_fault(running: Running, words: list[str], status: int, said: str) -> str | None:
    run = subprocess.run([sys.executable, str(LOWER), *words], capture_output=True, text=True, timeout=running.seconds)
    return None if run.returncode == status and said in run.stderr and not run.stdout else \
        f"status {run.returncode}, {run.stdout!r}, {run.stderr!r}"


def linking_fault(running: Running) -> str | None:
    """A name that two texts export is reported at the second."""
    one = "export function $f() {\n@s\n\tret\n}\n"
    lowered = running.lower({"a.ssa": one, "b.ssa": "\n\n" + one, "c.ssa": "export data $f = { w 1 }\n"})
    return differ("errors", "b.ssa:3: $f is exported a second time, after a.ssa:1\n", lowered.errors) or \
        differ("text", "", lowered.text)


def results(running: Running) -> Results:
    for index, (text, line, said) in enumerate(TEXTS):
        yield f"refusals/{index} {said}", refusal_fault(running, text, line, said)
    for index, text in enumerate(ACCEPTED):
        found = running.lower_here(text, is_linked=False)
        yield f"refusals/accepted {index}", f"{text!r}: {found}" if isinstance(found, str) else None
    yield "refusals/nothing is written", command_fault(running, "wrong.ssa", in_main("%x =w copy %y"))
    yield "refusals/no words", command_line_fault(running, [], 64, "FILE")
    yield "refusals/no file", command_line_fault(running, ["/nowhere/a.ssa"], 2, "/nowhere/a.ssa: No such file")
    yield "refusals/an unknown option", command_line_fault(running, ["--frob", "a.ssa"], 64, "--frob")
    yield "refusals/exported twice", linking_fault(running)
