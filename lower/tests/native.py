"""Native code of QBE texts, by way of C: each function becomes one in C with the same temporaries and jumps, and data
becomes what an assembler takes. gcc and the machine's C library do the rest, so the result of a text doesn't depend on
the lowering and its runtime. Not for aggregates, nor for variadic functions defined in the text."""
import os
import pathlib
import shutil
import subprocess
import tempfile
from collections.abc import Iterator
from typing import NamedTuple

from lowering.reader import TextReader
from lowering.values import reachable
from terminal.reading.instructions import class_of
from terminal.reading.tree import Block, Call, Data, Function, Instruction, Jump, Text, Value

TYPES = {"w": "unsigned int", "l": "unsigned long", "s": "float", "d": "double"}
SIGNED = {"w": "int", "l": "long", "s": "float", "d": "double"}
BINARY = {"add": "+", "sub": "-", "mul": "*", "and": "&", "or": "|", "xor": "^", "udiv": "/", "urem": "%"}
COMPARED = {"eq": "==", "ne": "!=", "le": "<=", "lt": "<", "ge": ">=", "gt": ">"}
LOADED = {"loadsb": "signed char", "loadub": "unsigned char", "loadsh": "short", "loaduh": "unsigned short",
          "loadsw": "int", "loadw": "int", "loaduw": "unsigned int", "loadl": "unsigned long", "loads": "float",
          "loadd": "double"}
STORED = {"storeb": "unsigned char", "storeh": "unsigned short", "storew": "unsigned int", "storel": "unsigned long",
          "stores": "float", "stored": "double"}
EXTENDED = {"extsb": "signed char", "extub": "unsigned char", "extsh": "short", "extuh": "unsigned short",
            "extsw": "int", "extuw": "unsigned int", "exts": "double", "truncd": "float", "stosi": "S", "stoui": "U",
            "dtosi": "S", "dtoui": "U", "swtof": "int", "uwtof": "unsigned int", "sltof": "long",
            "ultof": "unsigned long"}
SIZES = {"b": ".byte", "h": ".short", "w": ".int", "l": ".quad"}
# What a runtime in the form of Hare's has in assembler, and the functions of C that it calls by its own names.
HELPERS = r"""
#include <stdio.h>
__attribute__((constructor(101))) static void unbuffered(void) { setvbuf(stdout, 0, _IONBF, 0); }
static long call6(long n, long a, long b, long c, long d, long e, long f) {
    long result;
    register long r10 __asm__("r10") = d, r8 __asm__("r8") = e, r9 __asm__("r9") = f;
    __asm__ volatile("syscall" : "=a"(result) : "a"(n), "D"(a), "S"(b), "d"(c), "r"(r10), "r"(r8), "r"(r9)
                     : "rcx", "r11", "memory");
    return result;
}
long rt0(long n) __asm__("rt.syscall0"); long rt0(long n) { return call6(n, 0, 0, 0, 0, 0, 0); }
long rt1(long n, long a) __asm__("rt.syscall1"); long rt1(long n, long a) { return call6(n, a, 0, 0, 0, 0, 0); }
long rt2(long n, long a, long b) __asm__("rt.syscall2");
long rt2(long n, long a, long b) { return call6(n, a, b, 0, 0, 0, 0); }
long rt3(long n, long a, long b, long c) __asm__("rt.syscall3");
long rt3(long n, long a, long b, long c) { return call6(n, a, b, c, 0, 0, 0); }
long rt6(long n, long a, long b, long c, long d, long e, long f) __asm__("rt.syscall6");
long rt6(long n, long a, long b, long c, long d, long e, long f) { return call6(n, a, b, c, d, e, f); }
void *rtmemcpy(char *to, char *from, long n) __asm__("rt.memcpy");
void *rtmemcpy(char *to, char *from, long n) { while (n--) *to++ = *from++; return to; }
"""


class Ended(NamedTuple):
    """How native code ended: what it wrote, to both outputs as to one, and its status; a signal is negative."""

    output: str
    status: int


def is_there() -> bool:
    return shutil.which("gcc") is not None


class Translator:
    """One text as C."""

    def __init__(self, text: Text, number: int):
        self.text, self.prefix = text, f"t{number}_"
        self.own = {each.name for each in text.definitions}
        self.names: dict[str, str] = {}
        self.globals: dict[str, str] = {}
        self.declared: dict[str, str] = {}

    def symbol(self, raw: str) -> str:
        """The name in the object file: what isn't exported has one of its text alone."""
        definition = next((each for each in self.text.definitions if each.name == raw), None)
        return raw[1:] if definition is None or definition.is_exported else self.prefix + raw[1:]

    def name(self, raw: str) -> str:
        """The name in C of a global or a temporary."""
        known, letter = (self.globals, "g") if raw[0] == "$" else (self.names, "v")
        return known.setdefault(raw, f"{letter}{len(known)}")

    def value(self, value: Value, cls: str) -> str:
        if isinstance(value, int):
            bits = value & ((1 << (64 if cls in "ld" else 32)) - 1)
            if cls in "sd":
                return f"(union {{ unsigned {'long' if cls == 'd' else 'int'} i; {TYPES[cls]} f; }}){{{bits}u}}.f"
            return f"{bits}{'ul' if cls == 'l' else 'u'}"
        if value[0] == "$":
            self.declared.setdefault(value, f"extern char {self.name(value)}[] __asm__(\"{self.symbol(value)}\");")
            return f"({TYPES['l']}){self.name(value)}"
        return f"({TYPES[cls]}){self.name(value)}" if cls in "wl" else self.name(value)

    def written(self) -> str:
        functions = [each for each in self.text.definitions if isinstance(each, Function)]
        bodies = ["\n".join(self.function(each)) for each in functions]
        data = [self.data(each) for each in self.text.definitions if isinstance(each, Data)]
        heads = []
        for each in functions:
            self.names = {}
            heads.append(self.head(each) + ";")
        return "\n".join([*self.declared.values(), *heads, *data, *bodies]) + "\n"

    # Data.

    def data(self, data: Data) -> str:
        section = data.section or ".data"
        lines = [f'.section {section},\\"aw\\"', f".balign {data.alignment or 16 if data.section is None else 8}"]
        symbol = self.symbol(data.name)
        lines += [f".globl {symbol}"] if data.is_exported else []
        lines.append(f"{symbol}:")
        for item in data.items:
            if item.is_global:
                lines.append(f"{SIZES[item.letter]} {self.symbol(str(item.value))}+{item.offset}")
            elif isinstance(item.value, str):
                lines.append(".byte " + ",".join(str(ord(byte)) for byte in item.value))
            else:
                lines.append(f".zero {item.value}" if item.letter == "z" else f"{SIZES[item.letter]} {item.value}")
        return "__asm__(" + "\n".join(f'"{line}\\n"' for line in [*lines, ".text"]) + ");"

    # Functions.

    def head(self, function: Function) -> str:
        """The first line; the names of its parameters are those of its body."""
        given = ", ".join(f"{TYPES[class_of(kind)]} {self.name(name)}" for kind, name in function.parameters) or "void"
        gives = TYPES[class_of(function.returns)] if function.returns else "void"
        return f"{gives} f_{self.name(function.name)}({given}) __asm__(\"{self.symbol(function.name)}\")"

    def function(self, function: Function) -> Iterator[str]:
        self.names = {}
        self.in_function, self.blocks = function, reachable(function.blocks)
        yield self.head(function).rpartition(" __asm__")[0] + " {"
        parameters = {name for _, name in function.parameters}
        for name, cls in function.classes.items():
            if name not in parameters:
                yield f"    {TYPES[cls]} {self.name(name)} = 0;"
        for block in self.blocks:
            yield f"  {self.label(block.name)}: ;"
            for each in block.instructions:
                yield f"    {self.call(each) if isinstance(each, Call) else self.instruction(each)};"
            yield f"    {self.jump(block, block.jump)}"
        yield "}"

    def label(self, name: str) -> str:
        return f"L{[block.name for block in self.blocks].index(name)}"

    def go(self, block: Block, label: str) -> str:
        """A jump, after the moves of the phis in its target."""
        target = next(each for each in self.blocks if each.name == label)
        taken = [(phi, dict(phi.sources)[block.name]) for phi in target.phis]
        before = [f"{TYPES[phi.cls]} p{index} = {self.value(value, phi.cls)};" for index,
                  (phi, value) in enumerate(taken)]
        after = [f"{self.name(phi.result)} = p{index};" for index, (phi, _) in enumerate(taken)]
        return " ".join(["{", *before, *after, f"goto {self.label(label)};", "}"])

    def jump(self, block: Block, jump: Jump) -> str:
        if jump.name in ("jmp", "on"):
            return self.go(block, jump.labels[0])
        if jump.name == "jnz" and jump.value is not None:
            yes, no = (self.go(block, label) for label in jump.labels)
            return f"if ({self.value(jump.value, 'w')}) {yes} else {no}"
        if jump.name == "hlt":
            return "__builtin_trap();"
        returns = self.in_function.returns
        return "return;" if jump.value is None or not returns else \
            f"return {self.value(jump.value, class_of(returns))};"

    def instruction(self, each: Instruction) -> str:
        name, cls = each.name, each.cls
        if each.result is None:
            address = self.value(each.operands[1], "l")
            if name == "blit":
                source = self.value(each.operands[0], "l")
                return f"__builtin_memmove((char *)({address}), (char *)({source}), {each.operands[2]})"
            kind = {"stores": "s", "stored": "d", "storel": "l"}.get(name, "w")
            return f"*({STORED[name]} *)({address}) = {self.value(each.operands[0], kind)}"
        return f"{self.name(each.result)} = {self.result(each, name, cls)}"

    def result(self, each: Instruction, name: str, cls: str) -> str:
        if name.startswith("alloc"):
            return f"({TYPES['l']})__builtin_alloca({self.value(each.operands[0], 'l')})"
        if name in LOADED:
            return f"*({LOADED[name]} *)({self.value(each.operands[0], 'l')})"
        if name in EXTENDED:
            kind = EXTENDED[name].replace("S", SIGNED[cls]).replace("U", TYPES[cls])
            source = {"exts": "s", "truncd": "d", "stosi": "s", "stoui": "s", "dtosi": "d", "dtoui": "d", "sltof": "l",
                      "ultof": "l"}.get(name, "w")
            return f"({kind})({self.value(each.operands[0], source)})"
        if name == "cast":
            source = {"w": "s", "l": "d", "s": "w", "d": "l"}[cls]
            return (f"(union {{ {TYPES[source]} a; {TYPES[cls]} b; }})"
                    f"{{{self.value(each.operands[0], source)}}}.b")
        if name in ("copy", "neg"):
            return ("-" if name == "neg" else "") + f"({self.value(each.operands[0], cls)})"
        if name[0] == "c" and name != "cast":
            return self.comparison(each, name)
        first = self.value(each.operands[0], cls)
        if name in ("shl", "shr", "sar"):
            amount = f"({self.value(each.operands[1], 'w')} & {63 if cls == 'l' else 31})"
            return (f"({SIGNED[cls] if name == 'sar' else TYPES[cls]})({first}) {'<<' if name == 'shl' else '>>'} "
                    f"{amount}")
        second = self.value(each.operands[1], cls)
        if name in ("div", "rem"):
            return f"({SIGNED[cls]})({first}) {'/' if name == 'div' else '%'} ({SIGNED[cls]})({second})"
        return f"({first}) {BINARY[name]} ({second})"

    def comparison(self, each: Instruction, name: str) -> str:
        kind, word = name[-1], name[1:-1]
        types = SIGNED if word[0] == "s" and word not in COMPARED else TYPES
        operands = [f"({types[kind]})({self.value(value, kind)})" for value in each.operands]
        if word in ("o", "uo"):
            ordered = f"({operands[0]} == {operands[0]} && {operands[1]} == {operands[1]})"
            return ordered if word == "o" else f"!{ordered}"
        return f"{operands[0]} {COMPARED[word if word in COMPARED else word[1:]]} {operands[1]}"

    def call(self, call: Call) -> str:
        gives = TYPES[class_of(call.kind)] if call.kind else "void"
        given = [(class_of(kind), value) for kind, value in call.arguments]
        kinds = ", ".join(TYPES[cls] for cls, _ in given[:call.dots]) or "void"
        target = self.value(call.target, "l")
        shape = f"({gives} (*)({kinds}{', ...' if call.dots is not None else ''}))"
        text = f"({shape}{target})({', '.join(self.value(value, cls) for cls, value in given)})"
        return f"{self.name(call.result)} = {text}" if call.result else text


def source_of(folder: pathlib.Path, number: int, text: str, is_by_c: bool) -> pathlib.Path:
    """A text in a form that gcc takes: as qbe makes it, if that is installed and requested, or as C."""
    if not is_by_c and shutil.which("qbe"):
        (folder / f"{number}.ssa").write_text(text)
        subprocess.run(["qbe", "-o", f"{number}.s", f"{number}.ssa"], cwd=folder, timeout=600, check=True)
        return folder / f"{number}.s"
    source = folder / f"{number}.c"
    source.write_text(Translator(TextReader(text, f"{number}.ssa").read(), number).written())
    return source


def native(texts: list[str], words: list[str], is_by_c: bool = False, name: str = "./program") -> Ended:
    """Builds texts by gcc, and runs what comes of them under a name."""
    with tempfile.TemporaryDirectory(prefix="native-") as place:
        folder = pathlib.Path(place)
        sources = [source_of(folder, number, text, is_by_c) for number, text in enumerate(texts)]
        (folder / "helpers.c").write_text(HELPERS)
        built = subprocess.run(["gcc", "-w", "-O1", "-fno-builtin", "-fno-strict-aliasing", "-fwrapv", "-no-pie", "-o",
                                "program", *sources, "helpers.c", "-lm"], cwd=folder, capture_output=True, text=True,
                               timeout=600)
        if built.returncode:
            return Ended(built.stderr, 1000)
        run = subprocess.run([name, *words], executable=folder / "program", cwd=folder, stdout=subprocess.PIPE,
                             stderr=subprocess.STDOUT, stdin=subprocess.DEVNULL,
                             env=os.environ | {"TZ": "UTC", "LC_ALL": "C"}, timeout=600)
        return Ended(run.stdout.decode("latin-1"), run.returncode)
