"""Writes a function in the language of qrev: aggregates by address, floats as their bits, dots as cells of memory.

What a line needs before all others, such as memory for a result, goes to the beginning of the first block.
"""
from terminal.reading.instructions import (
    CARRIED, FLOAT_COMPARISONS, FLOATS, INTEGERS, LOADS_BY_CLASS, SUBWORDS, WITH_RESULT)
from terminal.reading.tree import Block, Instruction, Jump, Phi

from .adapters import Adapters
from .calls import CallWriter
from .ends import Ends
from .linking import Program
from .report import Report
from .symbols import CELLS, Symbol

SIGN_BITS = {"s": 1 << 31, "d": 1 << 63}
LOADS = {"w": "loadsw", "l": "loadl", "s": "loaduw", "d": "loadl"}
STORES = {"stores": "storew", "stored": "storel"}


def float_calls() -> dict[tuple[str, str], tuple[str, str]]:
    """For each instruction on floats and the class of its result: the function of the runtime, and the class that it
    gives."""
    calls = {}
    for cls in FLOATS:
        for name in ("add", "sub", "mul", "div"):
            calls[name, cls] = (f"$float.{name}.{cls}", CARRIED[cls])
        for name in FLOAT_COMPARISONS:
            for result in INTEGERS:
                calls[f"c{name}{cls}", result] = (f"$float.{name}.{cls}", "w")
        for name in ("swtof", "uwtof", "sltof", "ultof"):
            calls[name, cls] = (f"$float.{name}.{cls}", CARRIED[cls])
    for name in ("stosi", "stoui", "dtosi", "dtoui"):
        for cls in INTEGERS:
            calls[name, cls] = (f"$float.{name}.{cls}", cls)
    calls["exts", "d"] = ("$float.exts", "l")
    calls["truncd", "s"] = ("$float.truncd", "w")
    return calls


def plain_instructions() -> dict[tuple[str, str], tuple[str, str]]:
    """For each instruction that stays one: the class of its result, and its name."""
    plain = {}
    for name, cls in WITH_RESULT:
        if name in LOADS_BY_CLASS:
            plain[name, cls] = (CARRIED[cls], LOADS[cls])
        elif name in ("copy", "cast"):
            plain[name, cls] = (CARRIED[cls], "copy")
        elif name in ("alloc1", "alloc2"):
            plain[name, cls] = (cls, "alloc4")
        elif name != "vaarg" and (name, cls) not in FLOAT_CALLS and cls in INTEGERS:
            plain[name, cls] = (cls, name)
    return plain


FLOAT_CALLS = float_calls()
PLAIN = plain_instructions()


class FunctionWriter(CallWriter):
    """Writes one function."""

    def __init__(self, program: Program, adapters: Adapters, symbol: Symbol, report: Report):
        super().__init__(program, adapters, symbol, report)
        self.labels: set[str] = set()
        self.hidden: str | None = None
        self.cells: str | None = None
        self.ends: Ends | None = None

    def write(self, ends: Ends | None) -> None:
        """The lines of the function; for the entry also the calls of what runs before it and after it."""
        self.ends = ends
        function = self.function
        blocks = function.kept
        self.labels = {block.name for block in blocks}
        self.report.count("blocks without a way to them left out", len(function.blocks) - len(blocks))
        header = self.header()
        self.emit(header)
        for block in blocks:
            self.write_block(block)
        self.origin = (function.line, None)
        body, self.texts, self.origins = (self.texts, self.origins), [], []
        for name, kind, source in self.copies:
            self.copy_of_parameter(name, kind, source)
        for name, alloc, size in self.slots:
            self.emit(f"\t{name} =l {alloc} {size}")
        for first in ends.first if ends else []:
            kinds = first.signature.carried() if first.signature else ()
            self.emit(f"\tcall {first.name}({', '.join(f'{kind} 0' for kind in kinds)})")
        # Behind the header and the first label.
        self.texts, self.origins = (body[0][:2] + self.texts + body[0][2:], body[1][:2] + self.origins + body[1][2:])
        self.emit("}")

    def header(self) -> str:
        function = self.function
        parameters = []
        if function.returns and function.returns.startswith(":"):
            self.hidden = self.fresh("result")
            parameters.append(f"l {self.hidden}")
            self.report.count("results that are aggregates, by a hidden address")
        if function.environment is not None:
            parameters.append(f"l {function.environment}")
            self.report.count("`env` parameters as first parameters")
        for kind, name in function.parameters:
            if kind.startswith(":"):
                source = self.fresh(name[1:])
                self.copies.append((name, kind, source))
                parameters.append(f"l {source}")
            else:
                parameters.append(f"{CARRIED[kind]} {name}")
        if function.has_dots:
            self.cells = self.fresh(CELLS[1:])
            parameters.append(f"l {self.cells}")
            self.report.count("functions with dots, which take the address of cells")
        if not self.symbol.is_of_runtime() \
                and {function.returns, *(kind for kind, _ in function.parameters)} & set(SUBWORDS):
            self.report.count(
                "functions with sub-word types, whose values are extended (native code leaves the upper bits)")
        gives = self.symbol.shape().carried_result()
        if gives is not None and function.returns is not None:
            gives = CARRIED[function.returns]
        return f"function {gives + ' ' if gives else ''}{self.symbol.name}({', '.join(parameters)}) {{"

    def copy_of_parameter(self, name: str, kind: str, source: str) -> None:
        aggregate = self.function.aggregates[kind]
        self.report.count("parameters that are aggregates, by address and copied")
        self.emit(f"\t{name} =l {self.alloc_for(aggregate.alignment)} {aggregate.size}")
        self.emit(f"\tblit {source}, {name}, {aggregate.size}")

    def write_block(self, block: Block) -> None:
        self.origin = (block.line, None)
        self.emit(block.name)
        for phi in block.phis:
            self.write_phi(phi)
        for instruction in block.instructions:
            self.origin = (instruction.line, instruction.place)
            if isinstance(instruction, Instruction):
                self.write_instruction(instruction)
            else:
                self.write_call(instruction)
        self.write_jump(block.jump)

    def write_phi(self, phi: Phi) -> None:
        self.origin = (phi.line, phi.place)
        sources = ", ".join(f"{label} {self.operand(value)}" for label, value in phi.sources if label in self.labels)
        cls = CARRIED[self.function.classes[phi.result]]
        self.emit(f"\t{phi.result} ={cls} phi {sources}")

    def write_jump(self, jump: Jump) -> None:
        self.origin = (jump.line, jump.place)
        if jump.name == "on":
            return
        returns = self.function.returns
        if jump.name == "ret" and self.hidden is not None and jump.value is not None and returns is not None:
            size = self.function.aggregates[returns].size
            self.emit(f"\tblit {self.operand(jump.value)}, {self.hidden}, {size}")
            self.emit("\tret")
            return
        if jump.name == "ret" and self.ends and self.ends.finalizers:
            self.emit(f"\tcall {self.ends.finalizers.name}()")
        words = ([] if jump.value is None else [self.operand(jump.value)]) + list(jump.labels)
        self.emit("\t" + " ".join([jump.name, ", ".join(words)]).rstrip())

    # Instructions.

    def write_instruction(self, instruction: Instruction) -> None:
        name, result = instruction.name, instruction.result
        operand = self.operand
        if result is None:
            if name == "vastart":
                self.write_vastart(instruction)
            else:
                operands = ", ".join([operand(value) for value in instruction.operands])
                self.emit(f"\t{STORES.get(name, name)} {operands}")
            return
        key = (name, instruction.cls)
        plain = PLAIN.get(key)
        if plain is not None:
            operands = ", ".join([operand(value) for value in instruction.operands])
            self.assign(result, plain[0], f"{plain[1]} {operands}")
        elif key in FLOAT_CALLS:
            self.write_float(instruction, result, *FLOAT_CALLS[key])
        elif name == "neg":
            value = operand(instruction.operands[0])
            if instruction.cls in FLOATS:
                self.assign(result, CARRIED[instruction.cls], f"xor {value}, {SIGN_BITS[instruction.cls]}")
                self.report.count("float instructions, by their bits")
            else:
                self.assign(result, instruction.cls, f"neg {value}")
        else:
            self.write_vaarg(instruction, result)

    def write_float(self, instruction: Instruction, result: str, function: str, gives: str) -> None:
        target = self.program.runtime_symbol(function)
        arguments = ", ".join(f"{kind} {self.operand(value)}" for kind, value
                              in zip(target.shape().parameters, instruction.operands))
        self.report.count("float instructions, by calls of the runtime")
        wanted = CARRIED[instruction.cls]
        self.take_result(result, wanted, gives, f"call {target.name}({arguments})")

    def write_vastart(self, instruction: Instruction) -> None:
        self.emit(f"\tstorel {self.cells}, {self.operand(instruction.operands[0])}")

    def write_vaarg(self, instruction: Instruction, result: str) -> None:
        """The next cell, from the list that the address leads to, which goes on by a cell."""
        list_address = self.operand(instruction.operands[0])
        cell, behind = self.fresh("cell"), self.fresh("behind")
        self.emit(f"\t{cell} =l loadl {list_address}")
        self.emit(f"\t{behind} =l add {cell}, 8")
        self.emit(f"\tstorel {behind}, {list_address}")
        self.assign(result, CARRIED[instruction.cls], f"{LOADS[instruction.cls]} {cell}")
        self.report.count("`vaarg` as loads of cells")
