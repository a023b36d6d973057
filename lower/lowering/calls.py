"""Writes calls: arguments in the shape of the called function, aggregate results in memory of the caller, and variadic
arguments in cells of 8 bytes."""
from terminal.reading.instructions import CARRIED, class_of
from terminal.reading.tree import Call, Instruction, Place, Value

from .adapters import Adapters
from .linking import Program
from .report import Report, Weight
from .symbols import Signature, Symbol, carried_class

LOW = (1 << 32) - 1


class CallWriter:
    """The lines of one function as they grow, and what its first block must begin with."""

    def __init__(self, program: Program, adapters: Adapters, symbol: Symbol, report: Report):
        self.program, self.adapters, self.symbol, self.report = program, adapters, symbol, report
        self.function = symbol.function()
        self.unit = symbol.home()
        self.texts: list[str] = []
        self.origins: list[tuple[int, Place | None]] = []
        self.origin: tuple[int, Place | None] = (self.function.line, None)
        # Parameters that are copied: the name, the type, and the parameter that it came by.
        self.copies: list[tuple[str, str, str]] = []
        # The cells with doubles: the name of all cells of a call, and the number of one.
        self.doubles: list[tuple[str, int]] = []
        # Memory that the function takes once: the name, the instruction, and the bytes.
        self.slots: list[tuple[str, str, int]] = []
        self.made = 0

    def emit(self, text: str) -> None:
        self.texts.append(text)
        self.origins.append(self.origin)

    def fresh(self, what: str) -> str:
        """A temporary that the function doesn't have."""
        while True:
            self.made += 1
            name = f"%.{what}.{self.made}"
            if name not in self.function.classes:
                return name

    def alloc_for(self, alignment: int) -> str:
        return "alloc4" if alignment <= 4 else "alloc8" if alignment <= 8 else "alloc16"

    def operand(self, value: Value) -> str:
        if isinstance(value, int):
            return str(value)
        return value if value[0] == "%" else self.program.address_name(self.unit, value)

    def note(self, what: str, weight: Weight = Weight.SAME) -> None:
        self.report.note(self.unit.text.path, self.origin[0], what, weight)

    # Results.

    def assign(self, result: str, cls: str, text: str) -> None:
        """A result of a class. A temporary that is a `w` elsewhere takes the low half of an `l`."""
        if cls == "l" and result in self.function.mixed:
            whole = self.fresh("whole")
            self.emit(f"\t{whole} =l {text}")
            self.emit(f"\t{result} =w copy {whole}")
        else:
            self.emit(f"\t{result} ={cls} {text}")

    def take_result(self, result: str, wanted: str, gives: str, text: str) -> None:
        """A result of one class that is given in another: a `w` is extended by zeros, an `l` is cut."""
        if wanted == gives:
            self.assign(result, wanted, text)
            return
        given = self.fresh("given")
        self.emit(f"\t{given} ={gives} {text}")
        self.assign(result, wanted, f"extuw {given}" if wanted == "l" else f"copy {given}")

    # Calls.

    def write_call(self, call: Call) -> None:
        target = self.program.called(self.unit, call)
        if target is None:
            self.write_indirect(call)
            return
        signature = target.shape()
        if call.kind is not None and call.kind.startswith(":") != signature.gives_aggregate() or \
                call.kind is None and signature.gives_aggregate():
            self.write_with_other_result(call, target)
            return
        arguments = self.arguments_for(call, target)
        slot = self.slot_for(call.result_kind()) if signature.gives_aggregate() else None
        text = f"call {target.name}({', '.join(([f'l {slot}'] if slot else []) + arguments)})"
        self.finish_call(call, signature, slot, text, target.name)

    def slot_for(self, kind: str) -> str:
        """Memory of the caller for a result, one for each call in the text, as QBE has it."""
        aggregate = self.function.aggregates[kind]
        slot = self.fresh("slot")
        self.slots.append((slot, self.alloc_for(aggregate.alignment), aggregate.size))
        return slot

    def finish_call(self, call: Call, signature: Signature, slot: str | None, text: str, name: str) -> None:
        if slot is not None:
            self.emit("\t" + text)
            if call.result is not None:
                self.assign(call.result, "l", f"copy {slot}")
            return
        if call.result is None:
            self.emit("\t" + text)
            return
        gives = signature.carried_result()
        if gives is None:
            self.emit("\t" + text)
            self.assign(call.result, carried_class(call.result_kind()), "copy 0")
            self.note(f"a result of {name}, which gives none: 0", Weight.OTHER)
            return
        kind = call.result_kind()
        wanted = carried_class(kind)
        if is_float(kind) != is_float(signature.returns):
            self.note(f"the result of {name} is a {signature.returns} that is taken as a {kind}",
                      self.weight_of_other())
        elif wanted != gives:
            self.note(f"the result of {name} is a {gives} that is taken as a {wanted}: "
                      + ("extended by zeros" if wanted == "l" else "cut"))
            self.report.count("results fitted to another class")
        if wanted == gives:
            # A sub-word type stays, so that the result is fitted to it.
            self.assign(call.result, CARRIED[kind], text)
        else:
            self.take_result(call.result, wanted, gives, text)

    def write_with_other_result(self, call: Call, target: Symbol) -> None:
        """Where only one of the call and the function has a result in memory."""
        name, returns = target.name, target.shape().returns
        arguments = self.arguments_for(call, target)
        self.note(f"{name} gives its result otherwise than the call takes it", Weight.OTHER)
        if returns is not None and returns.startswith(":"):
            slot = self.fresh("slot")
            # As much as a load of the result wants, at least; none of the runtime's is larger than 16 bytes.
            aggregate = target.function().aggregates.get(returns)
            self.slots.append((slot, "alloc16", max(aggregate.size, 8) if aggregate else 16))
            self.emit(f"\tcall {name}({', '.join([f'l {slot}'] + arguments)})")
            if call.result is not None:
                cls = carried_class(call.result_kind())
                self.assign(call.result, cls, f"{'loadl' if cls == 'l' else 'loaduw'} {slot}")
            return
        slot = self.slot_for(call.result_kind())
        self.emit(f"\tcall {name}({', '.join(arguments)})")
        if call.result is not None:
            self.assign(call.result, "l", f"copy {slot}")

    # Arguments.

    def arguments_for(self, call: Call, target: Symbol) -> list[str]:
        """The arguments, in the shape of a function: its environment, its parameters, and the cells of the others."""
        name, signature = target.name, target.shape()
        written: list[str] = []
        if signature.has_environment:
            written.append(f"l {0 if call.environment is None else self.operand(call.environment)}")
            if call.environment is None:
                self.note(f"{name} wants an environment, and the call gives none: 0", Weight.OTHER)
        count = len(signature.parameters)
        for index, kind in enumerate(signature.parameters):
            if index < len(call.arguments):
                written.append(self.fitted(*call.arguments[index], kind, index + 1, target))
            else:
                written.append(f"{CARRIED[class_of(kind)]} 0")
                self.note(f"{name} wants {count} arguments, and the call gives {len(call.arguments)}: the others are 0",
                          Weight.OTHER if target.is_outside() else self.weight_of_other())
        others = call.arguments[count:]
        if signature.has_dots and not target.is_of_runtime():
            self.note_other_order(target, others)
        if signature.has_dots:
            written.append(f"l {self.cells_for(others)}" if others else "l 0")
        elif others and not target.is_outside():
            self.note(f"{name} takes {count} arguments, and the call gives {len(call.arguments)}: the last are dropped")
            self.report.count("calls with arguments that the function doesn't take")
        return written

    def note_other_order(self, target: Symbol, arguments: list[tuple[str, Value]]) -> None:
        """A note if the function takes its variadic arguments in another order than that of the call."""
        for index, (cls, (kind, _)) in enumerate(zip(taken_by(target), arguments)):
            if is_float(cls) != is_float(kind):
                self.note(
                    f"argument {index + 1} behind the dots of {target.name} is a {kind}, and its `vaarg` there takes a "
                    f"{cls}: native code takes floats and integers from registers of their own",
                    self.weight_of_other())
                return

    def weight_of_other(self) -> Weight:
        """That of a call by which native code takes something else, where it can be reached. The runtime takes the bits
        of a float on purpose."""
        is_told = self.symbol in self.program.reached and not self.symbol.is_of_runtime()
        return Weight.APART if is_told else Weight.OTHER

    def fitted(self, kind: str, value: Value, wanted: str, number: int, target: Symbol) -> str:
        """An argument in the class of its parameter."""
        name = target.name
        have, want = carried_class(kind), carried_class(wanted)
        if is_float(kind) != is_float(wanted) or \
                kind.startswith(":") != wanted.startswith(":") and not target.is_of_runtime():
            self.note(f"argument {number} of {name} is a {kind} for a {wanted}", self.weight_of_other())
        elif have != want:
            self.note(f"argument {number} of {name} is a {kind} for a {wanted}: "
                      + ("extended by zeros" if want == "l" else "cut"))
            self.report.count("arguments fitted to another class")
        if have == want:
            return f"{CARRIED[kind] if not kind.startswith(':') else 'l'} {self.operand(value)}"
        return f"w {self.operand(value)}" if want == "w" else f"l {self.extended(kind, value)}"

    def extended(self, kind: str, value: Value) -> str:
        """A value of class `w` as an `l` whose upper half is zero."""
        if type(value) is int and kind not in ("sb", "ub", "sh", "uh"):
            return str(value & LOW)
        word = self.operand(value)
        if kind in ("sb", "ub", "sh", "uh"):
            fitted = self.fresh("fitted")
            self.emit(f"\t{fitted} =w ext{kind} {word}")
            word = fitted
        longer = self.fresh("long")
        self.emit(f"\t{longer} =l extuw {word}")
        return longer

    def cells_for(self, arguments: list[tuple[str, Value]]) -> str:
        """The address of cells with arguments; an aggregate takes as many as its bytes need."""
        self.report.count("calls with arguments behind dots, in cells of memory")
        cells = self.fresh("cells")
        at = 0
        for kind, value in arguments:
            place = cells if at == 0 else self.fresh("cell")
            if at:
                self.emit(f"\t{place} =l add {cells}, {at}")
            if kind.startswith(":"):
                size = self.function.aggregates[kind].size
                self.emit(f"\tblit {self.operand(value)}, {place}, {size}")
                self.note("an aggregate behind dots: its bytes lie in cells", Weight.OTHER)
                at += -(-size // 8) * 8
                continue
            if kind == "d":
                self.doubles.append((cells, at // 8))
            whole = self.operand(value) if carried_class(kind) == "l" else self.extended(kind, value)
            self.emit(f"\tstorel {whole}, {place}")
            at += 8
        self.slots.append((cells, "alloc8", at))
        return cells

    # Calls by an address.

    def write_indirect(self, call: Call) -> None:
        """A call by an address: by an adapter, if it may reach functions of other shapes."""
        kinds = tuple(kind for kind, _ in call.arguments)
        signature = Signature(call.kind, kinds, call.environment is not None, False)
        slot = self.slot_for(call.result_kind()) if signature.gives_aggregate() else None
        arguments = [f"l {slot}"] if slot else []
        if call.environment is not None:
            arguments.append(f"l {self.operand(call.environment)}")
        arguments += [f"{'l' if kind.startswith(':') else CARRIED[kind]} {self.operand(value)}"
                      for kind, value in call.arguments]
        target = self.operand(call.target)
        adapter = self.adapters.adapter(signature, call.dots is not None, self.function.aggregates) \
            if self.unit is not self.adapters.unit else None
        if adapter is not None:
            # Behind the address of the result, as the first of its own parameters.
            arguments.insert(1 if slot else 0, f"l {target}")
            target = adapter.name
            self.note("a call by an address goes by a function that tells shapes apart")
            self.report.count("calls by an address, by the shape of the function")
        self.finish_call(call, signature, slot, f"call {target}({', '.join(arguments)})", target)


def taken_by(target: Symbol) -> list[str]:
    """The classes of a function's variadic arguments, as far as its first block shows them."""
    block = target.function().blocks[0]
    return [each.cls for each in block.instructions if isinstance(each, Instruction) and each.name == "vaarg"]


def is_float(kind: str | None) -> bool:
    return kind in ("s", "d")
