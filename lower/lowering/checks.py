"""What QBE refuses in a function: labels, classes and phis."""
from typing import NoReturn

from terminal.reading.instructions import WITH_RESULT, WITHOUT_RESULT, class_of
from terminal.reading.refusals import Refused
from terminal.reading.tree import Block, Call, Function, Instruction, Phi, Value

from .values import check_values


class Checker:
    """One function and its path."""

    def __init__(self, function: Function, path: str):
        self.function, self.path = function, path
        self.classes = function.classes

    def refuse(self, line: int, what: str) -> NoReturn:
        raise Refused(self.path, line, what)

    def check(self) -> None:
        self.collect_classes()
        self.check_labels()
        predecessors = predecessors_of(self.function.blocks)
        returned = class_of(self.function.returns) if self.function.returns else ""
        for block in self.function.blocks:
            for phi in block.phis:
                self.check_phi(phi, predecessors[block.name])
            for instruction in block.instructions:
                if isinstance(instruction, Instruction):
                    self.check_instruction(instruction)
                else:
                    self.check_call(instruction)
            jump = block.jump
            if jump.value is not None:
                self.check_use(jump.value, "w" if jump.name == "jnz" else returned, jump.line, jump.name)

    # Classes.

    def collect_classes(self) -> None:
        function = self.function
        for kind, name in function.parameters:
            self.define(name, class_of(kind), function.line)
        if function.environment is not None:
            self.define(function.environment, "l", function.line)
        for block in function.blocks:
            for phi in block.phis:
                self.define(phi.result, phi.cls, phi.line)
            for instruction in block.instructions:
                if instruction.result is not None:
                    kind = instruction.cls if isinstance(instruction, Instruction) \
                        else class_of(instruction.result_kind())
                    self.define(instruction.result, kind, instruction.line)

    def define(self, name: str, cls: str, line: int) -> None:
        """A temporary that is defined as `w` and as `l` is a `w`; no others mix."""
        known = self.classes.setdefault(name, cls)
        if known == cls:
            return
        if {known, cls} != {"w", "l"}:
            self.refuse(line, f"{name} is given a {cls}, and is a {known} elsewhere")
        self.classes[name] = "w"
        self.function.mixed.add(name)

    def check_use(self, value: Value, wanted: str, line: int, where: str) -> None:
        if type(value) is str and value[0] == "%":
            have = self.classes.get(value)
            if have != wanted and not (have == "l" and wanted == "w"):
                if have is None:
                    self.refuse(line, f"{value} is used in `{where}`, and nothing defines it")
                self.refuse(line, f"`{where}` wants a {wanted}, and {value} is a {have}")
        elif type(value) is str and wanted in "sd":
            self.refuse(line, f"`{where}` wants a {wanted}, and {value} is an address")

    def check_instruction(self, instruction: Instruction) -> None:
        name, classes = instruction.name, self.classes
        wanted = WITH_RESULT[name, instruction.cls] if instruction.result is not None else WITHOUT_RESULT[name]
        for value, cls in zip(instruction.operands, wanted):
            if type(value) is str and (classes.get(value) != cls or value[0] == "$"):
                self.check_use(value, cls, instruction.line, name)

    def check_call(self, call: Call) -> None:
        self.check_use(call.target, "l", call.line, "call")
        for kind, value in call.arguments:
            self.check_use(value, class_of(kind), call.line, "call")
        if call.environment is not None:
            self.check_use(call.environment, "l", call.line, "call")

    # Blocks.

    def check_labels(self) -> None:
        blocks = self.function.blocks
        names = {block.name for block in blocks}
        for block in blocks:
            for label in block.jump.labels:
                if label not in names:
                    self.refuse(block.jump.line, f"the block {label} is used and not defined")
                if label == blocks[0].name:
                    self.refuse(block.jump.line, f"a jump to {label}, the first block")

    def check_phi(self, phi: Phi, predecessors: set[str]) -> None:
        labels: set[str] = set()
        for label, value in phi.sources:
            if label in labels:
                self.refuse(phi.line, f"the phi of {phi.result} has two values for {label}")
            labels.add(label)
            self.check_use(value, self.classes[phi.result], phi.line, "phi")
        if labels != predecessors:
            missing = min(predecessors ^ labels)
            what = f"none for {missing}, from where control comes" if missing in predecessors \
                else f"one for {missing}, from where it doesn't come"
            self.refuse(phi.line, f"the phi of {phi.result} has values for other blocks than its predecessors: {what}")


def predecessors_of(blocks: list[Block]) -> dict[str, set[str]]:
    found: dict[str, set[str]] = {block.name: set() for block in blocks}
    for block in blocks:
        for label in block.jump.labels:
            if label in found:
                found[label].add(block.name)
    return found


def check_function(function: Function, path: str) -> None:
    Checker(function, path).check()
    check_values(function, path)
