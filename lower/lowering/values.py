"""What QBE refuses in the values of a function, after it dropped unreachable blocks: temporaries that aren't in SSA
form and that it doesn't convert, and stack slots that are read and never stored to.

QBE keeps a stack slot of the first block in a temporary where all its uses are loads and stores of one size. It then
renames the temporaries that have several definitions, or one whose uses it can't see in one block; not those that a phi
defines, and not the values of phis. What it didn't rename must have one definition, before all uses.
"""
from typing import NamedTuple, NoReturn

from terminal.reading.instructions import ALLOCS, LOADS_BY_CLASS, STORES
from terminal.reading.refusals import Refused
from terminal.reading.tree import Block, Call, Function, Instruction, Phi, Value

LOAD_SIZES = {"loadsb": 1, "loadub": 1, "loadsh": 2, "loaduh": 2, "loadw": 4, "loadsw": 4, "loaduw": 4}
STORE_SIZES = {"storeb": 1, "storeh": 2, "storew": 4, "storel": 8, "stores": 4, "stored": 8}
CLASS_SIZES = {"w": 4, "l": 8, "s": 4, "d": 8}
# A slot has fewer bytes.
MOST_SLOT = (1 << 31) - 16
# The index of what stands before all instructions of a block, and of what stands behind them.
AT_THE_LABEL, AT_THE_JUMP = -1, 1 << 30


class Use(NamedTuple):
    """A use: the block and the index in it (`at`), the line, and the phi if it is a value of one; its block is the one
    from which it comes then."""

    block: int
    at: int
    line: int
    phi_block: int | None = None


def reachable(blocks: list[Block]) -> list[Block]:
    """The blocks to which control can come, in their order."""
    by_name = {block.name: block for block in blocks}
    seen = {blocks[0].name}
    todo = [blocks[0]]
    while todo:
        for label in todo.pop().jump.labels:
            if label not in seen:
                seen.add(label)
                todo.append(by_name[label])
    return [block for block in blocks if block.name in seen]


def operands_of(instruction: Instruction | Call) -> list[Value]:
    if isinstance(instruction, Instruction):
        return instruction.operands
    values = [value for _, value in instruction.arguments] + [instruction.target]
    return values if instruction.environment is None else values + [instruction.environment]


def load_size(instruction: Instruction) -> int | None:
    if instruction.name in LOADS_BY_CLASS:
        return CLASS_SIZES[instruction.cls]
    return LOAD_SIZES.get(instruction.name)


class ValueChecker:
    """One function and its path."""

    def __init__(self, function: Function, path: str):
        self.function, self.path = function, path
        self.blocks = function.kept = reachable(function.blocks)
        self.numbers = {block.name: number for number, block in enumerate(self.blocks)}
        self.successors = [{self.numbers[label] for label in block.jump.labels} for block in self.blocks]
        self.predecessors: list[list[int]] = [[] for _ in self.blocks]
        for number, labels in enumerate(self.successors):
            for label in labels:
                self.predecessors[label].append(number)
        # The places of definitions and uses of each temporary.
        self.definitions: dict[str, list[tuple[int, int]]] = {}
        self.uses: dict[str, list[Use]] = {}
        # Phis join their values with their results; a temporary that another stands for in that has it here.
        self.joined: dict[str, str] = {}
        # The blocks that are reached without a block.
        self.reached_without: dict[int, set[int]] = {}

    def refuse(self, line: int, what: str) -> NoReturn:
        raise Refused(self.path, line, what)

    def check(self) -> None:
        for _, name in self.function.parameters:
            self.define(name, 0, AT_THE_LABEL)
        if self.function.environment is not None:
            self.define(self.function.environment, 0, AT_THE_LABEL)
        for number, block in enumerate(self.blocks):
            self.collect(number, block)
        self.check_slots()
        for name, places in self.definitions.items():
            self.check_temporary(name, places, self.uses.get(name, []))
        for name, uses in self.uses.items():
            if name not in self.definitions:
                self.check_dominated(name, [], uses)

    # What is where.

    def define(self, name: str, block: int, index: int) -> None:
        self.definitions.setdefault(name, []).append((block, index))

    def collect(self, number: int, block: Block) -> None:
        uses, definitions = self.uses, self.definitions
        for phi in block.phis:
            self.collect_phi(number, phi)
        for index, instruction in enumerate(block.instructions):
            for value in operands_of(instruction):
                if type(value) is str and value[0] == "%":
                    uses.setdefault(value, []).append(Use(number, index, instruction.line))
            if instruction.result is not None:
                definitions.setdefault(instruction.result, []).append((number, index))
        left = block.jump.value
        if type(left) is str and left[0] == "%":
            uses.setdefault(left, []).append(Use(number, AT_THE_JUMP, block.jump.line))

    def collect_phi(self, number: int, phi: Phi) -> None:
        self.define(phi.result, number, AT_THE_LABEL)
        group = self.group(phi.result)
        for label, value in phi.sources:
            if type(value) is str and value[0] == "%" and label in self.numbers:
                self.uses.setdefault(value, []).append(Use(self.numbers[label], AT_THE_JUMP, phi.line, number))
                other = self.group(value)
                if other != group:
                    self.joined[other] = group

    def group(self, name: str) -> str:
        """The temporary that stands for those that phis join with this one; it is the one that isn't in `joined`."""
        joined = self.joined
        while name in joined:
            # The next time the way is half as long.
            above = joined[name]
            joined[name] = joined.get(above, above)
            name = above
        return name

    # Stack slots.

    def check_slots(self) -> None:
        for number, block in enumerate(self.blocks):
            for index, instruction in enumerate(block.instructions):
                if type(instruction) is Instruction and instruction.name in ALLOCS:
                    size = instruction.operands[0]
                    if type(size) is int and not 0 <= size < MOST_SLOT:
                        self.refuse(instruction.line, f"a slot of {size} bytes")
                    result = instruction.result
                    if number == 0 and result is not None and len(self.definitions[result]) == 1:
                        self.check_slot(result, instruction.line)

    def check_slot(self, name: str, line: int) -> None:
        """A slot that is kept in a temporary is no longer defined by its `alloc`, but by its stores."""
        uses = self.uses.get(name, [])
        stores: list[Use] = []
        loads: list[Use] = []
        sizes: set[int | None] = set()
        kinds: set[str] = set()
        for use in uses:
            instruction = self.blocks[use.block].instructions[use.at] if use.at < AT_THE_JUMP else None
            if type(instruction) is not Instruction:
                return
            if instruction.name in STORES and instruction.operands[0] != name:
                stores.append(use)
                kinds.add(STORES[instruction.name])
                sizes.add(STORE_SIZES[instruction.name])
            else:
                loads.append(use)
                sizes.add(load_size(instruction))
        if None in sizes or len(sizes) > 1 or len(kinds) > 1:
            return
        if loads and not stores:
            self.refuse(line, f"the slot {name} is read and never stored to")
        # Here it has to have its address by then.
        self.check_dominated(name, self.definitions[name], uses)
        self.definitions[name] = [(use.block, use.at) for use in stores]
        self.uses[name] = loads

    # Temporaries.

    def check_temporary(self, name: str, places: list[tuple[int, int]], uses: list[Use]) -> None:
        if name in self.joined:
            self.check_dominated(name, places, uses)
        elif len(places) == 1 and (places[0][0] == 0 or all(counted_in(use) == places[0][0] for use in uses)):
            self.check_dominated(name, places, uses)
        else:
            self.check_renamed(name, places, uses)

    def check_renamed(self, name: str, places: list[tuple[int, int]], uses: list[Use]) -> None:
        """The definitions by phis stay. The others are renamed, and with them what they reach: all, or, if it is used
        only in their own blocks, what comes after the first of a block."""
        by_phis = [place for place in places if place[1] == AT_THE_LABEL and place[0] != 0]
        first: dict[int, int] = {}
        for place in places:
            if place not in by_phis:
                first[place[0]] = min(place[1], first.get(place[0], AT_THE_JUMP))
        if first and not self.live_out(places, uses).isdisjoint(first):
            self.check_dominated(name, [], [use for use in uses if use.phi_block is not None])
        else:
            left = [use for use in uses if use.at <= first.get(use.block, AT_THE_JUMP)]
            self.check_dominated(name, by_phis, left)

    def live_out(self, places: list[tuple[int, int]], uses: list[Use]) -> set[int]:
        """The blocks after which a temporary may be used."""
        first: dict[int, int] = {}
        for block, index in places:
            first[block] = min(index, first.get(block, AT_THE_JUMP))
        live = {use.block for use in uses if use.phi_block is not None}
        todo = [use.block for use in uses if use.at <= first.get(use.block, AT_THE_JUMP)]
        seen: set[int] = set()
        while todo:
            block = todo.pop()
            if block not in seen:
                seen.add(block)
                live.update(self.predecessors[block])
                todo += [other for other in self.predecessors[block] if other not in first]
        return live

    def check_dominated(self, name: str, places: list[tuple[int, int]], uses: list[Use]) -> None:
        """What isn't renamed has one definition, before all uses."""
        if len(places) > 1:
            block, index = places[1]
            line = self.blocks[block].line if index < 0 else self.blocks[block].instructions[index].line
            self.refuse(line, f"{name} is defined more than once, and a phi has it")
        for use in uses:
            if not places or not self.is_before(places[0], use):
                self.refuse(use.line, f"{name} is used before it is defined")

    def is_before(self, place: tuple[int, int], use: Use) -> bool:
        block, index = place
        if use.block == block:
            return index < use.at
        return block == 0 or use.block not in self.without(block)

    def without(self, block: int) -> set[int]:
        """The blocks to which a way leads that isn't through a block."""
        seen = self.reached_without.get(block)
        if seen is None:
            seen, todo = {0}, [0]
            while todo:
                for number in self.successors[todo.pop()]:
                    if number != block and number not in seen:
                        seen.add(number)
                        todo.append(number)
            self.reached_without[block] = seen
        return seen


def counted_in(use: Use) -> int:
    """The block that QBE counts a use in: of a value of a phi it is that of the phi."""
    return use.block if use.phi_block is None else use.phi_block


def check_values(function: Function, path: str) -> None:
    ValueChecker(function, path).check()
