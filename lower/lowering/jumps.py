"""setjmp and longjmp: a jump from one call to another, though each function can only return.

A setjmp gives itself a number, and stores it at its place; longjmp notes which number it wants, and returns. Behind
each call that may lead to a longjmp stands a question whether one is on its way. If so, the function goes to the setjmp
of that number, if it is its own, and else returns at once. The temporaries of a call stay as they are, as C has it for
variables in memory.
"""
from __future__ import annotations

from typing import TYPE_CHECKING

from terminal.reading.tree import Block, Call, Function, Instruction, Item, Jump, Value

from .names import free_name
from .symbols import Symbol, Unit

if TYPE_CHECKING:
    from .linking import Program

SETTING = frozenset(("$setjmp", "$_setjmp", "$sigsetjmp", "$__sigsetjmp"))
GOING = frozenset(("$longjmp", "$_longjmp", "$siglongjmp"))
WANTED, VALUE, NUMBER, NOTHING = "$jump.wanted", "$jump.value", "$jump.number", "$jump.nothing"
OVER = "$longjmp.to.a.call.that.is.over"


class Jumps:
    """The functions of a program that a longjmp may come from or lead through."""

    def __init__(self, program: Program):
        self.program = program
        self.functions = {symbol: symbol.function() for symbol in program.kept
                          if isinstance(symbol.definition, Function)}
        self.going = {symbol for symbol in self.functions if symbol.is_of_runtime() and symbol.raw in GOING}

    def write(self, entry: Symbol | None) -> None:
        """Writes what the setjmps and longjmps of the program do."""
        if not self.going:
            return
        leading = self.leading()
        written = [symbol for symbol in self.functions if symbol not in self.going
                   and (self.has_setjmp(symbol) or symbol in leading)]
        for symbol in written:
            Writer(self, symbol, leading, symbol is entry).write()
        largest = max((aggregate.size for symbol in written for aggregate in symbol.function().aggregates.values()),
                      default=0)
        self.program.runtime.symbol(NOTHING).data().items = [Item(0, "z", max(16, largest))]
        self.program.keep(self.program.runtime.symbol(raw) for raw in (WANTED, VALUE, NUMBER, NOTHING, OVER))

    def calls(self, symbol: Symbol) -> list[Call]:
        return [each for block in symbol.function().kept for each in block.instructions if isinstance(each, Call)]

    def target(self, unit: Unit, call: Call) -> Symbol | None:
        """What a call names, or None for one by an address."""
        if isinstance(call.target, str) and call.target.startswith("$"):
            return self.program.resolve(unit, call.target)
        return None

    def is_setjmp(self, unit: Unit, call: Call) -> bool:
        target = self.target(unit, call)
        return target is not None and target.is_of_runtime() and target.raw in SETTING

    def has_setjmp(self, symbol: Symbol) -> bool:
        return any(self.is_setjmp(symbol.home(), call) for call in self.calls(symbol))

    def leading(self) -> set[Symbol]:
        """The functions whose calls may lead to a longjmp, and longjmp."""
        addressed = {self.program.resolve(symbol.home(), raw) for symbol in self.program.kept if symbol.definition
                     for raw in symbol.definition.addresses}
        targets = {symbol: {self.target(symbol.home(), call) for call in self.calls(symbol)}
                   for symbol in self.functions}
        found, before = set(self.going), 0
        while len(found) != before:
            before = len(found)
            is_by_address = not found.isdisjoint(addressed)
            found |= {symbol for symbol, called in targets.items()
                      if not found.isdisjoint(called) or is_by_address and None in called}
        return found

    def may_go(self, unit: Unit, call: Call, leading: set[Symbol]) -> bool:
        target = self.target(unit, call)
        return target is None or target in leading


class Writer:
    """Writes one function anew."""

    def __init__(self, jumps: Jumps, symbol: Symbol, leading: set[Symbol], is_entry: bool):
        self.jumps, self.unit, self.function, self.leading = jumps, symbol.home(), symbol.function(), leading
        self.is_entry = is_entry
        self.blocks: list[Block] = []
        self.labels = {block.name for block in self.function.blocks}
        self.last_piece: dict[str, str] = {}
        # Of each setjmp: the temporary with its number, that with its result, and the block behind it.
        self.sites: list[tuple[str, str | None, str]] = []
        self.away = self.label("@jump.away")

    def label(self, front: str) -> str:
        name = free_name(front, self.labels)
        self.labels.add(name)
        return name

    def temporary(self, front: str, cls: str) -> str:
        name = free_name(f"%.{front}", self.function.classes)
        self.function.classes[name] = cls
        return name

    def write(self) -> None:
        function = self.function
        for block in function.kept:
            self.split(block)
        line = function.line
        zeros: list[Instruction | Call] = [Instruction(line, None, number, "l", "copy", [0])
                                           for number, _, _ in self.sites]
        self.blocks[0].instructions[:0] = zeros
        self.blocks += self.way_back()
        for block in self.blocks:
            for phi in block.phis:
                phi.sources = [(self.last_piece.get(label, label), value) for label, value in phi.sources]
        function.blocks = function.kept = self.blocks
        function.callees |= {NUMBER, OVER}
        function.addresses |= {WANTED, VALUE, NOTHING}
        for raw in (NUMBER, OVER, WANTED, VALUE, NOTHING):
            self.unit.scope[raw] = self.jumps.program.runtime.symbol(raw)

    def split(self, block: Block) -> None:
        """The pieces of a block: one ends at each setjmp, and at each call from which a longjmp may come."""
        piece = Block(block.line, block.name, block.phis, [], block.jump)
        self.blocks.append(piece)
        for each in block.instructions:
            if isinstance(each, Call) and self.jumps.is_setjmp(self.unit, each):
                piece = self.set_here(piece, each)
            elif isinstance(each, Call) and self.jumps.may_go(self.unit, each, self.leading):
                piece.instructions.append(each)
                piece = self.ask_behind(piece, each)
            else:
                piece.instructions.append(each)
        piece.jump = block.jump
        self.last_piece[block.name] = piece.name

    def begin(self, piece: Block, jump: Jump, name: str) -> Block:
        """Ends a piece with a jump, and begins the next."""
        piece.jump = jump
        behind = Block(piece.line, name, [], [], jump)
        self.blocks.append(behind)
        return behind

    def set_here(self, piece: Block, call: Call) -> Block:
        """A setjmp: its number is stored at its place, and its result is 0."""
        number, behind = self.temporary("jump.number", "l"), self.label("@jump.here")
        self.sites.append((number, call.result, behind))
        piece.instructions += [Call(call.line, call.place, number, "l", NUMBER, [], None, None),
                               Instruction(call.line, call.place, None, "", "storel", [number, call.arguments[0][1]])]
        if call.result is not None:
            piece.instructions.append(Instruction(call.line, call.place, call.result, "w", "copy", [0]))
        return self.begin(piece, Jump(call.line, call.place, "jmp", None, (behind,)), behind)

    def ask_behind(self, piece: Block, call: Call) -> Block:
        """Behind a call: whether a longjmp is on its way."""
        wanted, is_wanted = self.temporary("jump.wanted", "l"), self.temporary("jump.is.wanted", "w")
        behind = self.label("@jump.on")
        piece.instructions += [Instruction(call.line, call.place, wanted, "l", "loadl", [WANTED]),
                               Instruction(call.line, call.place, is_wanted, "w", "cnel", [wanted, 0])]
        return self.begin(piece, Jump(call.line, call.place, "jnz", is_wanted, (self.away, behind)), behind)

    def way_back(self) -> list[Block]:
        """Where a longjmp leads: to the setjmp of its number, or out of the function."""
        line, blocks, name = self.function.line, [], self.away
        for number, result, site in self.sites:
            wanted, is_it = self.temporary("jump.wanted", "l"), self.temporary("jump.is.it", "w")
            take, other = self.label("@jump.take"), self.label("@jump.other")
            blocks.append(Block(line, name, [], [
                Instruction(line, None, wanted, "l", "loadl", [WANTED]),
                Instruction(line, None, is_it, "w", "ceql", [wanted, number])],
                Jump(line, None, "jnz", is_it, (take, other))))
            taken: list[Instruction | Call] = [Instruction(line, None, None, "", "storel", [0, WANTED])]
            if result is not None:
                taken.append(Instruction(line, None, result, "w", "loadw", [VALUE]))
            blocks.append(Block(line, take, [], taken, Jump(line, None, "jmp", None, (site,))))
            name = other
        return [*blocks, self.out(name)]

    def out(self, name: str) -> Block:
        """Leaves the function; the entry says that no call has the setjmp."""
        line, returns = self.function.line, self.function.returns
        if self.is_entry:
            return Block(line, name, [], [Call(line, None, None, None, OVER, [], None, None)],
                         Jump(line, None, "hlt", None, ()))
        value: Value | None = None
        if returns is not None:
            value = NOTHING if returns.startswith(":") else 0
        return Block(line, name, [], [], Jump(line, None, "ret", value, ()))
