"""Functions that stand between a call by an address and functions of another shape than the call has.

Native code passes arguments in registers, so a function may be called with an environment, with dots or with longer
values than it takes. Here a call must have the shape of the function. So an adapter compares the address with those of
the functions of other shapes, and calls these by their names.
"""
from terminal.reading.tree import Aggregate, Block, Call, Function, Instruction, Jump, Text

from .linking import Program
from .symbols import Signature, Symbol, Unit

# The shape of a call: what it gives and takes, whether it has dots, and the size and the alignment of its aggregates.
Shape = tuple[Signature, bool, tuple[tuple[int, int], ...]]


class Adapters:
    """The adapters of a program, by the shape of the call."""

    def __init__(self, program: Program, addressed: list[Symbol]):
        self.program, self.addressed = program, addressed
        self.unit = Unit(Text("adapters", [], {}, []), False)
        self.by_shape: dict[Shape, Symbol | None] = {}
        self.new: list[Symbol] = []

    def adapter(self, signature: Signature, has_dots: bool, aggregates: dict[str, Aggregate]) -> Symbol | None:
        """The adapter for calls of a shape, or None where none is needed."""
        named = {name: aggregates[name] for name in (signature.returns, *signature.parameters)
                 if name is not None and name in aggregates}
        key = (signature, has_dots, tuple((item.size, item.alignment) for item in named.values()))
        if key not in self.by_shape:
            others = [symbol for symbol in self.addressed if self.is_other(symbol.shape(), signature, has_dots)]
            self.by_shape[key] = self.made(signature, others, named) if others else None
            self.new += filter(None, [self.by_shape[key]])
        return self.by_shape[key]

    def take_new(self) -> list[Symbol]:
        """The adapters that were made since this was last asked, which are to be written."""
        new, self.new = self.new, []
        return new

    def is_other(self, has: Signature, call: Signature, has_dots: bool) -> bool:
        """Whether a call may still reach a function of another shape."""
        is_same = has.carried() == call.carried() and has.has_environment == call.has_environment and not has.has_dots
        if is_same and call.carried_result() in (None, has.carried_result()):
            return False
        if has.gives_aggregate() != call.gives_aggregate():
            return False
        count = len(call.parameters)
        if has.has_dots or has_dots:
            return len(has.parameters) <= count
        return len(has.parameters) == count

    def made(self, signature: Signature, others: list[Symbol], aggregates: dict[str, Aggregate]) -> Symbol:
        parameters = [("l", "%function")] + [(kind, f"%a{number}") for number,
                                             kind in enumerate(signature.parameters, 1)]
        environment = "%environment" if signature.has_environment else None
        blocks = []
        for number, symbol in enumerate(others, 1):
            self.unit.scope[symbol.name] = symbol
            compared = Instruction(0, None, f"%is{number}", "w", "ceql", ["%function", symbol.name])
            blocks.append(Block(0, f"@is{number}", [], [compared],
                                Jump(0, None, "jnz", f"%is{number}", (f"@call{number}", f"@is{number + 1}"))))
            blocks.append(self.calling(f"@call{number}", symbol.name, number, signature, parameters, environment))
        last = len(others) + 1
        blocks.append(self.calling(f"@is{last}", "%function", last, signature, parameters, environment))
        name = self.program.names.give(f"$call.by.address.{len(self.by_shape) + 1}")
        # The address comes first of the parameters, and the environment behind it.
        if environment is not None:
            parameters.insert(1, ("l", environment))
        function = Function(0, name, False, signature.returns, parameters, None, False, blocks, aggregates, set(),
                            set(), blocks)
        kinds = tuple(kind for kind, _ in parameters)
        return Symbol(name, self.unit, function, Signature(signature.returns, kinds), name=name)

    def calling(self, label: str, target: str, number: int, signature: Signature,
                parameters: list[tuple[str, str]], environment: str | None) -> Block:
        """A block that calls a function with all that the adapter was given, and gives back what that gives."""
        result = f"%given{number}" if signature.returns else None
        call = Call(0, None, result, signature.returns, target, [*parameters[1:]], environment, None)
        return Block(0, label, [], [call], Jump(0, None, "ret", result, ()))
