"""What names stand for: definitions of the texts and of the runtime, built-in functions, and functions from outside."""
from dataclasses import dataclass, field
from typing import NamedTuple

from terminal.reading.instructions import CARRIED, class_of
from terminal.reading.tree import Call, Data, Definition, Function, Text

# The last parameter of a function of the runtime that takes arguments behind dots: the address of their cells.
CELLS = "%cells"


class Signature(NamedTuple):
    """What a function takes and gives, in the types of QBE."""

    returns: str | None
    parameters: tuple[str, ...]
    has_environment: bool = False
    has_dots: bool = False

    def gives_aggregate(self) -> bool:
        return self.returns is not None and self.returns.startswith(":")

    def carried(self) -> tuple[str, ...]:
        """The classes of the parameters as they are written: the address of an aggregate that is the result, the
        environment, the parameters, the address of the cells."""
        classes = [carried_class(kind) for kind in self.parameters]
        front = ["l"] * (self.gives_aggregate() + self.has_environment)
        return tuple(front + classes + ["l"] * self.has_dots)

    def carried_result(self) -> str | None:
        return None if self.returns is None or self.gives_aggregate() else carried_class(self.returns)


def carried_class(kind: str) -> str:
    """The class, `w` or `l`, in which a value of a type is carried."""
    return CARRIED[class_of(kind)]


@dataclass(eq=False, slots=True)
class Unit:
    """A text, and what its names stand for."""

    text: Text
    is_runtime: bool
    own: dict[str, "Symbol"] = field(default_factory=dict)
    scope: dict[str, "Symbol"] = field(default_factory=dict)


@dataclass(eq=False, slots=True)
class Symbol:
    """A function or data; without a definition it is built in, or from outside."""

    raw: str
    unit: Unit | None
    definition: Definition | None
    signature: Signature | None
    is_built_in: bool = False
    # The name in the text that is written, with its sigil.
    name: str = ""

    def home(self) -> Unit:
        """The text of what has a definition."""
        assert self.unit is not None
        return self.unit

    def defined(self) -> Definition:
        assert self.definition is not None
        return self.definition

    def function(self) -> Function:
        """What it is defined as, where it is a function that is in a text."""
        assert isinstance(self.definition, Function)
        return self.definition

    def data(self) -> Data:
        assert isinstance(self.definition, Data)
        return self.definition

    def shape(self) -> Signature:
        """The signature of a function that is in a text, is built in, or was called."""
        assert self.signature is not None
        return self.signature

    def is_function(self) -> bool:
        return not self.is_data()

    def is_data(self) -> bool:
        return self.definition is not None and not isinstance(self.definition, Function)

    def is_of_runtime(self) -> bool:
        return self.unit is not None and self.unit.is_runtime

    def is_outside(self) -> bool:
        return self.definition is None and not self.is_built_in


BUILT_IN = {"$putchar": Signature("w", ("w",)), "$puts": Signature("w", ("l",)), "$exit": Signature(None, ("w",))}


def signature_of(function: Function, is_runtime: bool) -> Signature:
    kinds = tuple(kind for kind, _ in function.parameters)
    if is_runtime and function.parameters and function.parameters[-1][1] == CELLS:
        return Signature(function.returns, kinds[:-1], False, True)
    return Signature(function.returns, kinds, function.environment is not None, function.has_dots)


def signature_at(call: Call) -> Signature:
    """What a function takes that is nowhere: what its first call gives it."""
    return Signature(call.kind, tuple(kind for kind, _ in call.arguments), call.environment is not None, False)


def references(definition: Definition) -> set[str]:
    if isinstance(definition, Function):
        return definition.callees | definition.addresses
    return definition.addresses
