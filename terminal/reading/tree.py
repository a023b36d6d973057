"""A text of QBE as a tree. A value is an integer (the bits of a constant), `%name` or `$name`."""
from dataclasses import dataclass, field

Value = int | str


@dataclass(slots=True, frozen=True)
class Place:
    """The place in a source text from `dbgfile` and `dbgloc`; a column of 0 is none."""

    file: str
    line: int
    column: int


@dataclass(slots=True)
class Instruction:
    line: int
    place: Place | None
    result: str | None
    cls: str
    name: str
    operands: list[Value]


@dataclass(slots=True)
class Call:
    line: int
    place: Place | None
    result: str | None
    # A class, a sub-word type or an aggregate; None without a result.
    kind: str | None
    target: Value
    arguments: list[tuple[str, Value]]
    environment: Value | None
    # How many arguments stand before the dots; None without dots.
    dots: int | None

    def result_kind(self) -> str:
        """What a call with a result gives."""
        assert self.kind is not None
        return self.kind


@dataclass(slots=True)
class Phi:
    line: int
    place: Place | None
    result: str
    cls: str
    sources: list[tuple[str, Value]]


@dataclass(slots=True)
class Jump:
    """`jmp`, `jnz`, `ret`, `hlt`, or `on` for a block that goes on to the next."""

    line: int
    place: Place | None
    name: str
    value: Value | None
    labels: tuple[str, ...]


# What a block has until its jump is read.
OPEN = Jump(0, None, "open", None, ())


@dataclass(slots=True)
class Block:
    line: int
    name: str
    phis: list[Phi] = field(default_factory=list)
    instructions: list[Instruction | Call] = field(default_factory=list)
    jump: Jump = field(default_factory=lambda: OPEN)


@dataclass(slots=True)
class Aggregate:
    """A type: its size, its alignment, and whether it is a union or opaque."""

    name: str
    size: int
    alignment: int
    kind: str


@dataclass(slots=True)
class Function:
    line: int
    name: str
    is_exported: bool
    returns: str | None
    parameters: list[tuple[str, str]]
    # The temporary of the `env` parameter.
    environment: str | None
    has_dots: bool
    blocks: list[Block]
    # The aggregates that the function names, as they were when it was read.
    aggregates: dict[str, Aggregate]
    # The globals that are called by name, and those whose address is used.
    callees: set[str]
    addresses: set[str]
    # The blocks that are written: those to which control can come.
    kept: list[Block] = field(default_factory=list)
    # The class of each temporary, and those that have definitions of both `w` and `l`, which are `w`.
    classes: dict[str, str] = field(default_factory=dict)
    mixed: set[str] = field(default_factory=set)


@dataclass(slots=True)
class Item:
    """A part of data: `b h w l`, or `z`, and a number, a string, or a global with what is added to its address."""

    line: int
    letter: str
    value: int | str
    is_global: bool = False
    offset: int = 0
    # Whether its letter is `s` or `d`, which are written as `w` and `l`.
    is_float: bool = False


@dataclass(slots=True)
class Data:
    line: int
    name: str
    is_exported: bool
    section: str | None
    alignment: int | None
    items: list[Item]
    addresses: set[str]


Definition = Function | Data


@dataclass(slots=True)
class Text:
    """A text that was read: its path, its definitions in order, and what of it leaves no trace in them, with counts."""

    path: str
    definitions: list[Definition]
    dropped: dict[str, int]
    cut_numbers: list[int]
