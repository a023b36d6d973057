"""The instructions of QBE 1.2 (its IL reference, "Instructions"), and which classes each takes and gives."""

INTEGERS = ("w", "l")
FLOATS = ("s", "d")
CLASSES = INTEGERS + FLOATS
SUBWORDS = ("sb", "ub", "sh", "uh")
LOADS_BY_CLASS = ("load", "loadl", "loads", "loadd")
SMALL_LOADS = ("loadw", "loadsw", "loaduw", "loadsh", "loaduh", "loadsb", "loadub")
ALLOCS = ("alloc4", "alloc8", "alloc16", "alloc1", "alloc2")
INTEGER_COMPARISONS = ("eq", "ne", "sge", "sgt", "sle", "slt", "uge", "ugt", "ule", "ult")
FLOAT_COMPARISONS = ("eq", "ge", "gt", "le", "lt", "ne", "o", "uo")
STORES = {"storeb": "w", "storeh": "w", "storew": "w", "storel": "l", "stores": "s", "stored": "d"}


def with_result() -> dict[tuple[str, str], tuple[str, ...]]:
    """For each instruction and class of its result the classes of its operands."""
    table: dict[tuple[str, str], tuple[str, ...]] = {}

    def add(names: tuple[str, ...], results: tuple[str, ...], *operands: str) -> None:
        """`T` among the operands is the class of the result."""
        for name in names:
            for result in results:
                table[name, result] = tuple(result if operand == "T" else operand for operand in operands)

    add(("add", "sub", "mul", "div"), CLASSES, "T", "T")
    add(("neg", "copy"), CLASSES, "T")
    add(("rem", "udiv", "urem", "and", "or", "xor"), INTEGERS, "T", "T")
    add(("sar", "shr", "shl"), INTEGERS, "T", "w")
    for comparison in INTEGER_COMPARISONS:
        for operand in INTEGERS:
            add((f"c{comparison}{operand}",), INTEGERS, operand, operand)
    for comparison in FLOAT_COMPARISONS:
        for operand in FLOATS:
            add((f"c{comparison}{operand}",), INTEGERS, operand, operand)
    add(LOADS_BY_CLASS + ("vaarg",), CLASSES, "l")
    add(SMALL_LOADS, INTEGERS, "l")
    add(("extsb", "extub", "extsh", "extuh"), INTEGERS, "w")
    add(("extsw", "extuw"), ("l",), "w")
    add(("exts",), ("d",), "s")
    add(("truncd",), ("s",), "d")
    add(("stosi", "stoui"), INTEGERS, "s")
    add(("dtosi", "dtoui"), INTEGERS, "d")
    add(("swtof", "uwtof"), FLOATS, "w")
    add(("sltof", "ultof"), FLOATS, "l")
    for result, operand in (("w", "s"), ("l", "d"), ("s", "w"), ("d", "l")):
        add(("cast",), (result,), operand)
    add(ALLOCS, ("l",), "l")
    return table


WITH_RESULT = with_result()
WITHOUT_RESULT = {name: (value, "l") for name, value in STORES.items()} | {"vastart": ("l",), "blit": ("l", "l")}
NAMES = frozenset(name for name, _ in WITH_RESULT)
KEYWORDS = NAMES | frozenset(WITHOUT_RESULT) | frozenset(CLASSES) | frozenset(SUBWORDS) | frozenset((
    "export", "thread", "section", "function", "type", "data", "align", "dbgfile", "dbgloc", "env", "call",
    "phi", "jmp", "jnz", "ret", "hlt", "b", "h", "z"))

# What a value of a class is carried in: floats as their bits.
CARRIED = {"w": "w", "l": "l", "s": "w", "d": "l", "sb": "sb", "ub": "ub", "sh": "sh", "uh": "uh"}


def class_of(kind: str) -> str:
    """The class of a temporary of a parameter's or a result's type; an aggregate is its address."""
    if kind in SUBWORDS:
        return "w"
    return "l" if kind.startswith(":") else kind
