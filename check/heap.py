"""Which functions of a program make and free heap blocks: by their names and shapes, or as the user says."""
from __future__ import annotations

from terminal.text import Function, Program

# A role, and the classes of the parameters and of the result that a function in it has; None: it may give anything.
SHAPES = {"take": (("l",), "l"), "calloc": (("l", "l"), "l"), "realloc": (("l", "l"), "l"),
          "memalign": (("l", "l"), "l"), "give": (("l",), None), "look": (("l",), "l")}
GIVERS = frozenset(("take", "calloc", "realloc", "memalign"))
NAMES = {"malloc": "take", "calloc": "calloc", "realloc": "realloc", "free": "give", "aligned_alloc": "memalign",
         "memalign": "memalign", "malloc_usable_size": "look"}


class WrongHeap(Exception):
    """What was said of the heap isn't so of this program."""


def has_shape(function: Function, role: str) -> bool:
    parameters, result = SHAPES[role]
    given = tuple("l" if kind == "l" else "w" for kind, _ in function.parameters)
    return given == parameters and (result is None or function.type == result)


def roles_of(program: Program, said: str | None, has_none: bool = False) -> dict[str, str]:
    """The role of each function of the heap. Names count only if one of the functions gives blocks."""
    if has_none:
        return {}
    if said is not None:
        return dict(role_said(program, word) for word in said.split(","))
    found = {}
    for name, function in program.functions.items():
        role = NAMES.get(name.removeprefix("$").removeprefix("rt."))
        if role and has_shape(function, role):
            found[name] = role
    return found if GIVERS & set(found.values()) else {}


def role_said(program: Program, word: str) -> tuple[str, str]:
    """A role and a function, as `take=malloc`."""
    role, _, name = word.partition("=")
    if role not in SHAPES or not name:
        raise WrongHeap(f"{word}: ROLE=FUNCTION was expected, with a role of {', '.join(SHAPES)}")
    function = program.functions.get(name if name.startswith("$") else f"${name}")
    if function is None:
        raise WrongHeap(f"{word}: the program has no function {name}")
    if not has_shape(function, role):
        parameters, result = SHAPES[role]
        wanted = f"({', '.join(parameters)})" + (f" that gives {result}" if result else "")
        raise WrongHeap(f"{word}: a function {wanted} was expected")
    return function.name, role


def size_asked(role: str, arguments: list[int]) -> int:
    """How many bytes were asked for."""
    if role == "calloc":
        return arguments[0] * arguments[1]
    return arguments[0] if role == "take" else arguments[1]
