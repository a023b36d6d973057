"""A quick test of a condition at the many hits of a run: it passes by those that surely don't count.

The condition becomes a function of whole numbers, made once. Only where that holds is it evaluated as expressions.py
says, so the quick test may hold too often, and never too seldom.
"""
from __future__ import annotations

from typing import Any, Callable, Mapping

from .expressions import BINARY, Node, Unset, Wrong, fixed, is_fixed, parts_of
from .values import BITS, BYTES, FLOATS

Answers = list[list[str]]
Test = Callable[[Answers], bool]
# Operations that Python's own do for whole numbers; the others are called, since some of them fail.
INLINE = frozenset("+-*&|^")
COMPARED = frozenset(("<", "<=", ">", ">="))
# Expressions have no values of over 128 bits, which these could give.
WIDENING = frozenset(("*", "<<"))


class Slow(Exception):
    """A part of a condition that has no quick test."""


def quick_test(node: Node, questions: list[str], classes: Mapping[str, str],
               addresses: Mapping[str, int]) -> Test | None:
    """A test of a condition by the answers to these questions at a hit, or None if it needs more than whole numbers."""
    names: dict[str, Any] = {"call": BINARY, "wrong": (Unset, ValueError, Wrong), "bytes_in": bytes_in}
    try:
        source, _ = Source(questions, classes, addresses).of(node)
    except Slow:
        return None
    exec(f"def holds(answers):\n  try:\n    return ({source}) != 0\n  except wrong:\n    return False\n", names)
    holds: Test = names["holds"]
    return holds


def is_exact(node: Node) -> bool:
    """Whether a quick test of a condition holds only if the condition does: numbers of any size come of these alone."""
    return not any(part.text in WIDENING for part in parts_of(node))


def bytes_in(line: str) -> int:
    """The number in some bytes of memory."""
    return int.from_bytes(bytes.fromhex(line), "little")


class Source:
    """A condition as Python has it: each part with the class whose bits it has, or none."""

    def __init__(self, questions: list[str], classes: Mapping[str, str], addresses: Mapping[str, int]):
        self.questions, self.classes, self.addresses = questions, classes, addresses

    def of(self, node: Node) -> tuple[str, str]:
        if node.kind == "number":
            return f"({node.text})", ""
        if node.kind == "global":
            return str(self.addresses[node.text]), "l"
        if node.kind == "temporary":
            return self.temporary(node.text)
        if node.kind == "memory":
            return self.memory(node)
        if node.kind in ("u", "s", "unary"):
            return self.of_one(node)
        if node.kind == "binary":
            return self.of_two(node.text, *self.of(node.parts[0]), *self.of(node.parts[1]))
        raise Slow(node.kind)

    def answer(self, question: str) -> str:
        if question not in self.questions:
            raise Slow(question)
        return f"answers[{self.questions.index(question)}][0]"

    def temporary(self, name: str) -> tuple[str, str]:
        width = self.classes.get(name, "")
        if width not in ("w", "l"):
            raise Slow(name)
        # An unset one is no number.
        return as_signed(f"int({self.answer(f'print {name}')}.rpartition(' = ')[2])", width), width

    def memory(self, node: Node) -> tuple[str, str]:
        if node.text in FLOATS or not is_fixed(node.parts[0]):
            raise Slow(node.text)
        line = f"mem {fixed(node.parts[0], self.addresses)} {BYTES[node.text]}"
        return as_signed(f"bytes_in({self.answer(line)})", node.text), "l" if node.text == "l" else "w"

    def of_one(self, node: Node) -> tuple[str, str]:
        first, width = self.of(node.parts[0])
        if node.kind == "u":
            return f"({first} & {(1 << BITS[width or 'l']) - 1})", ""
        if node.kind == "s":
            return as_signed(f"({first} & {(1 << BITS[width or 'l']) - 1})", width or "l"), ""
        if node.text == "!":
            return f"(0 if {first} else 1)", ""
        return f"({node.text}{first})", width if node.text in "-~" else ""

    def of_two(self, text: str, first: str, width: str, second: str, other: str) -> tuple[str, str]:
        if text in ("&&", "||"):
            return f"(1 if {first} {'and' if text == '&&' else 'or'} {second} else 0)", ""
        if text in ("==", "!="):
            narrow = "w" if "w" in (width, other) else "l" if "l" in (width, other) else ""
            cut = f" & {(1 << BITS[narrow]) - 1}" if narrow else ""
            return f"(1 if ({first} - {second}){cut} {text} 0 else 0)", ""
        if text in COMPARED:
            return f"(1 if {first} {text} {second} else 0)", ""
        wide = max(width, other, key=len) if text in "+-*/%&|^" else ""
        if text in INLINE:
            return f"({first} {text} {second})", wide
        return f"call[{text!r}]({first}, {second})", wide


def as_signed(source: str, width: str) -> str:
    sign = 1 << (BITS[width] - 1)
    return f"(({source} ^ {sign}) - {sign})"
