"""A quick test of a condition passes by no hit that counts: random conditions and values, held against what expressions
are worth."""
from __future__ import annotations

import random

from terminal.answers import Place
from terminal.conditions import is_exact, quick_test
from terminal.expressions import LEVELS, Node, Unset, evaluate, parse
from terminal.stops import Answered, questions_of
from terminal.text import Program

TEXT = b"""data $table = { w 1 2 3 4 }
export function w $main(w %word, l %long) {
@start
	%sum =l add %long, 1
	ret %word
}
"""
NUMBERS = ("0", "1", "-1", "2", "7", "100", "0xff", "4294967295", "2147483648", "9223372036854775808", "'a'")
VALUES = (0, 1, 2, 7, 97, 100, 255, 1 << 31, (1 << 32) - 1, 1 << 63, (1 << 64) - 1)
CASES, LEAST = 2000, 0.2


def written(chosen: random.Random, depth: int) -> str:
    """A random expression of whole numbers."""
    if depth == 0 or chosen.random() < 0.15:
        return chosen.choice((*NUMBERS, "%word", "%long", "%sum", "$table", "$table+4", "w[$table]", "b[$table+4]",
                              "h[$table+2]", "l[$table+8]"))
    if chosen.random() < 0.3:
        return chosen.choice(("u({})", "s({})", "-({})", "~({})", "!({})", "+({})")).format(written(chosen, depth - 1))
    operation = chosen.choice([text for level in LEVELS for text in level])
    return f"({written(chosen, depth - 1)}) {operation} ({written(chosen, depth - 1)})"


def answered(chosen: random.Random, question: str) -> str:
    """What the debugger could answer."""
    word, *rest = question.split()
    if word == "mem":
        count = int(rest[1])
        found = ["--" if chosen.random() < 0.03 else f"{chosen.choice(VALUES) & 255:02x}" for _ in range(count)]
        return " ".join(found)
    value = chosen.choice(VALUES) & ((1 << 32) - 1 if rest[0] == "%word" else (1 << 64) - 1)
    return f"{rest[0]} unset" if chosen.random() < 0.05 else f"{rest[0]} = {value}"


def is_held(node: Node, program: Program, answers: dict[str, list[str]]) -> bool:
    try:
        state = Answered(program, Place(1, "$main", "@start", 0), answers, lambda *_: [])
        return evaluate(node, state).number != 0
    except Unset:
        return False


def condition_faults(seed: int) -> list[str]:
    """Where a quick test doesn't hold though the condition does, or the other way round."""
    chosen, program, found, held = random.Random(seed), Program(TEXT), [], 0
    classes = program.functions["$main"].temporaries
    for _ in range(CASES):
        text = written(chosen, chosen.randrange(1, 4))
        node = parse(text)
        questions = list(dict.fromkeys(questions_of(node, program) or []))
        test = quick_test(node, questions, classes, program.addresses)
        if test is None:
            return [f"{text} has no quick test"]
        answers = [[answered(chosen, question)] for question in questions]
        wanted = is_held(node, program, dict(zip(questions, answers)))
        held += wanted
        # Values of over 128 bits count as unset: only then may the quick test hold too often.
        if test(answers) != wanted and (wanted or is_exact(node)):
            found.append(f"{text} with {answers}: {not wanted} by the quick test")
    if not LEAST < held / CASES < 1 - LEAST:
        found.append(f"{held} of {CASES} conditions hold")
    return found
