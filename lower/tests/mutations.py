"""Texts with a token removed, doubled, moved or inserted: each is refused with a line, or gives a text that qrev
accepts."""
import random
import re

from .constructs import CASES
from .running import DATA, Results, Running

COUNT, AT_ONCE = 1200, 300
TOKEN = re.compile(r'\$?"(?:[^"\\]|\\.)*"|[%@$:]?[\w.$]+|\.\.\.|\n|[ \t]+|.', re.DOTALL)
REFUSAL = re.compile(r"a\.ssa:[0-9]+: .")


def pieces() -> list[list[str]]:
    texts = [case.text for case in CASES] + [path.read_text() for path in sorted((DATA / "real").glob("*.ssa"))
                                             if path.stem != "sieve"]
    return [TOKEN.findall(text) for text in texts]


def mutated(choice: random.Random, texts: list[list[str]]) -> str:
    """One of the texts with up to three changes."""
    tokens = list(choice.choice(texts))
    for _ in range(choice.randint(1, 3)):
        at, other = choice.randrange(len(tokens)), choice.randrange(len(tokens))
        kind = choice.randrange(4)
        if kind == 0:
            tokens[at] = ""
        elif kind == 1:
            tokens[at] += " " + tokens[at]
        elif kind == 2:
            tokens[at], tokens[other] = tokens[other], tokens[at]
        else:
            words = choice.choice(texts)
            tokens[at] = words[choice.randrange(len(words))]
    return "".join(tokens)


def fault(running: Running, text: str) -> tuple[str | None, bool]:
    """What is wrong, or None; and whether the text was accepted."""
    try:
        lowered = running.lower_here(text, is_linked=False)
    except Exception as error:  # whatever isn't a refusal
        return f"{error!r} of {text!r}", False
    if isinstance(lowered, str):
        return (None if REFUSAL.match(lowered) else f"{lowered!r} of {text!r}"), False
    answer = running.run(lowered.text, "").lines[0]
    well = answer.startswith("loaded ") or answer.startswith("refused: S") or lowered.overflows
    return (None if well else f"{answer} of {text!r}"), True


def results(running: Running) -> Results:
    choice, texts = random.Random(5), pieces()
    for number in range(COUNT // AT_ONCE):
        tried = [fault(running, mutated(choice, texts)) for _ in range(AT_ONCE)]
        wrong = [what for what, _ in tried if what is not None]
        accepted = sum(is_accepted for _, is_accepted in tried)
        few = None if 10 < accepted < AT_ONCE - 10 else f"{accepted} of {AT_ONCE} are accepted"
        yield f"mutations/{number + 1} ({AT_ONCE} texts, {accepted} accepted)", wrong[0] if wrong else few
