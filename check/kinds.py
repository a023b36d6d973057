"""The kinds of suspicions: which are on by default, and what each says."""
from __future__ import annotations

DEFAULT = frozenset("block bounds callee cut extension free freed number rodata stale stray undef".split())
STRICT = DEFAULT | frozenset("overlap undef-load undef-value".split())
# Off unless they are named: programs that are right do these too.
OFF = frozenset("call-types diff half leak misaligned order output-address shift sum".split())
ALL = STRICT | OFF


class WrongKind(Exception):
    """A word that names no kind."""


def chosen(text: str | None) -> frozenset[str]:
    """The kinds that a list of them names; `strict` stands for the default and the strict ones."""
    if text is None:
        return DEFAULT
    found: set[str] = set()
    for word in text.split(","):
        if word == "strict":
            found |= STRICT
        elif word == "default":
            found |= DEFAULT
        elif word in ALL:
            found.add(word)
        else:
            raise WrongKind(f"{word}: no kind of suspicion; the kinds are strict, default, {', '.join(sorted(ALL))}")
    return frozenset(found)
