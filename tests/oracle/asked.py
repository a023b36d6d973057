"""What an editor asks: the members of a request, what it said of itself, and what a breakpoint of it asks for."""
from __future__ import annotations

import re
from typing import Optional

from .expressions import parse
from .messages import Message, is_number


class Client:
    """What an editor said of itself."""

    def __init__(self, given: Message) -> None:
        self.first_line = 0 if given.get("linesStartAt1") is False else 1
        self.first_column = 0 if given.get("columnsStartAt1") is False else 1
        self.has_types = given.get("supportsVariableType") is True
        self.has_references = given.get("supportsMemoryReferences") is True
        self.repeats_watches = given.get("clientID") == "vscode"


class Rule:
    """What a breakpoint asks for besides its place, and the positions at which it was met."""

    def __init__(self, wanted: Message) -> None:
        self.condition = parse(wanted["condition"]) if texts(wanted, "condition") else None
        self.hits = re.fullmatch(r"\s*(>=|<=|==|>|<|=|%|)\s*([0-9]+)\s*", texts(wanted, "hitCondition")) \
            if texts(wanted, "hitCondition") else None
        self.message = texts(wanted, "logMessage")
        self.met: list[int] = []

    def is_plain(self) -> bool:
        return not (self.condition or self.hits or self.message)

    def meets(self, position: int) -> bool:
        """Notes that the run came to it, and says whether that is often enough."""
        before = [at for at in self.met if at < position]
        if position not in self.met:
            self.met = before + [position]
        if not self.hits:
            return True
        count, (sign, said) = len(before) + 1, self.hits.groups()
        most = int(said)
        return {"": count >= most, ">=": count >= most, "<=": count <= most, "==": count == most, "=": count == most,
                ">": count > most, "<": count < most, "%": most != 0 and count % most == 0}[sign]


def texts(given: Message, name: str) -> str:
    """The text of a member, if it says something."""
    text = given.get(name)
    return text if isinstance(text, str) else ""


def arguments_of(request: Message) -> Message:
    given = request.get("arguments")
    return given if isinstance(given, dict) else {}


def number_in(given: Message, name: str, least: int = 0, greatest: int = 2**64 - 1) -> Optional[int]:
    """A number that a request gives, or None."""
    return given.get(name) if is_number(given.get(name), least, greatest) else None


def text_in(given: Message, name: str) -> Optional[str]:
    return given.get(name) if isinstance(given.get(name), str) else None


def items_in(given: Message, name: str) -> list[Message]:
    return [item if isinstance(item, dict) else {} for item in given.get(name) or []] \
        if isinstance(given.get(name), list) else []


def plain_path(path: str) -> str:
    """A path without `.`, `..` and empty parts."""
    parts: list[str] = []
    for part in path.split("/"):
        if part == ".." and parts and parts[-1] != "..":
            parts.pop()
        elif part == ".." and not path.startswith("/") or part not in ("", ".", ".."):
            parts.append(part)
    return ("/" if path.startswith("/") and parts else "") + "/".join(parts)
