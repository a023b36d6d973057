"""The moves of a session that keeps all of them, one by one, from its script and its transcript alone, and the expected
report after each."""
import re
from collections.abc import Sequence

BYTES = {b"b": 1, b"h": 2, b"w": 4, b"l": 8}
# What a line is refused for before the session looks at it: it asks for no move.
NOT_ASKED = (b"no: line too long", b"no: unknown command", b"no: missing word", b"no: bad word", b"no: extra word",
             b"no: unknown place")
# The lines of an answer that can have several.
SHOWN = {b"accesses": rb"(read|write) #\d+ \d+ \d+", b"counts": rb"count \d+ \$\S+ @\S+ \d+",
         b"frames": rb"frame (-|#\d+) (-|#\d+) \$\S+ \d+", b"where": rb"\$.* @\S+ \d+", b"list": rb"(  |> ).*"}


class Answers:
    """The lines of a transcript behind its load lines, from the front on."""

    def __init__(self, lines: list[bytes]) -> None:
        self.lines = lines
        self.at = 0

    def has(self, pattern: bytes) -> bool:
        return self.at < len(self.lines) and re.fullmatch(pattern, self.lines[self.at]) is not None

    def take(self) -> bytes:
        self.at += 1
        if self.at > len(self.lines):
            raise ValueError("the script has more commands than the transcript has answers")
        return self.lines[self.at - 1]

    def take_place(self) -> int:
        """The position of a place line."""
        line = self.take()
        found = re.match(rb"#(\d+) ", line)
        if not found:
            raise ValueError(f"no place: {line!r}")
        return int(found[1])

    def take_shown(self, pattern: bytes) -> None:
        while self.has(pattern):
            self.take()

    def take_temporaries(self) -> None:
        """Lines up to one that tells of the same temporary again, or of none."""
        seen: set[bytes] = set()
        while self.has(rb"%\S+ (= \d+|unset)") and (name := self.lines[self.at].split()[0]) not in seen:
            seen.add(name)
            self.take()


class Moves:
    """The moves so far, and where the session stands."""

    def __init__(self) -> None:
        self.position = 0
        self.asked: list[bytes] = []
        self.told: list[bytes] = []

    def ask(self, line: bytes, refusal: bytes = b"") -> None:
        self.asked.append(line)
        self.told.append(b"#%d%s" % (self.position, b": " + refusal if refusal else b""))

    def go_to(self, position: int) -> None:
        """One move after the other, forward or back."""
        while self.position < position:
            self.made(b"forward")
        while self.position > position:
            self.position -= 1
            self.ask(b"back")

    def made(self, line: bytes) -> None:
        self.position += 1
        self.ask(line)


def poke_line(width: bytes, address: bytes, value: bytes) -> bytes:
    name, _, offset = address.partition(b"+")
    if not name.startswith(b"$"):
        name, offset = b"$-", name
    return b"poke %d %s %d %d" % (BYTES[width], name[1:], int(offset or b"0"), int(value) % 2**64)


def value_line(words: Sequence[bytes]) -> bytes:
    if words[0] == b"set":
        return b"set %s %d" % (words[1][1:], int(words[2]) % 2**64)
    return poke_line(*words[1:])


def take_refusal(words: Sequence[bytes], refusal: bytes, moves: Moves) -> None:
    """A command that was refused: the move that it asks for, if it asks for one."""
    verb = words[0]
    if verb in (b"step", b"accesses", b"counts", b"frames", b"continue"):
        moves.ask(b"forward", refusal)
    elif verb in (b"back", b"reverse"):
        moves.ask(b"back", refusal)
    elif verb in (b"set", b"poke"):
        moves.ask(value_line(words), refusal)


def take_way(words: Sequence[bytes], answers: Answers, moves: Moves) -> None:
    """A command that goes on or back, by how far the transcript says that it went."""
    verb, before = words[0], moves.position
    reason = answers.take() if verb in (b"continue", b"reverse") else b""
    moves.go_to(answers.take_place())
    is_short = abs(moves.position - before) < int(words[1] if len(words) > 1 else b"1") and not reason
    if reason == b"stop: end" or verb == b"step" and is_short:
        moves.ask(b"forward", b"at end")
    elif reason == b"stop: start" or verb == b"back" and is_short:
        moves.ask(b"back", b"at start")


def take_answer(words: Sequence[bytes], answers: Answers, moves: Moves, stops: set[bytes]) -> None:
    """One command with its answer."""
    verb = words[0]
    if answers.has(rb"no: .*"):
        refusal = answers.take()
        if refusal not in NOT_ASKED:
            take_refusal(words, refusal[len(b"no: "):], moves)
    elif verb in (b"step", b"accesses", b"counts", b"frames", b"back", b"continue", b"reverse"):
        if verb in SHOWN:
            answers.take_shown(SHOWN[verb])
        take_way(words, answers, moves)
    elif verb in (b"set", b"poke"):
        moves.made(value_line(words))
        if answers.take_place() != moves.position:
            raise ValueError("a poke that is no move")
    elif verb == b"temps" and not answers.has(rb"none"):
        answers.take_temporaries()
    elif verb == b"stops" and stops:
        for _ in stops:
            answers.take()
    else:
        number = answers.take().split()[1:2]
        if verb in (b"break", b"watch"):
            stops.add(number[0])
        elif verb == b"delete":
            stops.discard(number[0])
        elif verb in SHOWN:
            answers.take_shown(SHOWN[verb])


def lines_of(items: list[bytes]) -> bytes:
    return b"".join(item + b"\n" for item in items)


def moves_of(script: bytes, transcript: bytes) -> tuple[bytes, bytes]:
    """What the workbench is asked of a session, and what it must tell."""
    answers, moves = Answers(transcript.splitlines()[2:]), Moves()
    stops: set[bytes] = set()
    for line in script.split(b"\n"):
        words = re.findall(rb"[^ \t\r]+", line)
        if words == [b"quit"] and len(line) <= 256:
            break
        if words or len(line) > 256:
            take_answer(words or [b""], answers, moves, stops)
    if answers.at < len(answers.lines):
        raise ValueError("the transcript has more answers than the script has commands")
    return lines_of(moves.asked), lines_of(moves.told)
