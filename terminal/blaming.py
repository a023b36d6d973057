"""By which instruction two runs part: what the event comes of in each, followed side by side from cause to cause, as
long as both make what differs alike (docs/COMPARE.md)."""
from __future__ import annotations

import re
from collections import Counter
from dataclasses import dataclass
from itertools import islice
from typing import Iterator

from .answers import Place, live
from .causes import Question
from .expressions import Wrong
from .frames import allocations_of
from .levels import own_hits
from .samecalls import SameCalls, end_of_call
from .scratch import Refused
from .shell import Shell, command
from .text import LOADED, STORED, Instruction
from .timeline import Timeline
from .values import is_stack
from .ways import blocks_of

MOST_STEPS = 500
# How many times that a call comes to a place are looked at.
MOST_TIMES = 10_000
# How many blocks of a call are compared with those of the other run.
MOST_BLOCKS = 100_000
# How many steps are shown from the beginning and from the end.
MOST_SHOWN = 5
SIDES, SINCE_START, UNSET = ("good", "bad"), "so since the start", "is unset"
# How an address on the stack is named: by the frame, its function, the temporary and the offset.
ON_STACK = re.compile(r"frame \d+ (\$\S+) alloc (\S+?)\+(\d+)$")
# What a value is, however a text was compiled: a number, or what an address points to.
Meaning = tuple[object, ...]


@dataclass(frozen=True)
class Part:
    """Something that a move reads: in words, what it is, and what can be asked about it, unless it is a constant."""
    text: str
    meaning: Meaning
    question: Question | None = None


@dataclass(frozen=True)
class Source:
    """What made a value, in one of the runs: the state from which the move goes on, its instruction, and which bytes it
    wrote of those that are asked about."""
    shell: Shell
    kind: str
    at: Timeline
    instruction: Instruction | None = None
    wanted: tuple[int, int] | None = None
    index: int = 0
    # The state in which what it made was read, of what was stored.
    read: Timeline | None = None

    def told(self) -> str:
        """The move, with its instruction."""
        causes = self.shell.causes
        if not self.instruction:
            return self.kind
        place, jump = causes.innermost(self.at)
        function = self.shell.session.program.functions[place.function]
        phi = self.instruction if self.kind == "phi" else None
        line = causes.line_told(self.at, place, jump).strip()
        return f"line {phi.line}: {causes.lowered.written(function, phi)}, by {line}" if phi else line

    def written(self) -> str:
        """The instruction as the text has it, with its line."""
        place, instruction = self.shell.causes.innermost(self.at)
        shown = self.instruction or instruction
        function = self.shell.session.program.functions[place.function]
        return f"line {shown.line}: {self.shell.causes.lowered.written(function, shown)}"

    def value(self, text: str, type: str) -> Part:
        """An operand of the instruction."""
        causes, width = self.shell.causes, "l" if type == "l" else "w"
        value = causes.operand_value(text, self.at)
        meant = meaning(self.shell, value, width, self.at)
        if text.startswith("%"):
            question = causes.temporary(text, self.at)
            return Part(question.text, meant, question)
        return Part(text, meant)

    def memory(self) -> list[Part]:
        """The bytes that a load, a blit or a function that copies takes from memory."""
        if not self.instruction or self.kind == "phi":
            return []
        causes = self.shell.causes
        asked = causes.bytes_read(self.at, self.instruction, self.wanted) + \
            causes.bytes_copied(self.at, self.instruction, self.wanted)
        return [Part(question.text, of_bytes(self.shell, question), question) for question in asked]

    def operands(self) -> list[Part]:
        assert self.instruction
        if self.kind == "argument":
            chosen = [self.instruction.operands[self.index]] if self.index < len(self.instruction.operands) else []
        elif self.kind == "phi":
            chosen = [self.instruction.operands[self.instruction.labels.index(self.place.label)]]
        else:
            chosen = list(self.instruction.operands)
        return [self.value(operand.text, operand.type) for operand in chosen]

    @property
    def place(self) -> Place:
        """Where the move begins; of a phi that is the block that the jump left."""
        return self.shell.frames.where(self.at)[0]

    @property
    def deed(self) -> tuple[object, ...]:
        """What an instruction does, apart from what it reads."""
        it = self.instruction
        if not it:
            return (self.kind,)
        # A word that is loaded is the same, whatever sign it is loaded with into a word.
        name = "loadw" if it.operation in ("loadsw", "loaduw") and it.type == "w" else it.operation
        return (self.kind, name, it.type if it.operation not in STORED else None, len(it.operands), it.count)


def meaning(shell: Shell, value: int | None, width: str, at: Timeline) -> Meaning:
    """What a value is, apart from where a compiler laid out memory."""
    if value is None:
        return ("unset",)
    if width != "l":
        return ("number", value & 0xffff_ffff)
    program = shell.session.program
    if is_stack(value):
        found = ON_STACK.search(shell.frames.name(value, "l", at) or "")
        return ("stack", found[1], known_slot(shell, found[1], found[2]), int(found[3])) if found else ("stack",)
    data = program.object_at(value)
    if data and value >= data.address:
        return ("data", data.name, value - data.address)
    return ("function", program.calls[value]) if value in program.calls else ("number", value)


def known_slot(shell: Shell, function: str, name: str) -> str:
    """A slot by its name, if it has that in both texts."""
    both = [each.session.program for each in (shell, shell.other) if each]
    return name if all(function in program.functions and name in allocations_of(program, function)
                       for program in both) else ""


def of_bytes(shell: Shell, question: Question) -> Meaning:
    """The same of bytes of memory."""
    found = live(shell.session.scratch.go(question.at).memory(question.address, question.count))
    if found is None:
        return ("not live",)
    if question.count == 8:
        return meaning(shell, int.from_bytes(found, "little"), "l", question.at)
    return ("bytes", found)


def of_temporary(shell: Shell, question: Question) -> Source:
    """What set a temporary."""
    causes = shell.causes
    at = shell.frames.before_end(question.at)
    function = shell.frames.where(at)[0].function
    setter = causes.setter(question.name, function, at)
    there = at.at(setter.position)
    if setter.kind == "unset":
        return Source(shell, f"{question.name} {UNSET}: nothing set it in this call of {function}", at)
    if setter.kind in ("poke", "given"):
        told = {"poke": "by hand", "given": f"{question.name} is an argument of the command line"}
        return Source(shell, told[setter.kind], there)
    if setter.kind == "phi":
        return Source(shell, "phi", there, setter.instruction)
    call, callee = causes.call_in_own(there)
    instruction = causes.innermost(call)[1]
    if setter.kind == "parameter" and not callee:
        names = [parameter for _, parameter in shell.session.program.functions[function].parameters]
        return Source(shell, "argument", call, instruction, index=names.index(question.name) + 1)
    return Source(shell, "set", call, instruction)


def of_memory(shell: Shell, question: Question) -> Source:
    """What wrote bytes last."""
    causes = shell.causes
    writers, left, _ = causes.writers(question.address, question.count, question.at)
    if not writers or left:
        return Source(shell, f"{question.text} {SINCE_START}: {causes.data_told(question.address)}", question.at,
                      read=question.at)
    position, span = max(writers, key=lambda each: each[0])
    if question.at.poke_at(position):
        return Source(shell, "by hand", question.at.at(position), read=question.at)
    call, _ = causes.call_in_own(question.at.at(position))
    wanted = question.address + min(span), max(span) - min(span) + 1
    return Source(shell, "stored", call, causes.innermost(call)[1], wanted, read=question.at)


def stood_at(shell: Shell, at: Timeline, place: Place) -> Iterator[int]:
    """The positions up to a state at which its innermost call stood at a place, the last one first, so many at most."""
    wanted, here = (place.label, place.index), shell.frames.where(at)[0]
    if (here.label, here.index) == wanted:
        yield at.position
    hits = own_hits(shell.session.program, shell.session.scratch, at, place.function, [wanted])
    yield from (position for position, stood in islice(hits, MOST_TIMES) if stood == wanted)


class Blame:
    """The walk from the event back, over both runs."""

    def __init__(self, good: Shell, bad: Shell):
        self.shells = good, bad
        self.steps: list[list[str]] = []
        self.last: tuple[Source, Source] | None = None
        # The states in which the walk has been, in each run.
        self.trail: tuple[list[Timeline], list[Timeline]] = ([], [])
        self.seen: Counter[tuple[int, int, str]] = Counter()
        self.calls = SameCalls()
        self.ways: dict[tuple[int, Timeline], list[tuple[int, str]]] = {}

    def walked(self, good: Timeline, bad: Timeline) -> str:
        """Follows what differs from the states before the moves by which the runs part; in words, where that ends."""
        pair = self.begun(good, bad)
        for _ in range(MOST_STEPS):
            if isinstance(pair, str):
                return pair
            self.last = pair
            for trail, source in zip(self.trail, pair):
                trail.append(source.at)
            key = (pair[0].at.position, pair[1].at.position, pair[0].kind)
            self.seen[key] += 1
            if self.seen[key] > 1:
                return "the walk came here before"
            pair = self.step(*pair)
        return pair if isinstance(pair, str) else "there are more steps than are followed"

    def begun(self, good: Timeline, bad: Timeline) -> tuple[Source, Source] | str:
        """What both do there, where that is the same instruction; else where their ways parted."""
        made = self.sources("event", good, bad)
        return made if self.is_alike(*made) else self.diverged(good, bad)

    def sources(self, kind: str, *states: Timeline) -> tuple[Source, Source]:
        """The instruction that comes next, in each run."""
        one, two = (Source(shell, kind, at, shell.causes.innermost(at)[1]) for shell, at in zip(self.shells, states))
        return one, two

    def is_alike(self, good: Source, bad: Source) -> bool:
        """Whether both do the same in one block of one function."""
        here = good.place, bad.place
        return good.deed == bad.deed and here[0].function == here[1].function and here[0].label == here[1].label

    def diverged(self, good: Timeline, bad: Timeline) -> tuple[Source, Source] | str:
        """Where the ways of the innermost call parted that both runs are in."""
        states = good, bad
        names = [[frame.function for frame in shell.frames.where(at)][::-1] for shell, at in zip(self.shells, states)]
        common = next((index for index, (one, two) in enumerate(zip(*names)) if one != two), min(map(len, names)))
        if not common:
            return "they are in no call of the same function"
        one, two = (shell.frames.frame(at, len(each) - common) for shell, at, each in zip(self.shells, states, names))
        return self.parted(names[0][common - 1], one, two, ends=states)

    def parted(self, function: str, *states: Timeline,
               ends: tuple[Timeline, ...] = ()) -> tuple[Source, Source] | str:
        """The first jump by which two calls of a function went other ways, or what they did otherwise in a block. The
        ends are states that may be inside further calls from there."""
        for trail, at in zip(self.trail, states):
            trail.append(at)
        ways = [self.way(shell, at) for shell, at in zip(self.shells, states)]
        if not all(self.is_whole(shell, function, way) for shell, way in zip(self.shells, ways)):
            return f"the way through {function} is too long to be followed"
        part = part_of(ways)
        if part == min(map(len, ways)):
            return self.stayed(function, ways, part, *states, ends=ends)
        jumps = [at.at(shell.causes.came_by(at, way[part][0])) for shell, at, way in zip(self.shells, states, ways)]
        self.steps.append([f"  after {part} {'block' if part == 1 else 'blocks'} of {function} good went to "
                           f"{ways[0][part][1]}, and bad to {ways[1][part][1]}"])
        return self.sources("jump", *jumps)

    def stayed(self, function: str, ways: list[list[tuple[int, str]]], part: int,
               *states: Timeline, ends: tuple[Timeline, ...]) -> tuple[Source, Source] | str:
        """Both came the same way to a block, from which one of them goes on: what the other one does there last, and
        that in the run that goes on."""
        here = [shell.frames.where(at)[0] for shell, at in zip(self.shells, states)]
        short = min(range(2), key=lambda side: (len(ways[side]), here[side].index))
        label, index = here[short].label, here[short].index
        there = self.stood(1 - short, function, (label, index), ways[1 - short], part, states[1 - short])
        both = (states[0], there) if short == 0 else (there, states[1])
        if both[0] and both[1]:
            made = self.sources("there", both[0], both[1])
            if self.is_alike(*made):
                return self.inside(short, made, ends) or made
        self.last = self.sources("there", *states)
        return f"both came the same way to {label} of {function}, and do something else there"

    def inside(self, short: int, made: tuple[Source, Source],
               ends: tuple[Timeline, ...]) -> tuple[Source, Source] | str | None:
        """Where one of the runs goes on in a call that both make from there, and that is over in the other one: where
        the ways through that call parted."""
        if not ends:
            return None
        shell, other, at = self.shells[short], self.shells[1 - short], made[1 - short].at
        end = shell.frames.before_end(ends[short])
        frames = shell.frames.where(end)
        depth = len(frames) - len(shell.frames.where(made[short].at))
        over = end_of_call(other, at, other.parted) if depth > 0 and other.parted else None
        if not over or other.frames.where(over)[0].function != frames[depth - 1].function:
            return None
        calls = [shell.frames.frame(end, depth - 1), over]
        self.tell(*made, [])
        states = calls if short == 0 else calls[::-1]
        return self.parted(frames[depth - 1].function, *states, ends=(end, over) if short == 0 else (over, end))

    def stood(self, side: int, function: str, place: tuple[str, int], way: list[tuple[int, str]], part: int,
              at: Timeline) -> Timeline | None:
        """The state of a call in which it stood at a place of a block, when it went through that block."""
        shell, begun = self.shells[side], way[part - 1][0]
        here = shell.frames.where(at)[0]
        if place[0] not in shell.session.program.functions[function].blocks:
            return None
        found = [at.position] if (here.label, here.index) == place else []
        for position, stood in own_hits(shell.session.program, shell.session.scratch, at, function, [place]):
            if position < begun:
                break
            if stood == place and (part == len(way) or position < way[part][0]):
                found.append(position)
        return at.at(min(found)) if found else None

    def top(self, side: int, at: Timeline) -> Timeline:
        """The state from which the walk came into the call that is the innermost one there."""
        frames = self.shells[side].frames
        entry, function = frames.entry(at), frames.where(at)[0].function
        return next((each for each in self.trail[side] if each.position >= entry.position
                     and frames.where(each)[0].function == function and frames.entry(each) == entry), at)

    def in_other_round(self, good: Source, bad: Source) -> tuple[Source, Source] | str | None:
        """Where one instruction ran in other rounds of a loop: where the ways of the calls parted before."""
        if not self.is_alike(good, bad) or not good.instruction:
            return None
        tops = self.top(0, good.at), self.top(1, bad.at)
        ways = [self.way(shell, at) for shell, at in zip(self.shells, tops)]
        label, both = good.place.label, [set(shell.session.program.functions[good.place.function].blocks)
                                         for shell in self.shells]
        if both[0] != both[1] or not all(self.is_whole(shell, good.place.function, way)
                                         for shell, way in zip(self.shells, ways)):
            return None
        rounds = [sum(position <= source.at.position for position, came in way if came == label)
                  for way, source in zip(ways, (good, bad))]
        part = part_of(ways)
        if rounds[0] == rounds[1] or any(part >= len(way) or way[part][0] > source.at.position
                                         for way, source in zip(ways, (good, bad))):
            return None
        self.tell(good, bad, [])
        return self.parted(good.place.function, *tops)

    def way(self, shell: Shell, at: Timeline) -> list[tuple[int, str]]:
        """The blocks of a call up to a state, each with its position."""
        key = self.shells.index(shell), at
        if key not in self.ways:
            function = shell.session.program.functions[shell.frames.where(at)[0].function]
            self.ways[key] = blocks_of(shell, function, at, MOST_BLOCKS)
        return self.ways[key]

    @staticmethod
    def is_whole(shell: Shell, function: str, way: list[tuple[int, str]]) -> bool:
        """Whether a way begins where its call does."""
        return bool(way) and way[0][1] == shell.session.program.functions[function].first

    def twins(self, made: Source, other: Shell) -> tuple[Source, Source] | None:
        """A store and the same one in the other run: the one that ran as often before in the same call."""
        place, functions = made.place, other.session.program.functions
        if place.function not in functions or place.label not in functions[place.function].blocks or not other.parted:
            return None
        call = self.calls.same(made.shell, made.at, other, other.parted)
        if not call or not call.is_innermost:
            return None
        count = len(list(stood_at(made.shell, made.at, place)))
        found = sorted(stood_at(other, call.there, place))
        if not 0 < count < MOST_TIMES or len(found) < count:
            return None
        pair = self.sources("stored", *self.in_order(made.shell, made.at, call.there.at(found[count - 1])))
        return pair if self.is_alike(*pair) else None

    def elsewhere(self, made: Source, other: Shell) -> tuple[Source, Source] | None:
        """The same store in the other run, if it went to another address there."""
        pair = self.twins(made, other)
        if not pair or pair[0].operands()[1].meaning == pair[1].operands()[1].meaning:
            return None
        self.steps.append([f"  the {self.side(other)} run stored it elsewhere"])
        return pair

    def by_others(self, good: Source, bad: Source) -> tuple[Source, Source] | str | None:
        """Of stores by two instructions: the one that went elsewhere in the other run; or if both runs made one of the
        two, the other one, which only one run made."""
        there = self.elsewhere(good, bad.shell) or self.elsewhere(bad, good.shell)
        if there:
            return there
        for one, other in ((good, bad), (bad, good)):
            if other.read and one.read and self.twins(one, other.shell) and not self.twins(other, one.shell):
                return self.alone(other, one.shell, one.read)
        return None

    def in_order(self, shell: Shell, at: Timeline, there: Timeline) -> tuple[Timeline, Timeline]:
        """A state of a run and one of the other run, that of the good one first."""
        return (at, there) if shell is self.shells[0] else (there, at)

    def side(self, shell: Shell) -> str:
        return SIDES[self.shells.index(shell)]

    def alone(self, made: Source, other: Shell, until: Timeline) -> tuple[Source, Source] | str:
        """What one of the runs wrote and the other didn't: where the ways parted of the call that wrote it and the same
        call in the other run; or if that has none, of the call from which it comes."""
        told = f"only the {self.side(made.shell)} run had written this"
        call = self.calls.same(made.shell, made.at, other, until) \
            if made.place.function in other.session.program.functions else None
        if not call:
            return told
        self.steps.append([f"  {told}: #{made.at.position}  {made.written()}"])
        return self.parted(call.function, *self.in_order(made.shell, call.at, call.there),
                           ends=self.in_order(made.shell, made.at, until))

    def strayed(self, good: Source, bad: Source) -> tuple[Source, Source] | str | None:
        """Of stores by one instruction in calls that aren't the same in both runs: the one that the other run made
        elsewhere, or not at all."""
        if not good.read or not bad.read:
            # The same call was looked for already.
            return None
        call = self.calls.same(good.shell, good.at, bad.shell, bad.read)
        if call and call.is_innermost and bad.shell.frames.entry(call.there) == bad.shell.frames.entry(bad.at):
            return None
        there = self.elsewhere(good, bad.shell) or self.elsewhere(bad, good.shell)
        if there:
            return there
        one, none = (bad, good) if call and call.is_innermost else (good, bad)
        return self.alone(one, none.shell, none.read or none.at)

    def step(self, good: Source, bad: Source) -> tuple[Source, Source] | str:
        """The next cause of what differs, or by what the runs part."""
        if not good.instruction or not bad.instruction:
            one = good if good.instruction else bad
            none = bad if one is good else good
            if one.kind == "stored" and SINCE_START in none.kind:
                return self.elsewhere(one, none.shell) or self.alone(one, none.shell, none.read or none.at)
            if UNSET in none.kind and good.place.function == bad.place.function:
                return self.parted(good.place.function, self.top(0, good.at), self.top(1, bad.at))
            return "what differs was made otherwise"
        if good.kind == bad.kind == "stored":
            is_one = self.is_alike(good, bad) and good.place.index == bad.place.index
            there = self.strayed(good, bad) if is_one else self.by_others(good, bad)
            if there:
                return there
        there = self.in_other_round(good, bad)
        if there:
            return there
        here = good.place, bad.place
        blocks = [shell.session.program.functions[here[0].function].blocks if here[0].function in
                  shell.session.program.functions else {} for shell in self.shells]
        if here[0].function == here[1].function and here[0].label != here[1].label and \
                all(place.label in each for place in here for each in blocks):
            self.tell(good, bad, [])
            return self.parted(here[0].function, self.top(0, good.at), self.top(1, bad.at))
        if good.deed != bad.deed:
            return self.other_deeds(*self.first_times(good, bad))
        parts = list(zip(good.operands() + good.memory(), bad.operands() + bad.memory()))
        differing = [pair for pair in parts if pair[0].meaning != pair[1].meaning]
        if not differing:
            return "what they read is the same, and what comes of it isn't" if parts else "they do the same here"
        meanings = [[part.meaning for part in side] for side in zip(*parts)]
        if len(differing) > 1 and Counter(meanings[0]) == Counter(meanings[1]):
            return "they read the same values in another order"
        constants = [pair for pair in differing if not pair[0].question or not pair[1].question]
        if constants and len(constants) == len(differing):
            return f"the texts have other operands: {constants[0][0].text} in good, {constants[0][1].text} in bad"
        return self.followed(good, bad, self.chosen(good, [pair for pair in differing if pair not in constants]))

    def chosen(self, good: Source, differing: list[tuple[Part, Part]]) -> tuple[Part, Part]:
        """Which of several differences is followed: of a load or a store where it goes, and then what it takes."""
        assert good.instruction
        if good.instruction.operation in LOADED:
            return next((pair for pair in differing if pair[0].question and pair[0].question.of == "temporary"),
                        differing[0])
        return differing[-1] if good.instruction.operation in STORED else differing[0]

    def followed(self, good: Source, bad: Source, pair: tuple[Part, Part]) -> tuple[Source, Source]:
        """What made the two values."""
        self.tell(good, bad, [pair])
        one, two = (part.question for part in pair)
        assert one and two
        if one.of == "memory" and two.of == "memory" and one.count == two.count:
            # What wrote the first byte that differs is what matters.
            offset = unlike(live_bytes(self.shells[0], one), live_bytes(self.shells[1], two))
            one, two = one_byte(one, offset), one_byte(two, offset)
        return made_by(self.shells[0], one), made_by(self.shells[1], two)

    def first_times(self, good: Source, bad: Source) -> tuple[Source, Source]:
        """Of instructions that differ at one place of both texts, the first time that each ran in its call: there what
        they read has not been changed by themselves."""
        here = good.place, bad.place
        places = [(place.function, place.label, place.index) for place in here]
        if places[0] != places[1] or good.kind == "phi" or bad.kind == "phi":
            return good, bad
        place, states = (here[0].label, here[0].index), []
        for shell, source in zip(self.shells, (good, bad)):
            hits = own_hits(shell.session.program, shell.session.scratch, source.at, here[0].function, [place])
            found = [position for position, stood in islice(hits, MOST_TIMES) if stood == place]
            states.append(source.at.at(min([source.at.position, *found])))
        self.last = self.sources(good.kind, *states)
        return self.last

    def other_deeds(self, good: Source, bad: Source) -> str:
        """What two instructions differ in: what they do with the same values, or those too."""
        read = [Counter(part.meaning for part in source.operands() + source.memory() if part.question)
                for source in (good, bad)]
        if read[0] == read[1]:
            return "the texts make something else of the same values"
        return "other instructions make it here, of other values: the texts differ in this, or in what comes before"

    def tell(self, good: Source, bad: Source, pairs: list[tuple[Part, Part]]) -> None:
        """A step of the walk: the instruction, and what differs of what it reads."""
        written, moves = (good.written(), bad.written()), (good.at.position, bad.at.position)
        if written[0] == written[1]:
            where = f"#{moves[0]}" if moves[0] == moves[1] else f"#{moves[0]} in good, #{moves[1]} in bad"
            told = [f"  {where}  {written[0]}"]
        else:
            told = [f"  {side}: #{move}  {line}" for side, move, line in zip(SIDES, moves, written)]
        self.steps.append([*told, *(f"    {differing(one.text, two.text)}" for one, two in pairs)])


def part_of(ways: list[list[tuple[int, str]]]) -> int:
    """The first block in which two ways differ, or the number of those that both have."""
    return next((index for index, (one, two) in enumerate(zip(*ways)) if one[1] != two[1]), min(map(len, ways)))


def made_by(shell: Shell, question: Question) -> Source:
    return of_memory(shell, question) if question.of == "memory" else of_temporary(shell, question)


def live_bytes(shell: Shell, question: Question) -> list[int | None]:
    return shell.session.scratch.go(question.at).memory(question.address, question.count)


def unlike(good: list[int | None], bad: list[int | None]) -> int:
    """The first byte that differs."""
    return next((index for index, (one, two) in enumerate(zip(good, bad)) if one != two), 0)


def one_byte(question: Question, offset: int) -> Question:
    return Question("memory", question.at, question.text, address=question.address + offset, count=1)


def differing(good: str, bad: str) -> str:
    """Two values, with the name that they have once where it is the same."""
    name, _, value = good.partition(" = ")
    other, _, changed = bad.partition(" = ")
    if name == other and value and changed:
        return f"{name} = {value} in good, {changed} in bad"
    return f"{good} in good, {bad} in bad"


def shortened(steps: list[list[str]]) -> list[str]:
    """The steps, without those in the middle of a long walk."""
    left_out = len(steps) - 2 * MOST_SHOWN
    if left_out > 1:
        middle = [f"  .. {left_out} steps, which `blame all` shows"]
        steps = [*steps[:MOST_SHOWN], middle, *steps[-MOST_SHOWN:]]
    return [line for step in steps for line in step]


@command("blame", "blame [all]", is_repeated=False)
def blame(shell: Shell, rest: str) -> None:
    """Where two texts are compared: follows what the event comes of in both runs, side by side, to the instruction by
    which they part; with `all` every step is shown. `why N` and `goto why` go on from there, on both sides."""
    if rest.strip() not in ("", "all"):
        raise Wrong(f"{rest.strip()}: all or nothing was expected")
    if shell.other is None:
        raise Refused("there is no other run here: `./qrev-compare GOOD BAD` has two")
    good, bad = (shell, shell.other) if shell.is_good else (shell.other, shell)
    if not good.parted or not bad.parted:
        raise Refused("one of the runs has no event here, so there is nothing to follow")
    walk = Blame(good, bad)
    verdict = walk.walked(good.parted, bad.parted)
    steps = [line for step in walk.steps for line in step] if rest.strip() else shortened(walk.steps)
    shell.say("from the event back, by what differs:", *steps)
    if walk.last:
        shell.say(f"{verdict}:", *(f"  {side}: {source.told()}" for side, source in zip(SIDES, walk.last)))
        for source in walk.last:
            if source.instruction:
                source.shell.chain = [source.shell.causes.executed(source.at, "the runs part by", source.wanted)]
        parts = shell.chain[-1].shown()[2:] if shell.chain else []
        shell.say(*parts)
    else:
        shell.say(f"{verdict}.")
