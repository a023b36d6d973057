"""setjmp and longjmp: programs whose output is worked out by hand, and random ones against exceptions of Python."""
import random
from dataclasses import dataclass
from typing import NamedTuple

from .running import Results, Running, differ
from .telling import TELL

PLACES_TOLD = TELL + """
data $place = { z 200 }
data $other = { z 200 }
"""
# Through three calls of one function, and past a phi; what a zero becomes; again and again.
DEEP = PLACES_TOLD + """
function w $deep(w %n) {
@start
	jnz %n, @more, @end
@more
	%m =w sub %n, 1
	%r =w call $deep(w %m)
	call $tell.w(w 99)
	jmp @join
@end
	call $tell.w(w %n)
	call $longjmp(l $place, w 0)
	call $tell.w(w 98)
@join
	%s =w phi @more %r, @end 4
	ret %s
}
export function w $main() {
@start
	%rounds =l alloc4 4
	storew 0, %rounds
	%v =w call $setjmp(l $place)
	call $tell.w(w %v)
	%k =w loadw %rounds
	%k =w add %k, 1
	storew %k, %rounds
	%is.last =w ceqw %k, 4
	jnz %is.last, @back, @go
@go
	%x =w call $deep(w 3)
	call $tell.w(w 97)
@back
	%sum =w add %k, %v
	ret %sum
}
"""
# Out of the first comparison of qsort, by another name; a function between gives an aggregate. The inner setjmp isn't
# gone to.
SORTED = PLACES_TOLD + """
type :pair = { l, w }
data $numbers = { w 3 1 2 }
function w $compare(l %a, l %b) {
@start
	%x =w loadw %a
	call $tell.w(w %x)
	call $siglongjmp(l $place, w 8)
	ret 0
}
function :pair $sorts(l %compare) {
@start
	%inner =w call $_setjmp(l $other)
	call $qsort(l $numbers, l 3, l 4, l %compare)
	call $tell.w(w 96)
	%p =l alloc8 16
	storel 1, %p
	ret %p
}
export function w $main() {
@start
	%v =w call $sigsetjmp(l $place, w 1)
	jnz %v, @back, @go
@go
	%p =:pair call $sorts(l $compare)
	call $tell.w(w 95)
@back
	ret %v
}
"""
# To a call that is over, and without a result.
OVER = PLACES_TOLD + """
function $sets() {
@start
	%v =w call $setjmp(l $place)
	ret
}
export function w $main() {
@start
	call $sets()
	call $_longjmp(l $place, w 2)
	ret 1
}
"""
# No longjmp: 0, and no question behind any call.
ALONE = PLACES_TOLD + """
export function w $main() {
@start
	%v =w call $setjmp(l $place)
	call $tell.w(w %v)
	%w =w add %v, 3
	ret %w
}
"""


class Case(NamedTuple):
    name: str
    text: str
    end: str
    output: str


CASES = (
    Case("through calls, again and again", DEEP, "done 5", "0 0 1 0 1 0 1 "),
    Case("out of a comparison", SORTED, "done 8", "1 "),
    Case("to a call that is over", OVER, "fault halted", ""),
    Case("setjmp alone", ALONE, "done 3", "0 "),
)
PLACES, FUNCTIONS, MOST_DEPTH = 3, 4, 5


@dataclass
class Act:
    """Something that a function does: `tell`, `call` and `by address` of a function, `go` to a place if a call has it,
    and `set` it with what follows inside, up to so many rounds."""

    kind: str
    number: int
    inside: list["Act"]


class Gone(Exception):
    """A longjmp on its way."""

    def __init__(self, token: int, value: int):
        super().__init__()
        self.token, self.value = token, value


def made(choice: random.Random, nested: int) -> list[Act]:
    acts = []
    for _ in range(choice.randrange(1, 4)):
        kind = choice.choice(("tell", "call", "call", "by address", "go", "go", "set"))
        if kind == "set" and nested == 2:
            kind = "tell"
        number = choice.randrange({"tell": 50, "call": FUNCTIONS, "by address": FUNCTIONS}.get(kind, PLACES))
        acts.append(Act(kind, number, made(choice, nested + 1) if kind == "set" else []))
    return acts


class Play:
    """A program as Python plays it."""

    def __init__(self, bodies: list[list[Act]]):
        self.bodies, self.told, self.tokens = bodies, "", 0
        self.budget = 60
        # Of each place: the number of its setjmp, and how deep the call is that has it, or 0.
        self.places = [(0, 0)] * PLACES

    def tell(self, number: int) -> None:
        self.told += f"{number} "

    def enter(self, function: int, depth: int) -> None:
        if depth > MOST_DEPTH:
            return
        self.tell(100 + function)
        self.acts(self.bodies[function], depth)
        self.places = [(token, 0 if held == depth else held) for token, held in self.places]

    def acts(self, acts: list[Act], depth: int) -> None:
        for act in acts:
            # As many acts as this, so that a run ends.
            self.budget -= 1
            if self.budget < 0:
                continue
            if act.kind == "tell":
                self.tell(act.number)
            elif act.kind == "set":
                self.set(act, depth)
            elif act.kind == "go":
                token, held = self.places[act.number]
                if held:
                    raise Gone(token, self.budget % 3)
            else:
                self.enter(act.number, depth + 1)

    def set(self, act: Act, depth: int) -> None:
        self.tokens += 1
        token, value = self.tokens, 0
        self.places[act.number] = (token, depth)
        while True:
            self.tell(value)
            try:
                self.acts(act.inside, depth)
                self.places[act.number] = (token, 0)
                return
            except Gone as gone:
                if gone.token != token:
                    raise
                value = gone.value or 1
                self.places = [(other, held if held <= depth else 0) for other, held in self.places]


class Text:
    """The same program as a text."""

    def __init__(self, bodies: list[list[Act]]):
        self.lines: list[str] = []
        self.made = 0
        for number, body in enumerate(bodies):
            self.function(number, body)

    def fresh(self) -> int:
        self.made += 1
        return self.made

    def function(self, number: int, body: list[Act]) -> None:
        self.lines += [f"function $f{number}(w %d) {{", "@start", f"\t%deep =w csgtw %d, {MOST_DEPTH}",
                       "\tjnz %deep, @over, @begin", "@begin", f"\tcall $tell.w(w {100 + number})", "\t%e =w add %d, 1"]
        self.acts(body)
        self.lines += ["\tcall $end(w %d)", "@over", "\tret", "}"]

    def acts(self, body: list[Act]) -> None:
        for act in body:
            label = self.fresh()
            self.lines += [f"\t%b{label} =w call $budget()", f"\tjnz %b{label}, @do{label}, @done{label}",
                           f"@do{label}"]
            if act.kind == "tell":
                self.lines.append(f"\tcall $tell.w(w {act.number})")
            elif act.kind == "call":
                self.lines.append(f"\tcall $f{act.number}(w %e)")
            elif act.kind == "by address":
                self.lines += [f"\t%p{label} =l loadl $p{act.number}", f"\tcall %p{label}(w %e)"]
            elif act.kind == "go":
                self.lines += [f"\t%h{label} =w loadw $held{act.number}",
                               f"\tjnz %h{label}, @go{label}, @done{label}",
                               f"@go{label}", f"\t%l{label} =w loadw $left", f"\t%v{label} =w rem %l{label}, 3",
                               f"\tcall $longjmp(l $place{act.number}, w %v{label})", "\tcall $tell.w(w 90)"]
            else:
                self.lines += [f"\tstorew %d, $held{act.number}", f"\t%v{label} =w call $setjmp(l $place{act.number})",
                               "\tcall $kept(w %d)", f"\tcall $tell.w(w %v{label})"]
                self.acts(act.inside)
                self.lines.append(f"\tstorew 0, $held{act.number}")
            self.lines.append(f"@done{label}")

    def text(self) -> str:
        data = [f"data $place{number} = {{ z 200 }}\ndata $held{number} = {{ w 0 }}" for number in range(PLACES)]
        data += [f"data $p{number} = {{ l $f{number} }}" for number in range(FUNCTIONS)]
        ends, kept = "", ""
        for number in range(PLACES):
            ends += f"\t%h{number} =w loadw $held{number}\n\t%is{number} =w cnew %h{number}, %d\n" \
                f"\t%k{number} =w mul %h{number}, %is{number}\n\tstorew %k{number}, $held{number}\n"
            kept += f"\t%h{number} =w loadw $held{number}\n\t%is{number} =w cslew %h{number}, %d\n" \
                f"\t%k{number} =w mul %h{number}, %is{number}\n\tstorew %k{number}, $held{number}\n"
        own = f"""
data $left = {{ w 60 }}
function w $budget() {{
@start
	%l =w loadw $left
	%m =w sub %l, 1
	storew %m, $left
	%is =w csgew %m, 0
	ret %is
}}
function $end(w %d) {{
@start
{ends}	ret
}}
function $kept(w %d) {{
@start
{kept}	ret
}}
export function w $main() {{
@start
	call $f0(w 1)
	ret 0
}}
"""
        return PLACES_TOLD + "\n".join(data) + own + "\n".join(self.lines) + "\n"


def random_fault(running: Running, seed: int) -> str | None:
    choice = random.Random(seed)
    bodies = [made(choice, 0) for _ in range(FUNCTIONS)]
    play = Play(bodies)
    play.enter(0, 1)
    lowered = running.lower_here(Text(bodies).text())
    if isinstance(lowered, str):
        return lowered
    run = running.run(lowered.text)
    return differ("end", "done 0", run.end) or differ("output", play.told, run.output)


def results(running: Running) -> Results:
    for case in CASES:
        lowered = running.lower_here(case.text)
        if isinstance(lowered, str):
            yield f"jumps/{case.name}", lowered
        else:
            run = running.run(lowered.text)
            yield f"jumps/{case.name}", differ("end", case.end, run.end) or differ("output", case.output, run.output)
    yield "jumps/no suspicion", running.suspicion(DEEP)
    for seed in range(40):
        yield f"jumps/random {seed}", random_fault(running, seed)
