"""The program that tokens spell, or the fault of tokens that spell none.

The grammar can be read from the left with one token of lookahead, and whatever was read so far can be completed to a
program. So the first token that can't be read is the one that is refused.
"""
from __future__ import annotations

from typing import NoReturn

from .tokens import Refused, Token
from .tree import ONE, STORES, TWO, TYPES, Block, Data, Func, Inst, Item, Items, Jump, Operand, Phi, Program

LEFT_OUT = set(("type env thread vastart vaarg dbgfile dbgloc cast s d loads loadd stores stored exts truncd "
                "stosi stoui dtosi dtoui swtof uwtof sltof ultof").split())
LEFT_OUT |= {f"c{relation}{letter}" for relation in "eq ne le lt ge gt o uo".split() for letter in "sd"}


def is_left_out(token: Token) -> bool:
    """Whether a token belongs to a part of QBE's language that this one leaves out."""
    return token.kind in ("aggregate", "dots") or token.kind == "word" and (
        token.text in LEFT_OUT or token.text.startswith(("s_", "d_")))


class Reader:
    def __init__(self, tokens: list[Token]) -> None:
        self.tokens, self.at, self.drops_newlines = tokens, 0, False

    def next(self) -> Token | None:
        while self.drops_newlines and self.at < len(self.tokens) and self.tokens[self.at].kind == "newline":
            self.at += 1
        return self.tokens[self.at] if self.at < len(self.tokens) else None

    def refuse(self, lacks_jump: bool = False) -> NoReturn:
        token = self.next()
        if token is None:
            raise Refused("P3", self.tokens[-1].line)
        if lacks_jump and token.text == "}":
            raise Refused("P4", token.line)
        raise Refused("P2" if is_left_out(token) else "P1", token.line)

    def has(self, kind: str, *texts: str) -> bool:
        """Whether the next token is of that kind, and one of the texts if there are any."""
        token = self.next()
        return token is not None and token.kind == kind and (not texts or token.text in texts)

    def take(self, kind: str, *texts: str) -> Token:
        return self.may(kind, *texts) or self.refuse()

    def may(self, kind: str, *texts: str) -> Token | None:
        token = self.next()
        if token is None or token.kind != kind or texts and token.text not in texts:
            return None
        self.at += 1
        return token

    def unsigned(self) -> int:
        token = self.next()
        if token is not None and token.kind == "number" and token.text.startswith("-"):
            self.refuse()
        return self.take("number").number()

    def value(self) -> Operand:
        token = self.next()
        if token is None or token.kind not in ("number", "global", "temp"):
            self.refuse()
        self.at += 1
        value: int | str = token.number() if token.kind == "number" else token.name()
        return Operand(token.kind, value, token.line)

    def has_value(self) -> bool:
        return self.has("number") or self.has("global") or self.has("temp")

    def program(self) -> Program:
        order: list[Func | Data] = []
        self.may("newline")
        while self.next() is not None:
            order.append(self.definition())
            self.may("newline")
        return Program(order)

    def definition(self) -> Func | Data:
        while self.has("word", "export", "section"):
            if self.take("word").text == "section":
                self.take("string")
                self.may("string")
            self.may("newline")
        if self.has("word", "data"):
            return self.data()
        if self.has("word", "function"):
            return self.func()
        self.refuse()

    def data(self) -> Data:
        self.take("word", "data")
        self.drops_newlines = True
        name = self.take("global")
        self.take("symbol", "=")
        align = self.unsigned() if self.may("word", "align") else None
        self.take("symbol", "{")
        fields = []
        while self.has("word", "b", "h", "w", "l", "z"):
            fields.append(self.field())
            if not self.may("symbol", ","):
                break
        self.take("symbol", "}")
        self.drops_newlines = False
        return Data(name.line, name.name(), align, fields)

    def field(self) -> tuple[str, Items]:
        letter = self.take("word").text
        if letter == "z":
            return letter, self.unsigned()
        items = [self.item(letter)]
        while self.has("number") or letter == "b" and self.has("string") or letter == "l" and self.has("global"):
            items.append(self.item(letter))
        return letter, items

    def item(self, letter: str) -> Item:
        if letter == "b" and self.has("string"):
            return self.take("string").content()
        if letter == "l" and self.has("global"):
            name = self.take("global").name()
            return name, self.unsigned() if self.may("symbol", "+") else 0
        return self.take("number").number()

    def func(self) -> Func:
        self.take("word", "function")
        type_ = self.may("word", *TYPES)
        name = self.take("global")
        self.take("symbol", "(")
        params = []
        while self.has("word", *TYPES):
            params.append((self.take("word").text, self.take("temp").name()))
            if not self.may("symbol", ","):
                break
        self.take("symbol", ")")
        self.may("newline")
        self.take("symbol", "{")
        self.may("newline")
        func = Func(name.line, name.name(), type_ and type_.text, params)
        while True:
            func.blocks.append(self.block())
            if func.blocks[-1].ended and self.may("symbol", "}"):
                break
            if not self.has("label"):
                self.refuse(lacks_jump=func.blocks[-1].ended is None)
        for block, after in zip(func.blocks, func.blocks[1:]):
            if block.ended is None:
                block.ended = Jump(after.line, "jmp", [after.label], is_written=False)
        return func

    def block(self) -> Block:
        label = self.take("label")
        self.take("newline")
        block = Block(label.line, label.name())
        while block.ended is None:
            if self.has("temp") or self.has("word", "blit", "call", *STORES):
                part = self.phi_or_inst(may_be_phi=not block.insts)
                if isinstance(part, Phi):
                    block.phis.append(part)
                else:
                    block.insts.append(part)
            elif self.has("word", "jmp", "jnz", "ret", "hlt"):
                block.ended = self.jump()
            else:
                return block
            self.take("newline")
        return block

    def phi_or_inst(self, may_be_phi: bool) -> Phi | Inst:
        """The next token is the first of one."""
        if not self.has("temp"):
            word = self.take("word")
            return self.inst(Inst(word.line, word.text))
        named = self.take("temp")
        line, target = named.line, named.name()
        self.take("symbol", "=")
        type_ = self.take("word", *TYPES).text
        words: tuple[str, ...] = ("call",)
        if type_ in ("w", "l"):
            words += ONE + TWO + (("phi",) if may_be_phi else ())
        op = self.take("word", *words).text
        if op == "phi":
            sources = [(self.take("label").name(), self.value())]
            while self.may("symbol", ","):
                sources.append((self.take("label").name(), self.value()))
            return Phi(line, target, type_, sources)
        return self.inst(Inst(line, op, target, type_))

    def inst(self, inst: Inst) -> Inst:
        """An instruction, after its word."""
        inst.operands.append(self.value())
        if inst.op == "call":
            self.take("symbol", "(")
            while self.has("word", *TYPES):
                inst.arguments.append((self.take("word").text, self.value()))
                if not self.may("symbol", ","):
                    break
            self.take("symbol", ")")
        elif inst.op not in ONE:
            self.take("symbol", ",")
            inst.operands.append(self.value())
            if inst.op == "blit":
                self.take("symbol", ",")
                inst.count = self.unsigned()
        return inst

    def jump(self) -> Jump:
        token = self.take("word")
        jump = Jump(token.line, token.text)
        if jump.kind == "jmp":
            jump.labels.append(self.take("label").name())
        elif jump.kind == "jnz":
            jump.value = self.value()
            for _ in range(2):
                self.take("symbol", ",")
                jump.labels.append(self.take("label").name())
        elif jump.kind == "ret" and self.has_value():
            jump.value = self.value()
        return jump


def parse(tokens: list[Token]) -> Program:
    return Reader(tokens).program()
