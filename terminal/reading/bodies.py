"""Reads the bodies of functions: parameters, blocks, phis, instructions and jumps."""
from collections.abc import Callable
from typing import NoReturn, TypeVar, cast

from .instructions import CLASSES, SUBWORDS, WITH_RESULT, WITHOUT_RESULT, NAMES
from .refusals import Refused
from .tokens import Tokens
from .tree import Aggregate, Block, Call, Instruction, Jump, Phi, Place, Value

T = TypeVar("T")
KINDS = frozenset(CLASSES + SUBWORDS)
SHOWN = {"%": "a temporary", "$": "a global", "@": "a label", ":": "a type", "newline": "the end of the line",
         "end": "the end of the text", "number": "a number", "string": "a string", "float": "a floating constant"}


class BodyReader:
    """A place among the tokens of a text, and what was read of its types and its debug lines so far."""

    def __init__(self, tokens: Tokens, path: str, are_written: bool = False):
        """Constants have their values in the tree, or are as they are written."""
        self.kinds, values, written, self.lines, self.cut_numbers = tokens
        self.values = cast(list[str | int], written) if are_written else values
        # The same of names, words and strings, and of numbers: the kind of a token tells which it is.
        self.words, self.numbers = cast(list[str], self.values), cast(list[int], values)
        self.path = path
        self.at = 0
        self.aggregates: dict[str, Aggregate] = {}
        self.file = ""
        self.place: Place | None = None
        # The block in which a debug line was read last: a phi can't follow it there.
        self.moved_in: Block | None = None
        self.has_dots = False
        self.dropped: dict[str, int] = {}
        self.begin_function(None)

    def begin_function(self, returns: str | None) -> None:
        self.returns = returns
        self.place = None
        self.used_aggregates: dict[str, Aggregate] = {}
        self.callees: set[str] = set()
        self.addresses: set[str] = set()
        if returns and returns.startswith(":"):
            self.used_aggregates[returns] = self.aggregate(returns)

    # Single tokens.

    def kind(self) -> str:
        return self.kinds[self.at]

    def line(self) -> int:
        return self.lines[self.at]

    def refuse(self, what: str, line: int | None = None) -> NoReturn:
        raise Refused(self.path, self.lines[self.at] if line is None else line, what)

    def shown(self) -> str:
        """The next token, as an error shows it."""
        kind, value = self.kinds[self.at], self.values[self.at]
        return f"`{value}`" if kind in "%$@:" or kind == "word" else SHOWN.get(kind, f"`{kind}`")

    def expect(self, kind: str, what: str | None = None) -> str:
        if self.kinds[self.at] != kind:
            self.refuse(f"{what or SHOWN.get(kind, f'`{kind}`')} expected, and {self.shown()} is there")
        self.at += 1
        return self.words[self.at - 1]

    def expect_number(self, what: str | None = None) -> int:
        self.expect("number", what)
        return self.numbers[self.at - 1]

    def expect_over_lines(self, kind: str, what: str | None = None) -> None:
        self.skip_newlines()
        self.expect(kind, what)

    def skip_newlines(self) -> None:
        if self.kinds[self.at] == "newline":
            self.at += 1

    def is_word(self, word: str) -> bool:
        return self.kinds[self.at] == "word" and self.values[self.at] == word

    def count(self, what: str) -> None:
        self.dropped[what] = self.dropped.get(what, 0) + 1

    def aggregate(self, name: str) -> Aggregate:
        if name not in self.aggregates:
            self.refuse(f"the type {name} isn't defined", self.lines[self.at - 1])
        return self.aggregates[name]

    # Types and values.

    def read_kind(self) -> str:
        """A class, a sub-word type or the name of an aggregate."""
        kind, value = self.kinds[self.at], self.words[self.at]
        if kind == ":":
            self.at += 1
            self.used_aggregates[value] = self.aggregate(value)
        elif kind != "word" or value not in KINDS:
            self.refuse(f"a type expected, and {self.shown()} is there")
        else:
            self.at += 1
        return value

    def read_value(self) -> Value:
        kind, value = self.kinds[self.at], self.values[self.at]
        if kind == "%" or kind == "number" or kind == "float":
            self.at += 1
            return value
        if kind == "word" and value == "thread":
            self.at += 1
            return self.read_address(self.expect("$"))
        if kind == "$":
            self.at += 1
            return self.read_address(self.words[self.at - 1])
        self.refuse(f"a value expected, and {self.shown()} is there")

    def read_address(self, name: str) -> str:
        self.addresses.add(name)
        return name

    def read_list(self, read_one: Callable[[str | None], T]) -> tuple[T | None, int | None]:
        """The parts of a parenthesis, each read by a call with its type; the value of `env`, and how many stand before
        the dots."""
        environment: T | None = None
        dots: int | None = None
        count = 0
        self.expect("(")
        while self.kinds[self.at] != ")":
            if self.kinds[self.at] == "...":
                if dots is not None:
                    self.refuse("only one `...` is allowed")
                self.at += 1
                dots = count
            elif self.is_word("env"):
                if environment is not None:
                    self.refuse("only one `env` is allowed")
                self.at += 1
                environment = read_one(None)
            else:
                read_one(self.read_kind())
                count += 1
            if self.kinds[self.at] != ")":
                self.expect(",", "`,` or `)`")
        self.at += 1
        return environment, dots

    def read_parameters(self) -> tuple[list[tuple[str, str]], str | None, bool]:
        parameters: list[tuple[str, str]] = []

        def read_one(kind: str | None) -> str:
            name = self.expect("%", "a parameter")
            if kind is not None:
                parameters.append((kind, name))
            return name

        environment, dots = self.read_list(read_one)
        if dots not in (None, len(parameters)):
            self.refuse("no parameters are allowed behind `...`", self.lines[self.at - 1])
        return parameters, environment, dots is not None

    # Blocks.

    def read_blocks(self) -> list[Block]:
        blocks: list[Block] = []
        labels: set[str] = set()
        is_open = False
        while True:
            self.skip_newlines()
            kind = self.kinds[self.at]
            if kind == "@":
                self.begin_block(blocks, labels, is_open)
                is_open = True
            elif kind == "}":
                break
            elif not is_open:
                self.refuse(f"a label or `}}` expected, and {self.shown()} is there")
            else:
                is_open = self.read_line(blocks[-1], len(blocks) == 1)
        if not blocks:
            self.refuse("the function is empty")
        if is_open:
            self.refuse("the last block has no jump")
        self.at += 1
        return blocks

    def begin_block(self, blocks: list[Block], labels: set[str], is_open: bool) -> None:
        name, line = self.words[self.at], self.lines[self.at]
        self.at += 1
        if name in labels:
            self.refuse(f"the block {name} is defined a second time", line)
        labels.add(name)
        if is_open:
            blocks[-1].jump = Jump(line, self.place, "on", None, (name,))
        blocks.append(Block(line, name))
        self.expect("newline")

    def read_line(self, block: Block, is_first: bool) -> bool:
        """An instruction, a phi or a jump. Whether the block goes on."""
        kind, word = self.kinds[self.at], self.words[self.at]
        if kind == "%":
            self.read_result(block, is_first)
            return True
        if kind == "word":
            if word in WITHOUT_RESULT:
                self.read_effect(block, word)
                return True
            if word == "call":
                block.instructions.append(self.read_call(None, None, self.lines[self.at]))
                return True
            if word == "dbgloc":
                self.read_location(block)
                return True
            if word in ("jmp", "jnz", "ret", "hlt"):
                block.jump = self.read_jump(block, word)
                self.expect("newline")
                return False
        self.refuse(f"a label, an instruction or a jump expected, and {self.shown()} is there")

    def read_result(self, block: Block, is_first: bool) -> None:
        at, line = self.at, self.lines[self.at]
        result = self.words[at]
        self.at += 1
        self.expect("=")
        cls = self.read_kind()
        word = self.words[self.at] if self.kinds[self.at] == "word" else ""
        if word == "call":
            block.instructions.append(self.read_call(result, cls, line))
            return
        if cls not in CLASSES:
            self.refuse("the class of a result is w, l, s or d")
        if word == "phi":
            if block.instructions or is_first or self.moved_in is block:
                self.refuse("a phi stands at the beginning of a block, and not in the first")
            self.at += 1
            block.phis.append(Phi(line, self.place, result, cls, self.read_sources()))
            return
        if word not in NAMES:
            self.refuse(f"an instruction expected, and {self.shown()} is there")
        operand_classes = WITH_RESULT.get((word, cls))
        if operand_classes is None:
            self.refuse(f"`{word}` gives no {cls}")
        self.at += 1
        operands = self.read_operands(word, len(operand_classes))
        block.instructions.append(Instruction(line, self.place, result, cls, word, operands))

    def read_operands(self, word: str, count: int) -> list[Value]:
        operands = [self.read_value()]
        for _ in range(count - 1):
            if self.kinds[self.at] != ",":
                self.refuse(f"`{word}` has {count} operands")
            self.at += 1
            operands.append(self.read_value())
        if self.kinds[self.at] != "newline":
            self.refuse(f"the end of the line expected behind `{word}`, and {self.shown()} is there")
        self.at += 1
        return operands

    def read_sources(self) -> list[tuple[str, Value]]:
        sources: list[tuple[str, Value]] = []
        while self.kinds[self.at] != "newline":
            label = self.expect("@")
            sources.append((label, self.read_value()))
            if self.kinds[self.at] == "newline":
                break
            self.expect(",", "`,` or the end of the line")
        self.at += 1
        return sources

    def read_effect(self, block: Block, word: str) -> None:
        line = self.lines[self.at]
        self.at += 1
        if word == "vastart" and not self.has_dots:
            self.refuse("`vastart` in a function without dots", line)
        count = 3 if word == "blit" else len(WITHOUT_RESULT[word])
        operands = self.read_operands(word, count)
        if word == "blit":
            self.check_blit(operands[2], line)
        block.instructions.append(Instruction(line, self.place, None, "w", word, operands))

    def check_blit(self, size: Value, line: int) -> None:
        if not isinstance(size, int) or not 0 <= size < 1 << 28:
            self.refuse("the size of a blit is a constant that isn't negative", line)

    def read_call(self, result: str | None, kind: str | None, line: int) -> Call:
        self.at += 1
        target: Value = self.words[self.at]
        if self.kinds[self.at] == "$":
            self.callees.add(self.words[self.at])
            self.at += 1
        else:
            target = self.read_value()
        arguments: list[tuple[str, Value]] = []

        def read_one(argument_kind: str | None) -> Value:
            value = self.read_value()
            if argument_kind is not None:
                arguments.append((argument_kind, value))
            return value

        environment, dots = self.read_list(read_one)
        self.expect("newline")
        return Call(line, self.place, result, kind, target, arguments, environment, dots)

    def read_location(self, block: Block) -> None:
        self.at += 1
        self.moved_in = block
        self.count("debug lines")
        line = self.read_place_number("the line")
        column = 0
        if self.kinds[self.at] == ",":
            self.at += 1
            column = self.read_place_number("the column")
        self.place = Place(self.file, line, column)

    def read_place_number(self, what: str) -> int:
        number = self.expect_number(what)
        if not 0 <= number < 1 << 29:
            self.refuse(f"{what} is too large", self.lines[self.at - 1])
        return number

    def read_jump(self, block: Block, word: str) -> Jump:
        line = self.lines[self.at]
        self.at += 1
        if word == "jmp":
            return Jump(line, self.place, word, None, (self.expect("@"),))
        if word == "jnz":
            value = self.read_value()
            self.expect(",")
            first = self.expect("@")
            self.expect(",")
            return Jump(line, self.place, word, value, (first, self.expect("@")))
        returned: Value | None = None
        if word == "ret" and self.kinds[self.at] != "newline":
            if self.returns is None:
                self.refuse("`ret` has a value, and the function no return type", line)
            returned = self.read_value()
        return Jump(line, self.place, word, returned, ())
