"""Functions that go on where they stopped: strtok and its kin, and scanf, ungetc and getline on one input. What they
give is worked out by hand. And which numbers are out of the range of strtod and strtof, beside the C library."""
import ctypes
import random

from .floats import string_of
from .running import Results, Running, differ

TOKENS = r"""
data $one = { b ";;a;,b;\000" }
data $two = { b "x,,y\000" }
data $none = { b ";;\000" }
data $set = { b ";,\000" }
data $place = { l $two }
data $s = { b "[%s]\000" }
data $n = { b "%d|\000" }
data $block = { l 0 }
data $memory = { b "1234\000" }
export function w $main() {
@start
	%token =l call $strtok(l $one, l $set)
@loop
	%is.any =w cnel %token, 0
	jnz %is.any, @any, @parts
@any
	%n =w call $printf(l $s, ..., l %token)
	%token =l call $strtok(l 0, l $set)
	jmp @loop
@parts
	%part =l call $strsep(l $place, l $set)
	%is.any =w cnel %part, 0
	jnz %is.any, @part, @others
@part
	%n =w call $printf(l $s, ..., l %part)
	jmp @parts
@others
	%nothing =l call $strtok_r(l $none, l $set, l $place)
	%again =l call $strtok_r(l 0, l $set, l $place)
	%either =l or %nothing, %again
	%length =w call $asprintf(l $block, l $n, ..., l %either)
	%text =l loadl $block
	%written =w call $printf(l $s, ..., l %text)
	call $free(l %text)
	%end =l call $mempcpy(l $memory, l $set, l 2)
	call $bzero(l %end, l 1)
	%written =w call $printf(l $s, ..., l $memory)
	ret %length
}
"""

LINES = r"""
data $form = { b "%d %15s\000" }
data $said = { b "%d %d %s %d|\000" }
data $line = { b "%ld[%s]\000" }
data $number = { w 0 }
data $word = { z 16 }
data $text = { l 0 }
data $size = { l 0 }
export function w $main() {
@start
	%input =l loadl $stdin
	%before =w call $ungetc(w 65, l %input)
	%count =w call $scanf(l $form, ..., l $number, l $word)
	%number =w loadw $number
	%next =w call $getchar()
	%back =w call $ungetc(w 33, l %input)
	%p =w call $printf(l $said, ..., w %count, w %number, l $word, w %next)
@loop
	%length =l call $getline(l $text, l $size, l %input)
	%is.line =w csgel %length, 0
	jnz %is.line, @line, @end
@line
	%text =l loadl $text
	%p =w call $printf(l $line, ..., l %length, l %text)
	jmp @loop
@end
	%text =l loadl $text
	call $free(l %text)
	%over =w call $feof(l %input)
	%none =w call $fscanf(l %input, l $form, ..., l $number, l $word)
	call $clearerr(l %input)
	%is.clear =w call $feof(l %input)
	%p =w call $printf(l $said, ..., w %over, w %none, l $word, w %is.clear)
	ret %before
}
"""
INPUT = "\n 42 word?\n" + "long " * 30 + "\n\nlast"
# The newline behind the word is taken, and a `!` given back in its place.
WANTED = "2 42 word? 10|152[!" + "long " * 30 + "\n]1[\n]4[last]1 -1 word? 0|"


def lines_fault(running: Running) -> str | None:
    lowered = running.lower({"a.ssa": LINES}, "--link", "--input", "input", beside={"input": INPUT})
    ended = running.run(lowered.text)
    return differ("errors", "", lowered.errors) or differ("output", WANTED, ended.output) or \
        differ("end", "done 4294967295", ended.end)


def tokens_fault(running: Running) -> str | None:
    lowered = running.lower_here(TOKENS)
    if isinstance(lowered, str):
        return lowered
    ended = running.run(lowered.text)
    return differ("output", "[a][b][x][][y][0|][;,]", ended.output) or differ("end", "done 2", ended.end)


# Around the greatest numbers, the least normal ones and half of the least of all, of doubles and of singles; exact ones
# below the normal ones; and what is no number.
RANGES = [
    "1", "0", "-0.0", "0e-999", "inf", "-infinity", "nan", "nan(12a_)", "nan(", "nan(-)", "nan()x", "", "e5", "0x",
    "+.",
    "1.7976931348623157e308", "1.7976931348623158e308", "1.7976931348623159e308", "1e309", "-1e5000", "0x1p1024",
    "0x1.fffffffffffff8p1023", "2.2250738585072014e-308", "2.2250738585072012e-308", "2.2250738585072011e-308",
    "2.2250738585072013e-308", "0x1p-1022", "0x0.fffffffffffffp-1022", "0x0.fffffffffffff8p-1022",
    "0x0.fffffffffffffcp-1022", "0x0.fffffffffffffbp-1022", "4.9406564584124654e-324", "2.5e-324", "2.4e-324",
    "0x1p-1074", "0x1p-1075", "0x3p-1075", "0x1.8p-1073", "0x1p-1140", "1e-400", "-1e-5000", "1e-320",
    "3.4028234663852886e38", "3.4028235677973366e38", "3.4028236e38", "1.17549435e-38", "1.1754943e-38",
    "1.1754942e-38", "1.17549431e-38", "0x1p-126", "0x0.ffffffp-126", "0x0.fffffep-126", "0x0.ffffff8p-126", "1e-45",
    "7e-46", "0x1p-149", "0x1p-150", "0x1.8p-148", "1e-60", "5e-324"]


def number_near(choice: random.Random) -> str:
    """A number near one of the ends of a range, as a decimal or a hexadecimal. This has no more bits than a double: the
    GNU C library forgets a single one behind them below the normal numbers."""
    if choice.random() < 0.5:
        return f"{choice.uniform(0.5, 20):.{choice.randrange(20)}f}e{choice.choice((308, -308, -323, 38, -38, -45))}"
    power = choice.choice((1023, -1022, -1030, -1074, 127, -126, -130, -149)) + choice.randint(-2, 2)
    return f"0x{choice.choice('01')}.{choice.getrandbits(52):013x}{'0' * choice.randrange(3)}p{power}"


def ranges_fault(running: Running) -> str | None:
    """The error behind a number and how much of it was read, as the C library has them: both are told."""
    choice = random.Random(8)
    texts = RANGES + [number_near(choice) for _ in range(400)]
    library = ctypes.CDLL(None, use_errno=True)
    lines, data, wanted = ["export function w $main() {", "@start"], ["data $end = { l 0 }"], []
    lines.append("\t%errno =l call $__errno_location()")
    for index, text in enumerate(texts):
        data.append(f"data $t{index} = {{ b {string_of(text.encode())} 0 }}")
        for name, kind in (("strtod", "d"), ("strtof", "s")):
            end = ctypes.c_char_p()
            given = ctypes.create_string_buffer(text.encode())
            ctypes.set_errno(0)
            function = library[name]
            function.restype = ctypes.c_double if kind == "d" else ctypes.c_float
            function(given, ctypes.byref(end))
            wanted.append(f"{name} {text}: {ctypes.get_errno()} [{(end.value or b'').decode()}]")
            at = f"{index}.{kind}"
            lines += ["\tstorew 0, %errno", f"\t%x{at} ={kind} call ${name}(l $t{index}, l $end)",
                      f"\t%e{at} =w loadw %errno", f"\t%b{at} =l loadl $end",
                      f"\t%p{at} =w call $printf(l $told, ..., l ${name}.name, l $t{index}, w %e{at}, l %b{at})"]
    data += ['data $told = { b "%s %s: %d [%s]\\n\\0" }', 'data $strtod.name = { b "strtod\\0" }',
             'data $strtof.name = { b "strtof\\0" }']
    lowered = running.lower_here("\n".join(lines + ["\tret 0", "}"] + data) + "\n")
    if isinstance(lowered, str):
        return lowered
    told = running.run(lowered.text).output.split("\n")
    wrong = [f"{have!r} in place of {want!r}" for want, have in zip(wanted, told) if want != have]
    return wrong[0] if wrong else differ("lines", len(wanted), len(told) - 1)


def results(running: Running) -> Results:
    yield f"reading/ranges ({len(RANGES) + 400} numbers)", ranges_fault(running)
    yield "reading/tokens", tokens_fault(running)
    yield "reading/tokens, no suspicion", running.suspicion(TOKENS.replace("ret %length", "ret 0"))
    yield "reading/lines", lines_fault(running)
