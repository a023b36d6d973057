"""Functions with which the texts of tests say numbers, each with a space behind it; and some of their kin."""
import re

TELL = """
data $tell.form = { b "%ld ", b 0 }
function $tell(l %x) {
@start
	%c =w call $printf(l $tell.form, ..., l %x)
	ret
}
function $tell.w(w %x) {
@start
	%y =l extsw %x
	call $tell(l %y)
	ret
}
"""


def over_bytes(name: str, body: str, end: str = "") -> str:
    """A function of an address and a count that does something with each byte there, `%byte`."""
    return f"""
function ${name}(l %p, l %count) {{
@start
	%end =l add %p, %count
@loop
	%at =l phi @start %p, @byte %next
	%is =w cnel %at, %end
	jnz %is, @byte, @end
@byte
	%byte =w loadub %at
	{body}
	%next =l add %at, 1
	jmp @loop
@end
	{end}
	ret
}}
"""


def with_lists(text: str) -> str:
    """A text in which each call whose last argument is `%list` has a list of its own before it, of the arguments behind
    the dots."""
    return re.sub(r"(?m)^(?=.*\bcall .*, l %list\)$)", "\t%list =l alloc8 24\n\tvastart %list\n", text)


# The letter of an option that isn't right, or 0, by what `getopt` or its kin gave.
OPTION_LETTER = """
function w $option.letter(w %found) {
@start
	%letter =w loadw $optopt
	%is.wrong =w ceqw %found, 63
	%is.lacking =w ceqw %found, 58
	%is.told =w or %is.wrong, %is.lacking
	%letter =w mul %letter, %is.told
	ret %letter
}
"""
# The same for texts, bytes and the last error, which is then none.
TELL_MORE = TELL + """
data $tell.text.form = { b "[%s] ", b 0 }
data $tell.none = { b "none ", b 0 }
data $tell.byte.form = { b "%02x", b 0 }
function $tell.text(l %p) {
@start
	%is =w cnel %p, 0
	jnz %is, @some, @none
@some
	%c =w call $printf(l $tell.text.form, ..., l %p)
	ret
@none
	%c =w call $printf(l $tell.none, ...)
	ret
}
""" + over_bytes("tell.bytes", "%c =w call $printf(l $tell.byte.form, ..., w %byte)",
                 "%c =w call $putchar(w 32)") + """
function $tell.error() {
@start
	%e =l call $__errno_location()
	%n =w loadw %e
	call $tell.w(w %n)
	storew 0, %e
	ret
}
"""
