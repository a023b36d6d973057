"""Loads and stores at the edges of live memory, which is the data and the allocated part of the stack; calls of
addresses."""
from __future__ import annotations

from collections.abc import Iterator

from harness.running import Case, Running

# The bytes 1 to 24 as data, and as many on the stack, which starts at 16,777,216.
TEXT = """data $d = {{ b 1 2 3 4 5 6 7 8 9 10 11 12 13 14 15 16 17 18 19 20 21 22 23 24 }}
function l $main(l %a) {{
@s
	%p =l alloc4 24
	blit $d, %p, 24
	{access}
	ret %v
}}
"""
DATA_END, TOP = 65_560, 16_777_240
LOADS = {1: "loadub", 2: "loaduh", 4: "loaduw", 8: "loadl"}
STORES = {1: "storeb", 2: "storeh", 4: "storew", 8: "storel"}

# The first and the last access of each interval, with the number that the bytes spell from the lowest on.
LIVE = [(1, 65_536, 1), (1, 65_559, 24), (1, 16_777_239, 24), (2, 65_536, 0x0201), (2, 65_558, 0x1817),
        (4, 65_556, 0x18171615), (8, 65_537, 0x0908070605040302), (8, 65_552, 0x1817161514131211),
        (8, 16_777_216, 0x0807060504030201), (8, 16_777_232, 0x1817161514131211)]


def dead_addresses(width: int) -> list[int]:
    """Addresses at which an access of N bytes has some outside both intervals."""
    return [0, 1, 65_535, DATA_END - width + 1, DATA_END, 16_777_215, TOP - width + 1, TOP, 17_825_792,
            2**64 - 1 - width, 2**64 - 1]


# Three functions, one of which has the name of a built-in, and a call of the address that the last is given.
CALLS_TEXT = """function $f() {{
@s
	ret
}}
function $puts(l %x) {{
@s
	ret
}}
function $main(l %a) {{
@s
	call %a({argument})
	ret
}}
"""
# Addresses, an argument of the call, and the place behind it. The functions lie 16 bytes apart from 4096 on, `$putchar`
# at 1024 and `$exit` at 1056.
CALLS = [(4096, "", "$f @s 0"), (4112, "l 0", "$puts @s 0"), (4128, "l 0", "$main @s 0"), (1024, "w 65", "$main @s 1"),
         (1056, "w 7", "exit 7")]
CALLS += [(address, "l 0", f"fault no function at {address}")
          for address in (0, 1008, 1023, 1025, 1040, 1055, 1057, 1072, 4080, 4095, 4097, 4104, 4111, 4113, 4129, 4144,
                          16_777_216, 2**63 + 4096, 2**64 - 1)]


def called(running: Running, address: int, argument: str, place: str) -> str | None:
    text = CALLS_TEXT.format(argument=argument).encode()
    written = f"loaded 3 functions 0 data bytes ssa yes\n#0 $main @s 0\n#1 {place}\n"
    return running.fault(text, b"step\n", [str(address)], written.encode(), 0)


def access(running: Running, line: str, address: int, end: str) -> str | None:
    text = TEXT.format(access=line).encode()
    written = f"loaded 1 functions 24 data bytes ssa yes\n#0 $main @s 0\n{end}\n"
    return running.fault(text, b"step 9\n", [str(address)], written.encode(), 0)


def cases() -> Iterator[Case]:
    for address, argument, place in CALLS:
        yield Case(f"call of {address}", called, (address, argument, place))
    for width, address, value in LIVE:
        yield Case(f"load of {width} at {address}", access, (f"%v =l {LOADS[width]} %a", address, f"#4 done {value}"))
    for width in LOADS:
        for address in dead_addresses(width):
            end = f"#3 fault dead address {address}"
            yield Case(f"load of {width} at {address}", access, (f"%v =l {LOADS[width]} %a", address, end))
            yield Case(f"store of {width} at {address}", access,
                       (f"{STORES[width]} 0, %a\n\t%v =l copy 0", address, end))
