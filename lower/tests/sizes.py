"""Texts that are too large at first: without spaces, with short names, and the report on their bytes."""
from .running import Results, Running, differ

STEPS = 120


def text_of(functions: int, word: str) -> str:
    """Functions that call one another, each of many steps with long names; they give the sum of the numbers of all."""
    parts = []
    for number in range(functions):
        name = f"%{word}.{number}"
        lines = [f"\t{name}.{step} =l add {name}.{step - 1}, {step}" for step in range(1, STEPS)]
        call = f"\t{name}.last =l call $f{number + 1}(l {name}.{STEPS - 1})\n" if number + 1 < functions else \
            f"\t{name}.last =l copy {name}.{STEPS - 1}\n"
        parts.append(f"function l $f{number}(l {name}.0) {{\n@start.of.{word}.{number}\n" + "\n".join(lines)
                     + f"\n{call}\tret {name}.last\n}}\n")
    text = "data $text = { b \"%not.a.name @nor.this , = \\\"quoted\\\"\\n\\0\" }\n"
    return text + "".join(parts) + "export function l $main() {\n@start\n\t%n =l call $write(w 1, l $text, l 35)\n" \
        "\t%x =l call $f0(l 5)\n\tret %x\n}\n"


def table_text(functions: int, argument: str) -> str:
    """Functions that a table alone names, of two parameters; $main calls one of the table that has one parameter, with
    its address from there, and with a second argument if that is given."""
    parts = []
    for number in range(functions):
        lines = [f"\t%n{step} =l add %n{step - 1}, %m" for step in range(1, STEPS)]
        parts.append(f"function l $f{number}(l %n0, l %m) {{\n@start\n"
                     + "\n".join(lines) + f"\n\tret %n{STEPS - 1}\n}}\n")
    names = ", ".join(f"l $f{number}" for number in range(functions))
    return f"data $table = {{ l $one, {names} }}\n" + "".join(parts) + f"""function l $one(l %n) {{
@start
\t%r =l add %n, 2
\tret %r
}}
export function l $main() {{
@start
\t%f =l loadl $table
\t%x =l call %f(l 40{argument})
\t%g =l add $table, 8
\t%last =l loadl %g
\t%is =w ceql %last, $f0
\t%e =l extuw %is
\t%y =l add %x, %e
\tret %y
}}
"""


def table_fault(running: Running, argument: str, status: int, end: str | None) -> str | None:
    """A table of functions that only a call of another shape could enter is cut to fit, and the run is the same."""
    lowered = running.lower({"a.ssa": table_text(600, argument)}, "--link", "--report")
    fault = differ("status", status, lowered.status) or \
        differ("functions that are cut", end is not None,
               "600 functions that no call can reach, cut to fit" in lowered.errors)
    if fault or end is None:
        return fault
    return differ("size", True, len(lowered.text) <= 1 << 20) or differ("end", end, running.run(lowered.text).end) or \
        differ("lines of the map", lowered.text.count("\n"), lowered.map.count("\n"))


READS = """
export function w $main() {
@start
	%byte =w call $getchar()
	ret %byte
}
"""


# More data than fits: 1,048,576 bytes, and 5,000 on from the next multiple of 16.
FULL = """
data $few = align 16 { z 5000 }
data $many = align 16 { z 1048576 }
export function w $main() {
@start
	%x =w loadw $many
	%y =w loadw $few
	%z =w add %x, %y
	ret %z
}
"""


def fault_of(running: Running, text: str, functions: int, told: str, output: str) -> str | None:
    lowered = running.lower({"a.ssa": text}, "--link", "--report")
    run = running.run(lowered.text)
    total = 5 + functions * STEPS * (STEPS - 1) // 2
    return differ("status", 0, lowered.status) or differ("size", True, len(lowered.text) <= 1 << 20) or \
        differ("end", f"done {total}", run.end) or differ("output", output, run.output) or \
        differ("lines of the map", lowered.text.count("\n"), lowered.map.count("\n")) or \
        (None if told in lowered.errors else f"{lowered.errors!r}") or \
        (None if " bytes of text: " in lowered.errors and " of a.ssa" in lowered.errors else f"{lowered.errors!r}")


def results(running: Running) -> Results:
    output = "%not.a.name @nor.this , = \"quoted\"\n"
    for functions, word, told in ((90, "a.long.name.of.temporaries", ""),
                                  (240, "name", "texts that are written without spaces"),
                                  (250, "a.long.name.of.temporaries", "temporaries and labels with short names")):
        yield f"sizes/{functions} functions", fault_of(running, text_of(functions, word), functions, told, output)
    # The call by an address has the shape of $one, and then that of all others.
    yield "sizes/a table of functions that nothing calls", table_fault(running, "", 0, "done 43")
    yield "sizes/a table of functions that may be called", table_fault(running, ", l 1", 1, None)
    text = text_of(800, "x")
    lowered = running.lower({"a.ssa": text}, "--link", "--report")
    yield "sizes/too large all the same", differ("status", 1, lowered.status) or \
        differ("told", (True, True), ("bytes, and qrev takes at most 1048576" in lowered.errors,
                                      " of a.ssa" in lowered.errors))
    lowered = running.lower({"a.ssa": FULL}, "--link")
    yield "sizes/too much data", differ("told", (
        1, "qrev-lower: the program has 1053584 bytes of data, and qrev takes at most 1048576\n"
        "qrev-lower: the largest data: 1048576 of $many, 5000 of $few\n"), (lowered.status, lowered.errors))
    lowered = running.lower({"a.ssa": READS}, "--link", "--input", "input", beside={"input": "x" * 1_100_000})
    told = "\nqrev-lower: input, which it reads, has 1100000 bytes, and is part of its data\n"
    yield "sizes/too much input", differ("end", (1, True), (lowered.status, lowered.errors.endswith(told)))
