"""A program with a dozen and more of each kind of thing: data, fields, parameters, blocks, phis, sources, functions."""

MANY = 13
lines = ["# many of each"]
for n in range(MANY):
    fields = ", ".join(f"w {m} -{m}, z {m}, b \"item {m}\\n\", l $d{(n + m) % MANY} + {m}" for m in range(1, MANY))
    lines.append(f"data $d{n} = align 8 {{ {fields} }}")
for n in range(MANY):
    params = ", ".join(f"{'wl'[m % 2]} %p{m}" for m in range(MANY))
    lines.append(f"export function w $f{n}({params}) {{")
    lines.append("@start")
    lines += [f"\t%v{m} =w add %p{m}, {m}" for m in range(MANY)]
    lines += [f"\t%a{m} =l alloc8 {m + 4}\n\tstorew %v{m}, %a{m}" for m in range(MANY)]
    lines.append("\tjnz %p0, @b0, @last")
    for m in range(MANY):
        lines.append(f"@b{m}")
        lines.append(f"\t%c{m} =w cultw %v{m}, %p{m}")
        lines.append(f"\tjnz %c{m}, @{'b' + str(m + 1) if m + 1 < MANY else 'next'}, @last")
    lines.append("@next")
    arguments = ", ".join(f"{'wl'[m % 2]} {m}" for m in range(MANY))
    lines.append(f"\t%r =w call $f{(n + 1) % MANY}({arguments})")
    lines.append("@last")
    labels = ["@start"] + [f"@b{m}" for m in range(MANY)] + ["@next"]
    for m in range(MANY):
        lines.append(f"\t%x{m} =w phi " + ", ".join(f"{label} {m}" for label in labels))
    lines.append(f"\tret %x{n}")
    lines.append("}")

with open("program.ssa", "w") as program:
    program.write("\n".join(lines) + "\n")
