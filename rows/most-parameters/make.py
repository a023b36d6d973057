"""A function with as many parameters as one may have temporaries."""

params = ", ".join(f"w %{n}" for n in range(65535))
with open("program.ssa", "w") as program:
    program.write(f"function $main({params}) {{\n@s\n\tret\n}}\n")
