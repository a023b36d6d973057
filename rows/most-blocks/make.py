"""A function with as many blocks as one may have. Each goes on to the next."""

with open("program.ssa", "w") as program:
    program.write("function $main() {\n" + "".join(f"@{n}\n" for n in range(65535)) + "\tret\n}\n")
