"""A function of 65,536 temporaries, one more than one may have."""
with open("program.ssa", "w") as program:
    program.write("function $main() {\n@start\n")
    for number in range(65536):
        program.write(f"%{number:x} =w copy 1\n")
    program.write("ret\n}\n")
