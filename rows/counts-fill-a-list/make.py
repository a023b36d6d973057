"""Each of the 4,101 places is met once. After 4,096 of them no further one would be told."""
with open("program.ssa", "w") as program:
    program.write("function $main() {\n@start\n")
    program.writelines(f"\t%x{n} =w copy {n}\n" for n in range(4100))
    program.write("\tret\n}\n")
lines = ["loaded 1 functions 0 data bytes ssa yes", "#0 $main @start 0"]
lines += [f"count 1 $main @start {n}" for n in range(4096)] + ["#4096 $main @start 4096"]
lines += [f"count 1 $main @start {n}" for n in range(4096, 4101)] + ["#4101 done"]
with open("transcript", "w") as transcript:
    transcript.writelines(line + "\n" for line in lines)
