"""A thousand moves forward and a thousand back, one a line: the n-th addition gives n."""

with open("program.ssa", "w") as program:
    program.write("function w $main() {\n@start\n\t%x =w copy 0\n")
    program.write("\t%x =w add %x, 1\n" * 999)
    program.write("\tret %x\n}\n")

forward = [f"#{n} $main @start {n}\n%x = {n - 1}\n" for n in range(1, 1001)]
back = [f"#{n} $main @start {n}\n" for n in range(999, -1, -1)]

with open("script", "w") as script:
    script.write("step\nprint %x\n" * 1000 + "back\n" * 1000 + "back\nprint %x\nstep 1001\nback 1001\n")

with open("transcript", "w") as transcript:
    transcript.write("loaded 1 functions 0 data bytes ssa no $main %x\n#0 $main @start 0\n")
    transcript.writelines(forward + back)
    transcript.write("no: at start\n%x unset\n#1001 done 999\n#0 $main @start 0\n")
