"""A script that goes forward and back many times, and its transcript."""
TIMES = 100_000
with open("script", "w") as script:
    script.write("step\nback\n" * TIMES + "step 2\n")
with open("transcript", "w") as transcript:
    transcript.write("loaded 1 functions 0 data bytes ssa yes\n#0 $main @start 0\n")
    transcript.write("#1 $main @start 1\n#0 $main @start 0\n" * TIMES + "#2 done 5\n")
