"""The store of round N is made from #2N-1. After 4,095 of them there is no room for the two lines of a copy."""
lines = ["loaded 1 functions 4 data bytes ssa yes", "#0 $main @start 0"]
lines += [f"write #{2 * n - 1} 65536 4" for n in range(1, 4096)] + ["#8190 $main @loop 1"]
lines += [f"write #{2 * n - 1} 65536 4" for n in range(4096, 4101)] + ["#8200 $main @loop 1"]
with open("transcript", "w") as transcript:
    transcript.writelines(line + "\n" for line in lines)
