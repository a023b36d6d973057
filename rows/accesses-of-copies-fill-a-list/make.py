"""The copy of round N is made from #2N, and has two lines: 2,048 of them fill a list."""
lines = ["loaded 1 functions 8 data bytes ssa yes", "#0 $main @start 0"]
for n in range(1, 2049):
    lines += [f"read #{2 * n} 65536 4", f"write #{2 * n} 65540 4"]
lines += ["#4097 $main @loop 1", "read #4098 65536 4", "read #4100 65536 4", "#4101 $main @loop 1"]
with open("transcript", "w") as transcript:
    transcript.writelines(line + "\n" for line in lines)
