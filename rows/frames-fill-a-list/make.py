"""Of 9,000 calls of a function, inside of four others, no more than 3,096 are told at once; and those that are too
short never, however many there are."""
with open("program.ssa", "w") as program:
    program.write("""function $leaf() {
@start
\tret
}
function $down(w %n) {
@start
\tjnz %n, @more, @last
@more
\t%m =w sub %n, 1
\tcall $down(w %m)
\tret
@last
\tjmp @loop
@loop
\t%i =w phi @last 9000, @loop %j
\tcall $leaf()
\t%j =w sub %i, 1
\tjnz %j, @loop, @end
@end
\tret
}
function $main() {
@start
\tcall $down(w 3)
\tret
}
""")
MOST = 3096
# Each of the four takes three moves to call the next; the last one, two to come to the loop. A round takes four: the
# call, the return, and two more.
loop = 1 + 3 * 3 + 2
lines = ["loaded 3 functions 0 data bytes ssa yes", "#0 $main @start 0"]
lines += [f"frame #{loop + 4 * n + 1} #{loop + 4 * n + 2} $leaf 5" for n in range(MOST)]
lines += [f"frame #{1 + 3 * n} - $down {n + 1}" for n in range(4)]
at = loop + 4 * (MOST - 1) + 2
lines += [f"#{at} $down @loop 1"]
lines += [f"frame #{at + 3} #{at + 4} $leaf 5", f"frame #{at + 7} - $leaf 5", f"#{at + 7} $leaf @start 0"]
lines += [f"frame - #{at + 8} $leaf 5", f"#{at + 8 + 4 * 4000} $down @loop 1"]
at += 8 + 4 * 4000
left = 9000 - (MOST + 2 + 4000)
lines += [f"frame #{at + 4 * n + 3} #{at + 4 * n + 4} $leaf 5" for n in range(left)]
end = at + 4 * left + 2
lines += [f"frame - #{end + n + 1} $down {4 - n}" for n in range(4)]
lines += [f"frame - #{end + 5} $main 0", f"#{end + 5} done"]
with open("transcript", "w") as transcript:
    transcript.writelines(line + "\n" for line in lines)
