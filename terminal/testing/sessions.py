"""Sessions that terminal/test types: what is typed, and what must be shown of each line.

Positions and values are those of the pages docs/STORIES.md and docs/QUESTIONS.md, or are worked out by hand: in
examples/squares.ssa a round of `$fill` is nine moves, the first of which begins at #2.
"""
from __future__ import annotations

import math
import pathlib
import struct

TOP = pathlib.Path(__file__).resolve().parent.parent.parent
EXAMPLES = TOP / "examples"
OWN = pathlib.Path(__file__).resolve().parent
SQUARES = EXAMPLES / "squares.ssa"
PI = struct.unpack("<Q", struct.pack("<d", math.pi))[0]
HALF = struct.unpack("<I", struct.pack("<f", 0.5))[0]

Lines = list[tuple[str, list[str]]]

# The first session of README.md, then its cause asked for.
FIRST: Lines = [
    ("c", ["stop: end", "#88 done 30"]), ("watch w $bias", ["watch 1: w $bias+0"]),
    ("rc", ["stop: watch 1, w $bias+0: 0 -> 16", "#44 $fill @body 4", "> 18 ", "%square=16, %place=$bias+0"]),
    ("bt", ["> 0  $fill @body 4  line 18", "  1  $main @start 1  line 27"]), ("p %i", ["%i = 4"]),
    ("s", ["#45 $fill @body 5"]), ("poke w $bias 0", ["#46 $fill @body 5"]), ("c", ["#89 done 14"]),
]

MOVES: Lines = [
    ("n", ["#50 $main @start 1", "> 28 "]), ("reverse-next", ["#0 $main @start 0"]), ("s", ["#1 $fill @start 0"]),
    ("step 43", ["#44 $fill @body 4"]), ("fin", ["#50 $main @start 1"]), ("rs 6", ["#44 $fill @body 4"]),
    ("", ["#38 $fill @loop 0"]), ("rf", ["#0 $main @start 0"]), ("back", ["this is the start of the run"]),
    ("goto 44", ["#44 $fill @body 4"]), ("checkpoint here", ["checkpoint here: #44 $fill @body 4"]),
    ("set %i 9", ["#45 $fill @body 4"]), ("checkpoint", ["checkpoint 1: #45"]),
    ("set var %i = %i * 2", ["#46"]), ("p %i", ["= 18"]), ("set %i=9", ["#47"]), ("back 2", ["#45"]),
    ("info checkpoints", ["here: #44", "1: #45"]),
    ("goto 20", ["taken back: set %i 9 (#44)", "#20 $fill @loop 0"]), ("restart 1", ["#45 $fill @body 4"]),
    ("p %i", ["%i = 9"]), ("restart here", ["taken back: set %i 9", "#44 $fill @body 4"]), ("p %i", ["%i = 4"]),
    ("tbreak $fill @body if %i == 2", ["break 1: $fill @body 0 (line 14), if %i == 2, once"]),
    ("run", ["stop: break 1", "#22 $fill @body 0"]), ("stops", ["none"]), ("goto #31", ["#31 $fill @body 0"]),
    ("rn 2", ["#29 $fill @loop 0"]), ("goto 10**9", ["was expected"]),
    ("goto 1000000", ["the run is over before #1000000", "#88 done 30"]),
    ("s", ["the run is over"]), ("rs", ["#87 $main @end 2", "%total=30"]), ("up", ["the outermost frame is 0"]),
    ("goto 3", ["#3 $fill @loop 1"]), ("up", ["frame 1 $main @start 1", "> 27 "]), ("p %total", ["%total unset"]),
    ("p %square", ["%square unset"]), ("down", ["frame 0 $fill @loop 1"]), ("frame 1", ["frame 1 $main"]),
    ("fin", ["#88 done 30"]), ("rc", ["stop: start", "#0 $main @start 0"]),
]

# What users of gdb type by habit. A round of `$main`'s loop, which adds up, is eight moves; the first begins at #51.
GDB: Lines = [
    ("b 14 if %i > 2", ["break 1"]), ("commands\np %i\np %i * 2\nend", []),
    ("c", ["stop: break 1", "#31 $fill @body 0", "%i = 3\n", "%i * 2 = 6\n"]),
    ("disable 1", ["1: $fill @body 0 (line 14), if %i > 2, switched off, types 2 lines, stopped once"]),
    ("start", ["#0 $main @start 0"]), ("c", ["stop: end", "#88 done 30"]),
    ("enable", ["1: $fill @body 0 (line 14), if %i > 2, types 2 lines, stopped once"]),
    ("run", ["stop: break 1", "#31 $fill @body 0", "%i = 3\n"]), ("d", ["deleted 1"]),
    ("advance 19", ["#36 $fill @body 5", "> 19 "]), ("until", ["#37 $fill @body 6"]),
    ("until", ["#49 $fill @end 0", "> 22 "]),
    ("until", ["#50 $main @start 1"]), ("goto 4", ["#4 $fill @body 0"]), ("until 27", ["#50 $main @start 1"]),
    ("goto 44", ["#44 $fill @body 4"]),
    ("path", ["$fill went through 11 blocks, from #1 to #44", "  #1  @start\n  #2  @loop @body  x 5\n"]),
    ("why not @end", ["control didn't come to @end in this call of $fill",
                      "#39 $fill @loop 1  line 12: jnz %more, @body, @end", "[1] %more = 1  so it went to @body"]),
    ("why 1", ["%more =w cslew %i, 4"]), ("why not @start", ["no jump of $fill leads to @start"]),
    ("why not @nowhere", ["$fill has no such label"]),
    ("path $main", ["$main went through 1 block, from #0 to #0"]),
    ("disas", ["   6  function $fill", "> 18 ", "  23  }"]),
    ("up", ["frame 1 $main @start 1"]), ("disas", ["> 27 ", "  45  }"]), ("list", ["  22 ", "> 27 ", "  32 "]),
    ("set listsize 3", []), ("list 20", ["  19 ", "  20 ", "  21 "]), ("list", ["  22 ", "  24 "]),
    ("down", ["frame 0 $fill @body 4"]), ("list", ["  17 ", "> 18 ", "  19 "]), ("up", ["frame 1"]),
    ("list", ["  26 ", "> 27 ", "  28 "]),
    ("info locals", ["10 unset"]), ("i loc", ["10 unset"]), ("info args", ["none"]),
    ("info s", ["> 1  $main @start 1"]),
    ("rwatch w $bias", ["no such command; `readers WIDTH ADDRESS` lists"]), ("made", ["made %x was expected"]),
    ("goto 88", ["#88 done 30"]), ("path $fill", ["  #47  @loop @end"]),
    ("stps", ["no such command; `stops` is one"]), ("goto suspect 1", ["no suspicion was listed yet"]),
    ("suspects", ["[1] #44 $fill @body 4  line 18: storew %square, %place",
                  "bounds: storew at the end of $squares (16 bytes), into $bias+0",
                  "1 suspicion in 88 moves, done 30"]),
    ("goto suspect 1", ["#44 $fill @body 4"]),
    ("made %place", ["%place is made of the address of $squares (16 bytes)"]),
    ("made %i", ["%i is made of numbers"]), ("goto suspect 2", ["a number from 1 to 1 was expected"]),
    ("suspects strict 40", ["no suspicion in 40 moves, and the run goes on"]),
    ("suspects bonds", ["bonds: no kind of suspicion"]), ("goto 88", ["#88 done 30"]),
    ("tb fill", ["$fill @start 0 (line 8), once"]), ("b main @end", ["$main @end 0"]),
    ("set w[$squares + 4] = 77", ["#89 done 30"]), ("x/2wd $squares", ["0  77"]), ("set w[$bias] 5", ["#90 done 30"]),
    ("p w[$bias]", ["= 5"]), ("set var b[$bias+1]=1", ["#91 "]), ("p w[$bias]", ["= 261"]),
    ("set $bias 3", ["or set w[ADDRESS] EXPRESSION, was expected"]), ("set w[$bias 3", ["] was expected"]),
    ("rs 3", ["#88 done 30"]), ("d breakpoints", ["deleted"]), ("stops", ["none"]),
    # Five rounds of two blocks, with one before and two behind.
    ("list fill", ["function $fill"]), ("path fill", ["$fill went through 13 blocks"]),
    ("disas fill", ["   6  function $fill"]),
    ("source /nowhere/at-all", ["/nowhere/at-all: No such file"]),
    ("run now", ["now: nothing more was expected; arguments are given when the session begins"]),
    ("goto start", ["#0 $main @start 0"]), ("b fill", ["break "]), ("goto end", ["#88 done 30"]), ("d", ["deleted"]),
    # Addresses without bytes, characters as bytes, and addresses as long words, whatever was shown before.
    ("x/s 0", ["0: --"]), ("x/2s 4095", ["4095: --\n4096 $fill: --\n"]), ("x/2wx $squares", ["0x00000000  "]),
    ("x/2c $squares+4", ['$squares+4: "\\001"  "\\000"']), ("x/2x $squares+4", ["$squares+4: 0x01  0x00"]),
    ("p '\\n' + '\\0' + '\\x1b' + '\\101' + '\\''", [f"= {10 + 0 + 27 + 65 + 39}"]),
    ("p 'ab'", ["'ab': a character between quotes was expected"]), ("when", ["the session stands at #88"]),
    ("p squares", ["'squares': a number, %temporary, $name or w[ADDRESS] was expected; there is $squares"]),
    ("goto 44", ["#44 $fill @body 4"]), ("p square", ["; there is %square"]), ("p w[place]", ["; there is %place"]),
    ("when depth > 1", ["depth > 1: temporaries of one function and memory at fixed addresses were expected"]),
    ("bt -1", ["  1  $main @start 1"]), ("bt full", ["> 0  $fill @body 4", "\n     %square = 16\n", "\n  1  $main"]),
    ("bt full -1", ["  1  $main @start 1  line 27: call $fill()\n     10 unset"]), ("bt -0", ["from 1 to 1000"]),
    ("list 10,12", ["  10 ", "  11 ", "  12 "]), ("", ["  13 ", "  15 "]), ("list -", ["  10 ", "  12 "]),
    ("", ["  7 ", "  9 "]), ("list 40,", ["  40 ", "  42 "]), ("list ,20", ["> 18 ", "  20 "]),
    ("list 20,fill", []), ("list ,", [",: a line, a function, data"]), ("list 1,2", ["  1  ", "  2  "]),
    ("list -", ["the first line was shown already"]),
    ("b 14", []), ("b 15", []), ("b 16", []), ("watch w $bias", []), ("info watchpoints", ["w $bias+0"]),
    ("checkpoint one", []), ("checkpoint two", []), ("delete checkpoint one", ["deleted checkpoint one"]),
    ("info checkpoints", ["two: #44"]), ("delete checkpoint one", ["one: the name of a checkpoint was expected"]),
    ("delete checkpoint", ["deleted checkpoint two"]), ("delete 2-999", ["deleted "]), ("stops", ["none"]),
    ("delete 3-4", ["3-4: the number of a stop was expected"]), ("display %i", ["1: %i = 4"]),
    ("delete display 1", []), ("info display", []), ("shell ls", ["a session runs no other programs"]),
    ("!ls", ["a session runs no other programs"]), ("detach", ["`quit` leaves"]),
    # Of many names those that are nearest are told.
    ("b fil", ["fil: a line, $f, @b or $f @b was expected, of $fill, $main"]),
]

# Of strays.ssa: moves 1, 4 and 6 are suspicious, by what docs/CHECKING.md says of each kind.
SUSPICIOUS: Lines = [
    ("break suspect", ["break s: suspicious moves", "the run as it is now has 3"]),
    ("c", ["stop: suspicion s, bounds: storew at the end of $a (4 bytes), into $b+0", "#1 $main @start 1"]),
    ("c", ["stop: suspicion s, undef: ", "#4 $main @start 4"]),
    ("c", ["stop: suspicion s, bounds: ", "#6 $main @two 1"]),
    ("c", ["stop: end", "#8 done 0"]), ("reverse", ["stop: suspicion s, bounds: ", "#6 $main @two 1"]),
    ("reverse 2", ["stop: suspicion s, bounds: ", "#1 $main @start 1"]),
    ("reverse", ["stop: start", "#0 $main @start 0"]),
    ("b @two", ["break 1"]), ("c 2", ["#4 $main @start 4"]), ("c", ["stop: break 1", "#5 $main @two 0"]),
    ("reverse", ["stop: suspicion s, undef: ", "#4 $main @start 4"]),
    ("stops", ["s: suspicious moves, stopped", "1: $main @two 0"]),
    ("ignore s 1", ["stop s has no condition and no count"]),
    ("condition s 1", ["stop s has no condition and no count"]),
    ("disable s", ["s: suspicious moves, switched off"]), ("run", ["stop: break 1", "#5 $main @two 0"]),
    ("enable s", ["s: suspicious moves"]), ("break suspect undef", ["the run as it is now has 1"]),
    ("stops", ["s: suspicious moves (undef)"]), ("run", ["stop: suspicion s, undef: ", "#4 $main @start 4"]),
    ("set %unset 1", ["#5 $main @start 4"]), ("break suspect", ["the run as it is now has 1"]),
    ("c", ["stop: end", "#7 done 1"]), ("reverse", ["stop: suspicion s, bounds: ", "#1 $main @start 1"]),
    ("d s", ["deleted s"]), ("reverse", ["stop: start"]), ("break suspect bonds", ["bonds: no kind of suspicion"]),
    # What was asked before, and looked for with stops of its own, doesn't stop a run.
    ("d 1", ["deleted 1"]), ("c", ["stop: end"]), ("why w $b", ["w $b+0 = ", "#1 $main @start 1"]),
    ("break suspect", ["break s"]), ("run", ["stop: suspicion s, bounds: ", "#1 $main @start 1"]),
]

# On the stack of examples/digits.ssa after 101 moves: docs/LANGUAGE.md has the picture.
VALUES: Lines = [
    ("goto 101", ["#101 $number @digit 3", "%t2=49, %at.next=frame 1 $main alloc %count+3"]),
    ("p %value", ["%value = 12345"]), ("p/x %value", ["%value = 0x3039"]), ("p/o 8", ["8 = 010"]),
    ("p/t 5", ["5 = 0b101"]),
    ("p %buffer", ["%buffer = 16777220 (frame 0 $number alloc %buffer+0)"]),
    ("p %at.next", ["%at.next = 16777219 (frame 1 $main alloc %count+3)"]), ("p/c %t2", ['%t2 = "1"']),
    ("p/a %at.next", ["= 16777219 frame 1 $main alloc %count+3"]), ("p 7305076", ["7305076 = 7305076"]),
    ("p/c 7305076", ['"two"']), (f"p/f {PI}", [f"= {math.pi!r}"]), ("p -1", ["-1 = -1"]),
    ("p/u -1", ["= 18446744073709551615"]),
    ("p %rest * 2 + 'a' % 10", [f"= {2 * 1 + 97 % 10}"]), ("p (1 << 40) - 1", [f"= {(1 << 40) - 1}"]),
    ("p 7 / -2", ["= -3"]), ("p -7 % 3", ["= -1"]), ("p !0 && 3 > 2", ["= 1"]), ("p ~0", ["= -1"]),
    ("p 0x10 == 16 || 1 / 0", ["= 1"]), ("p b[%at.next + 2]", ["= 51"]), ("p $numbers+8", ["= 65544 ($numbers+8)"]),
    ("p w[$numbers+8]", ["= 12345"]), ("p w[65535]", ["address 65535 isn't live"]), ("p %t3", ["%t3 unset"]),
    ("p $number", ["= 4096 ($number)"]), ("x/3wd $numbers", ["65536 $numbers+0: 7  42  12345"]),
    ("x/4xb %buffer", ["frame 0 $number alloc %buffer+0: 0x32  0x33  0x34  0x35"]), ("", ["16777224: --  --  --  --"]),
    ("x/2hu $numbers+8", ["$numbers+8: 12345  0"]), ("x/gx $numbers", ["0x0000002a00000007"]),
    ("mem $numbers 4", ["07 00 00 00"]),
    ("up", ["frame 1 $main @body 2"]), ("p %count", ["%count = 16777216 (frame 1 $main alloc %count+0)"]),
    ("p %place", ["%place = 65544 ($numbers+8)"]), ("temps", ["%t3 = 12345", "%t4 = 1", "%t6 unset"]),
    ("down", ["frame 0"]),
    ("info symbol 16777217", ["frame 1 $main alloc %count+1"]), ("info symbol 4112", ["4112 $main"]),
    ("info data", ["line 4: $numbers 65536, 12 bytes"]),
    ("info functions", ["line 6: $number(w %value)", "line 32: $main()"]),
    ("display %rest", ["1: %rest = 1"]), ("display/x w[%count]", ["has no such temporary"]), ("s", ["1: %rest = 1"]),
    ("undisplay 1", []), ("display %none", ["3: %none: $number has no such temporary"]), ("undisplay", []),
    ("info display", []), ("out", ["5 bytes", '0  "7\\n"', '2  "42\\n"']),
    ("l", ["> 18 ", "%rest=1"]), ("list $main", [" 32 "]), ("list @write", [" 20  @write"]),
    ("list 1", [" 1  # Writes"]), ("list 999", ["54"]),
    ("back 3", ["#99 $number @digit 1"]), ("p depth", ["depth = 2"]), ("p position", ["position = 99"]),
    (f"poke w $numbers {HALF}", ["#100"]), ("p/f w[$numbers]", ["= 0.5"]),
    ("info session", ["#100"]),
]

STOPS: Lines = [
    ("b 14 if %i > 2", ["break 1: $fill @body 0 (line 14), if %i > 2"]), ("c", ["stop: break 1", "#31 $fill @body 0"]),
    ("c", ["stop: break 1", "#40 $fill @body 0"]), ("rc", ["stop: break 1", "#31 $fill @body 0"]),
    ("condition 1", ["1: $fill @body 0 (line 14)"]),
    ("run", ["stop: break 1", "#4 $fill @body 0"]), ("ignore 1 2", ["the next 2 are passed over"]),
    ("c", ["#31 $fill @body 0"]),
    ("delete 1", ["deleted 1"]), ("stops", ["none"]), ("watch %i", ["watch 2: %i of this call of $fill"]),
    ("c", ["stop: watch 2, %i of this call of $fill: 3 -> 4", "#38 $fill @loop 0"]),
    ("rc", ["3 -> 4", "#37 $fill @body 6"]), ("c 3", ["its frame is over", "#50 $main @start 1"]),
    ("stops", ["none"]), ("watch 16 $squares", ["watch 3: 16 bytes from $squares+0"]),
    ("rc", ["stop: watch 3, 16 bytes from $squares+0: byte 12 0 -> 9", "#35 $fill @body 4"]),
    ("rc", ["byte 8 0 -> 4", "#26 $fill @body 4"]),
    ("d", ["deleted 3"]), ("watch w $squares+12 if w[$squares+4] == 1", ["watch 5: w $squares+12, if"]),
    ("c", ["0 -> 9", "#36 $fill @body 5"]),
    ("d 5", ["deleted 5"]), ("watch $fill %i", ["watch 6: $fill %i"]), ("run", ["#2 $fill @loop 0"]),
    ("c", ["#11 $fill @loop 0"]),
    ("c", ["#20 $fill @loop 0"]), ("b", ["break 7: $fill @loop 0 (line 11)"]),
    ("b @end", ["break 8: $fill @end 0 (line 22)"]),
    ("b $main @loop 1", ["break 9: $main @loop 1 (line 33)"]), ("info b", ["6: $fill %i", "9: $main @loop 1"]),
    ("d 6 7", ["deleted 6", "deleted 7"]),
    ("c", ["stop: break 8", "#49 $fill @end 0"]), ("c", ["stop: break 9", "#52 $main @loop 1"]),
    ("b $fill if depth == 2", ["break 10"]),
    ("rc", ["stop: break 8"]), ("d 8", []), ("rc", ["stop: break 10", "#1 $fill @start 0"]),
    ("b 29", ["$main @loop 0 (line 32)"]),
]

# A stack variable of a loop: its bytes are dead between two calls, and are written with the same value.
STACK: Lines = [
    ("b $number @digit", ["break 1"]), ("c", ["$number @digit 0"]), ("d", []),
    ("watch b %buffer+3", ["watch 2: b $number alloc %buffer+3"]),
    ("c", ["stop: watch 2, b $number alloc %buffer+3: 0 -> 55"]),
    ("c", ["stop: watch 2", ": 55 -> 0", "%buffer"]), ("c", [": 0 -> 50"]), ("rc", [": 0 -> 50", "storeb"]),
    ("run", ["stop: watch 2, b $number alloc %buffer+3: dead -> 0"]), ("d", ["deleted 2"]),
]

ASKED: Lines = [
    ("writers w $balance", ["#36 $charge @start 2  line 10: storew %t2=199, $balance",
                            "#39 $pay @start 3  line 19: storew %t2=300, $balance",
                            "6 writes in the run from #0 to #47 done 300"]),
    ("readers $balance", ["#32 $pay @start 0", "#45 $main @end 0", "7 reads in the run from #0 to #47 done 300"]),
    ("readers w[$balance]", ["#32 $pay @start 0", "#45 $main @end 0", "7 reads in the run from #0 to #47 done 300"]),
    ("goto 38", ["#38 $pay @start 2"]), ("when %amount == 100", ["3 times in the run from #0 to #47 done 300"]),
    ("when w[$balance] == 199", ["holds from #37, no longer from #40", "1 time in the run"]), ("p %t1", ["%t1 = 200"]),
    ("why", ["$pay was called by", "line 31: call $pay(w 100)"]), ("why call", ["$pay was called by"]),
    ("why jump", ["$pay was called by"]), ("why 4 $balance", ["w $balance+0 = 199: stored by", "#36 $charge @start 2"]),
    ("why w $balance", ["#36 $charge @start 2"]),
    ("why $balance", ["w $balance+0 = 199: stored by", "#36 $charge @start 2"]),
    ("why $balance+2", ["no item of $balance with a width begins there, so say one: w $balance+2"]),
    ("why w $balance", ["#36 $charge @start 2"]), ("why 1", ["%t2 = 199 was set by"]),
    ("why back", ["#36 $charge @start 2"]),
    ("goto why", ["#36 $charge @start 2"]), ("up", ["frame 1 $pay"]),
    ("why %amount", ["%amount = 100 is argument 1 of 1 of the call"]),
    ("set %t2 1", ["innermost frame"]), ("frame 0", []), ("set %t2 1", ["#37 $charge @start 2"]),
    ("why %t2", ["%t2 = 1 was set by hand: #36 set %t2 1"]), ("poke w $balance %t2+4", ["#38"]),
    ("s", ["#39 $charge @start 3"]),
    ("why w $balance", ["w $balance+0 = 1: stored by", "#38"]), ("back", ["#38"]),
    ("why w $balance", ["by hand: #37 poke w $balance 5"]),
]

# Five rounds of $fill and four of $main, counted by hand.
COUNTED: Lines = [
    ("counts", ["49   55.7%  $fill, entered 1 time", "39   44.3%  $main, entered 1 time",
                "88 moves in the run from #0 to #88 done 30"]),
    ("step 30", ["#30"]),
    ("counts fill", ["6  11      %more =w cslew %i, 4", "5  14      %square =w mul %i, %i", "1  22      ret",
                     "$fill: 49 moves, entered 1 time in the run from #0 to #88"]),
    ("counts $main", ["4  39      %next =l add %i, 1", "1  44      ret %total", "$main: 39 moves"]),
    ("step 5", ["#35"]), ("counts $no", ["$no: a function was expected; there are $fill, $main"]),
    ("poke w $squares 7", ["#36"]), ("counts", ["88 moves in the run from #0 to #89 done 37"]),
]

FIBONACCI: Lines = [
    ("b $fib if depth == 4", ["break 1"]), ("c", ["stop: break 1", "$fib @start 0"]), ("p %n", ["%n = 4"]),
    ("p depth", ["= 4"]),
    ("up 2", ["frame 2 $fib"]), ("p %n", ["%n = 6"]), ("down 2", ["frame 0"]), ("d", []),
    ("fin", ["given back: %a = 3"]),
    ("n 2", []), ("p %b", ["%b = 2"]), ("rn", ["%n2=3"]), ("fin", ["given back: %a = 5"]),
    ("rf", ["#0 $main @start 0"]), ("c", ["done 8"]),
]

# docs/QUESTIONS.md, "What would happen if this value were another?": -1 squared is stored at 4 bytes before $squares.
# Lines, values and names that are looked for. The squares of 0 to 3 are stored, and that of 4 behind them.
SOUGHT: Lines = [
    ("search storew", ["> 18 "]), ("search", ["> 18 "]), ("reverse-search phi", ["> 10 "]), ("search jnz", ["> 12 "]),
    ("search", ["> 33 "]), ("search nosuch", ["nosuch: no line has it"]), ("search [", ["[: no line has it"]),
    ("search ^@b.dy", ["> 34 "]), ("whatis %i", ["%i: l, set at line 30"]), ("whatis %k", ["no such temporary"]),
    ("whatis $fill", ["$fill: a function (), which gives nothing, line 6"]), ("whatis w[$bias]", ["w[$bias]: w"]),
    ("whatis main", ["$main: a function (), which gives w, line 25"]),
    ("ptype $squares", ["$squares: 16 bytes of data from 65536 on, line 3"]), ("whatis", ["whatis %x"]),
    ("info line 18", ["$fill @body 4  line 18: storew %square, %place"]),
    ("info line $fill @end", ["$fill @end 0  line 22: ret"]), ("find", ["find [WIDTH] VALUE"]),
    ("frame function fill", ["$fill: no frame of it"]), ("b 18", []), ("c", ["#8 $fill @body 4"]),
    ("frame function main", ["frame 1 $main"]), ("frame function $fill", ["frame 0 $fill"]),
    ("frame function gone", ["gone"]), ("whatis %i", ["%i: w, set at line 10"]), ("watch -l $bias", ["w $bias+0"]),
    ("p *%i", ["the memory at an address is w[%p]"]), ("p $squares[2]", ["an item of an array is w[$array+4*%i]"]),
    ("delete", []), ("goto end", ["#88 done 30"]), ("find 14", ["0 places"]),
    ("find 9", ["65548 $squares+12\n1 place"]),
    ("find 16", ["65552 $bias+0\n1 place"]), ("find l 4294967296", ["65536 $squares+0\n1 place"]),
    ("find b 4", ["65544 $squares+8\n1 place"]), ('find "\\t"', ["65548 $squares+12\n1 place"]),
    ("find 4294967296", ["doesn't fit into 32 bits"]),
]

# Fibonacci's number of 6 takes 25 calls, of which 8 are of 1 and 5 of 0.
CALLED: Lines = [
    ("calls", [">100.0%  $main()  from #0 to #137\n  98.5%    $fib(%n=6)  from #1 to #136\n",
               "\n   2.2%          $fib(%n=0)  from #127 to #130\nthe longest calls in the run from #0 to #137 done"]),
    ("calls if %n", ["calls $FUNCTION was expected before `if`"]),
    ("calls none", ["none: a function was expected; there are $fib, $main"]),
    ("calls fib", ["#1 $fib(%n=6)  called at #0 $main @start 0  line 20: ", "25 calls of $fib in the run from #0 to",
                   "\n#5 $fib(%n=5)  called at #4 $fib @large 1  line 11: "]),
    ("s 50", []), ("calls $fib if %n < 2", ["13 calls of $fib in the run"]),
    ("calls main", ["0 calls of $main in the run"]),
    ("calls fib if %n == 1", ["$fib(%n=1)", "8 calls"]), ("calls fib if %sum", ["%sum: $fib has no such parameter"]),
    ("calls fib if w[%n] > 1", ["parameters and memory at fixed addresses were expected"]), ("call fib", ["can't be"]),
    ("goto 6", ["#6 $fib"]), ("calls", ["> 58.4%      $fib(%n=5)  from #5 to #85\n  34.3%        $fib(%n=4"]),
    ("goto 1", ["#1 $fib"]), ("set %n 3", ["#2 $fib"]), ("calls fib", ["#1 $fib(%n=6)", "\n5 calls of $fib in"]),
]

HAND: Lines = [
    ("goto 2", ["#2 $fill @loop 0"]), ("set %i -1", ["#3 $fill @loop 0", "%i=-1"]),
    ("c", ["#10 fault dead address 65532"]),
    ("why", ["storew %square, %place", "the nearest data is $squares, of 16 bytes: $squares-4", "[2] %place = 65532"]),
    ("why 2", ["[1] %bytes = 18446744073709551612 (-4)"]), ("why 1", ["%offset = 18446744073709551615 (-1)"]),
    ("why 1", ["%offset =l extsw %i", "[1] %i = 4294967295 (-1)"]), ("why 1", ["was set by hand: #2 set %i -1"]),
    ("back", ["#9 $fill @body 4"]), ("rn 4", ["#5 $fill @body 0"]), ("when %i < 0", ["holds from #3 on"]),
]

# $show is called for each way to put the queens, and at its beginning it went through one block. A poke stays there.
# The second way has its queens in the columns 2, 5, 1, 4, 0, 3.
# $columns has 6 bytes: what is poked behind its first one is no write of that, and of its word only one byte.
ENTERED: Lines = [
    ("b $show", ["break 1"]), ("c", ["#6565 $show @start 0"]), ("path", ["$show went through 1 block, from #6565"]),
    ("c", ["#16574 $show @start 0"]), ("path", ["$show went through 1 block, from #16574 to #16574"]),
    ("why not @end", ["control didn't come to @end in this call of $show",
                      "of @loop, which control didn't come to in this call"]),
    ("poke b $columns 5", ["#16575 $show @start 0"]), ("poke b $columns+5 7", ["#16576 $show @start 0"]),
    ("path", ["$show went through 1 block, from #16574 to #16576"]),
    ("why not @loop", ["control didn't come to @loop in this call of $show"]),
    ("step", ["#16577 $show @loop 0"]),
    ("path", ["$show went through 2 blocks, from #16574 to #16577\n  #16574  @start @loop"]),
    ("writers $columns", ["#16574 by hand: poke b $columns 5\n#", "writes and 1 by hand in the run"]),
    ("writers 2 $columns+4", ["by hand: poke b $columns+5 7\n", "writes and 1 by hand in the run"]),
    ("why w $columns", ["byte 0 of w $columns+0 =", "by hand: #16574 poke b $columns 5\nbyte 3 of", "[1] %column = 4"]),
    ("step 2", ["#16579 $show @body 0"]),
    ("why not @loop", ["control came to @loop at #16577; since then it could have by",
                       "line 41: jmp @loop  of @start, which control didn't come to since then",
                       "line 53: jmp @loop  of @body, which control didn't come to since then"]),
    ("why not @end", ["control didn't come to @end", "#16578 $show @loop 1",
                      "[1] %is.inside = 1  so it went to @body"]),
]

# A round takes 14 moves, and the first comes to its alloc at #8 (docs/STORIES.md has the last two).
BUFFERS: Lines = [
    ("goto 3578", ["#3578 $main @body 0"]), ("info symbol 16777224", ["frame 0 $main alloc %buffer+0 of #8"]),
    ("info symbol 16781321", ["frame 0 $main alloc %buffer+1 of #22"]), ("info symbol 16777223", ["alloc %sum+3"]),
    ("p %buffer", ["%buffer = 17817608 (frame 0 $main alloc %buffer+0)"]), ("info symbol 17825792", ["17825792"]),
]

# 6 + 7 * 256 is 1798, and a store of the same value is the last one.
COPY: Lines = [
    ("c", ["exit 1798"]), ("why", ["line 20: call $exit(w %again)", "[1] %again = 1798"]),
    ("why 1", ["[1] w $to+8 = 1798", "[2] %word = 65552 ($to+8)"]),
    ("why 1", ["w $to+8 = 1798: stored by", "#8 $main @start 8", "[1] %value = 1798"]),
    ("why 1", ["[1] w $to+8 = 1798"]),
    ("why 1", ["byte 1 of w $to+8", "#3 $main @start 3  line 11: storeb 7, %byte", "bytes 0, 2, 3 of w $to+8",
               "#1 $main @start 1  line 9: blit $from, %to, 8", "[4] w $from+4 = 6"]),
    ("why 4", ["w $from+4 = 6 so since the start: line 3, $from"]),
    ("writers w $to+8", ["#1 ", "#3 ", "#6 ", "#7 ", "#8 ", "5 writes"]),
    ("readers $from+4", ["#1 $main @start 1", "1 read in"]),
    ("back", ["#11 $main @end 1"]),
    ("why 12 $to", ["bytes 8, 9, 10, 11 of 12 bytes at $to+0", "#8 $main", "#1 $main",
                    "so since the start: line 4, $to"]),
]

# Each bug found by `why` alone. The last line is where right operands make a wrong value, or a wrong thing is done.
CAUSES: dict[pathlib.Path, Lines] = {
    # The loop goes round once too often, and writes the square of 4 over $bias.
    SQUARES: [
        ("c", ["done 30"]), ("why", ["line 44: ret %total", "[1] %total = 30"]),
        ("why 1", ["[1] %sum = 14", "[2] %bias = 16"]),
        ("why 2", ["%bias =w loadsw $bias", "[1] w $bias+0 = 16"]),
        ("why 1", ["#44 $fill @body 4", "storew %square, %place", "[2] %place = 65552 ($bias+0)"]),
        ("why 3", ["control came to @body by", "jnz %more, @body, @end", "[1] %more = 1"]),
        ("why 1", ["%more =w cslew %i, 4", "[1] %i = 4"]),
    ],
    # What lies near an address without bytes, by what it was made from; $main is the first function, and $x the data.
    OWN / "dead.ssa": [
        ("step", ["#1 "]), ("c", ["fault dead address 12"]), ("why", ["12 is a small number: an address is missing"]),
        ("goto 1", []), ("set %k 1", []), ("c", ["fault dead address 4100"]),
        ("why", ["4100 is in $main, a function, which has no bytes"]),
        ("goto 1", []), ("set %k 2", []), ("c", ["fault dead address 4295032840"]),
        ("why", ["its low 32 bits are an address, 65544 ($x+8)"]),
        ("goto 1", []), ("set %k 3", []), ("c", ["fault dead address 18446744069431361536"]),
        ("why", ["its low 32 bits are an address, 16777216 (frame 0 $main alloc %s+0)"]),
        ("goto 1", []), ("set %k 4", []), ("c", ["fault dead address 18446744073709551608"]),
        ("why", ["-8 is a small number: an address is missing"]),
    ],
    # The index of row 1, column 2 is made with 2 in the place of 3.
    EXAMPLES / "transpose.ssa": [
        ("c", ["done 5"]), ("why", ["[1] %t2 = 5"]), ("why 1", ["[1] w $to+20 = 5"]),
        ("why 1", ["#105 $transpose @body 11", "[1] %t8 = 5"]),
        ("why 1", ["%t8 =w loadsw %t7", "[1] w $from+16 = 5", "[2] %t7 = 65552 ($from+16)"]),
        ("why 2", ["[1] %t6 = 16"]), ("why 1", ["[1] %t5 = 4"]),
        ("why 1", ["[1] %t4 = 4"]), ("why 1", ["[1] %t3 = 2", "[2] %column = 2"]),
        ("why 1", ["%t3 =w mul %row, 2", "[1] %row = 1"]),
    ],
    # The balance was read before the fee changed it.
    EXAMPLES / "account.ssa": [
        ("c", ["done 300"]), ("why", []), ("why 1", ["[1] w $balance+0 = 300"]),
        ("why 1", ["#39 $pay @start 3", "[1] %t2 = 300"]),
        ("why 1", ["[1] %t1 = 200", "[2] %amount = 100"]),
        ("why 1", ["#32 $pay @start 0", "but memory was changed since, before #38, by", "#36 $charge @start 2",
                   "[3] w $balance+0 = 199"]),
    ],
    # For @body the phi takes %t5, the number that wasn't larger.
    EXAMPLES / "largest.ssa": [
        ("c", ["done 4"]), ("why", ["[1] %t1 = 4"]), ("why 1", ["was given back by", "line 29: ret %best"]),
        ("why 1", ["was taken for @next by"]),
        ("why 1", ["was taken for @larger by", "[1] %best = 4"]), ("why 1", ["was taken for @next by"]),
        ("why 1", ["%best.next = 4 was taken for @body by", "phi @body %t5, @larger %best", "#21 $largest @body 5",
                   "[1] %t5 = 4", "[2] %t6 = 0"]),
    ],
    # A byte of a buffer of four is written before its beginning, over the count.
    EXAMPLES / "digits.ssa": [
        ("c", ["done 822083587"]), ("why", []), ("why 1", ["[1] w frame 0 $main alloc %count+0 = 822083587"]),
        ("why 1", ["[1] %t5 = 822083587"]),
        ("why 1", ["[1] %t4 = 822083586"]), ("why 1", ["[1] w frame 0 $main alloc %count+0 = 822083586"]),
        ("why 1", ["byte 3 of w frame 0 $main alloc %count+0", "#101 $number @digit 3",
                   "%at.next = 16777219 (frame 1 $main alloc %count+3)", "bytes 0, 1, 2 of w"]),
        ("why 2", ["%at.next =l sub %at, 1", "[1] %at = 16777220 (frame 0 $number alloc %buffer+0)"]),
    ],
    # The way over @february sets %t2 alone.
    EXAMPLES / "months.ssa": [
        ("c", ["fault unset temporary %days"]), ("why", ["[1] %days unset"]),
        ("why 1", ["nothing set it in this call of $days", "line 15 (@april), line 18 (@other)"]),
        ("why 1", ["control came to @end by", "#20 $days @february 1"]),
    ],
    # 255 allocs in a loop.
    EXAMPLES / "buffers.ssa": [
        ("c", ["fault stack full"]), ("why", ["line 15: %buffer =l alloc8 4096: 255", "line 6: %i =l alloc4 4: 1"]),
        ("why 1", ["control came to @body by"]),
    ],
    # A byte of 195 is extended by its sign, to -61.
    OWN / "bytes.ssa": [
        ("c", ["done 0"]), ("why", ["[1] %count = 0"]), ("why 1", ["[1] %count.next = 0"]),
        ("why 1", ["[1] %count = 0", "[2] %is.high = 0"]),
        ("why 2", ["line 8: ret %is.high"]), ("why 1", ["%is.high =w csgtw %byte, 127", "%byte = 4294967209 (-87)"]),
        ("why 1", ["is argument 1 of 1"]),
        ("why 1", ["%byte =w loadsb %at", "[1] b $text+4 = 169 (-87)"]),
        ("why 1", ["so since the start: line 3, $text"]),
    ],
    # The first product is gone before it is added.
    OWN / "reuse.ssa": [
        ("c", ["done 32"]), ("why", []), ("why 1", ["%t2 =w add %t1, %t1", "[1] %t1 = 16"]),
        ("why 1", ["line 8: %t1 =w mul %b, %b", "[3] %t1 = 9  before #3, when it was set again"]),
        ("why 3", ["line 7: %t1 =w mul %a, %a"]),
    ],
    # The address of a variable outlasts its frame, and the bytes there are another variable's.
    OWN / "dangling.ssa": [
        ("goto 10", ["%p=%slot+0 of $make, which is over"]),
        ("p %p", ["($make alloc %slot+0, of a frame that is over since #5; now frame 0 $use alloc %loc+0)"]),
        ("p %loc", ["%loc = 16777216 (frame 0 $use alloc %loc+0)"]),
        ("p %next", ["($make alloc %slot+4, of a frame that is over since #5)"]),
        ("x/1la $kept", ["$make alloc %slot+0, of a frame that is over since #5; now frame 0 $use alloc %loc+0"]),
        ("up", []),
        ("p %p", ["($make alloc %slot+0, of a frame that is over since #5; now frame 0 $use alloc %loc+0)"]),
        ("goto 2", []), ("p %slot", ["%slot = 16777216 (frame 0 $make alloc %slot+0)"]),
        ("c", ["fault dead address 16777216", "%p=%slot+0 of $make, which is over"]),
        ("why",
         ["16777216 is $make alloc %slot+0, of a frame that is over since #5", "[1] %p = 16777216 ($make alloc"]),
    ],
    # The two arguments stand in each other's place.
    OWN / "order.ssa": [
        ("c", ["done 0"]), ("why out 0", ['byte 0 of the output, 40 ("("), was written by', "[1] %digit = 40"]),
        ("why 1", ["[1] %left = 4294967288 (-8)"]),
        ("why 1", ["line 6: ret %rest", "to the call", "call $less(w %small, w %large)",
                   "[3] %small = 2  -> %from of $less", "[4] %large = 10  -> %what of $less"]),
        ("why 1", ["%rest =w sub %from, %what", "[1] %from = 2", "[2] %what = 10"]),
        ("why 1", ["%from = 2 is argument 1 of 2 of the call", "[1] %small = 2  -> %from of $less",
                   "[2] %large = 10  -> %what of $less"]),
    ],
}
