"""Texts of a few lines, each for a rule: what must be suspected, and what must not be. The kinds were worked out by
hand from docs/CHECKING.md.

A row has lines of `$main`, which ends by `ret 0` unless they end the run. A line with `:` in front is another
definition. Expected are the kinds in the order of the moves, each with its line in the row (the first is 1).
"""
from __future__ import annotations

DATA = "data $a = align 8 { z 16 }\ndata $b = align 8 { z 8 }\ndata $p = align 8 { l $a }\n"
READ_ONLY = 'section ".rodata"\ndata $r = align 8 { z 8 }\n'
BYTE = "function ub $byte() {\n@start\n\tret 7\n}\nfunction w $takes(ub %x) {\n@start\n\tret %x\n}\n"
SLOT = "function l $slot() {\n@start\n\t%s =l alloc8 8\n\tret %s\n}\n"
HEAP = ("data $arena = align 16 { z 64 }\nfunction l $malloc(l %n) {\n@start\n\tret $arena\n}\nfunction $free(l %p) {\n"
        "@start\n\tstorel 0, %p\n\tret\n}\n")

# Name, definitions beside, lines of `$main`, and what is expected: (line, kind).
ROWS: list[tuple[str, str, list[str], list[tuple[int, str]]]] = [
    # ---- what a value is made of, by an access through it
    ("global", DATA, ["%x =w loadw $a"], []),
    ("number", DATA, ["%x =w loadw 65536"], [(1, "number")]),
    ("one past the end", DATA, ["%q =l add $a, 16", "%c =w ceql %q, $b"], []),
    ("past the end", DATA, ["%q =l add $a, 16", "%x =w loadw %q"], [(2, "bounds")]),
    ("across the end", DATA, ["%q =l add $a, 12", "%x =l loadl %q"], [(2, "bounds")]),
    ("before", DATA, ["%q =l sub $b, 4", "%x =w loadw %q"], [(2, "bounds")]),
    ("number and object", DATA, ["%q =l add 4, $a", "%x =w loadw %q"], []),
    ("object less an object", DATA, ["%d =l sub $b, $a", "%x =w loadw %d"], [(2, "stray")]),
    ("difference in one object", DATA, ["%q =l add $a, 8", "%d =l sub %q, $a", "%r =l add $a, %d", "%x =w loadw %r"],
     []),
    ("difference of low halves", DATA, ["%q =l add $a, 8", "%d =w sub %q, $a", "%e =l extuw %d", "%r =l add $a, %e",
                                        "%x =w loadw %r"], []),
    ("one temporary from itself", DATA, ["%d =l sub $a, 0", "%z =l sub %d, %d", "%r =l add $a, %z", "%x =w loadw %r"],
     []),
    ("exclusive or with itself", DATA, ["%d =l copy $a", "%z =l xor %d, %d", "%r =l add $a, %z", "%x =w loadw %r"], []),
    ("tag", DATA, ["%t =l or $a, 1", "%q =l and %t, -2", "%x =w loadw %q"], []),
    ("list of exclusive ors", DATA, ["%t =l xor $a, $b", "%q =l xor %t, $b", "%x =w loadw %q"], []),
    ("list of exclusive ors that ends outside", DATA, ["%t =l xor $a, $b", "%q =l xor %t, $b", "%r =l add %q, 32",
                                                       "%x =w loadw %r"], [(4, "stray")]),
    ("cut", DATA, ["%w =w copy $a", "%q =l extuw %w", "%x =w loadw %q"], [(3, "cut")]),
    ("cut by a mask", DATA, ["%q =l and $a, 4294967295", "%x =w loadw %q"], [(2, "cut")]),
    ("mask of 48 bits", DATA, ["%q =l and $a, 281474976710655", "%x =w loadw %q"], []),
    ("cut by arithmetic of words", DATA, ["%w =w add $a, 4", "%q =l extuw %w", "%x =w loadw %q"], [(3, "cut")]),
    ("multiple of an address", DATA, ["%q =l mul $a, 1", "%x =w loadw %q"], []),
    ("shifted up and down", DATA, ["%s =l shl $a, 3", "%q =l shr %s, 3", "%x =w loadw %q"], []),
    ("stored and loaded", DATA, ["storel $a, $b", "%q =l loadl $b", "%x =w loadw %q"], []),
    ("stored by bytes", DATA, ["%w =w copy $a", "%l =l copy $a", "storel 0, $b"] +
     [line for k in range(8) for line in (f"%s{k} =l shr %l, {8 * k}", f"%d{k} =l add $b, {k}",
                                          f"storeb %s{k}, %d{k}")] +
     ["%q =l loadl $b", "%x =w loadw %q"], []),
    ("copied by bytes", DATA, [line for k in range(8) for line in
                               (f"%f{k} =l add $p, {k}", f"%v{k} =w loadub %f{k}", f"%d{k} =l add $b, {k}",
                                f"storeb %v{k}, %d{k}")] +
     ["%q =l loadl $b", "%x =w loadw %q"], []),
    ("copied by halves", DATA,
     ["%v =w loadw $p", "storew %v, $b", "%f =l add $p, 4", "%d =l add $b, 4", "%u =w loadw %f",
      "storew %u, %d", "%q =l loadl $b", "%x =w loadw %q"], []),
    ("half of an address loaded as a word", DATA, ["%q =l loaduw $p", "%x =w loadw %q"], [(2, "cut")]),
    ("address in data", DATA, ["%q =l loadl $p", "%r =l add %q, 16", "%x =w loadw %r"], [(3, "bounds")]),
    ("blit of an address", DATA, ["blit $p, $b, 8", "%q =l loadl $b", "%x =w loadw %q"], []),
    ("blit past the end", DATA, ["blit $a, $b, 16"], [(1, "bounds")]),
    ("blit of no bytes", DATA, ["%q =l add $a, 16", "blit %q, $b, 0"], []),
    ("table by an address", DATA, ["%h =l and $a, 8", "%q =l add $b, %h", "%r =l and %q, -9", "%x =w loadw %r"], []),
    # ---- slots
    ("returned slot", SLOT, ["%s =l call $slot()", "%x =w loadw %s"], [(2, "stale")]),
    ("returned slot behind a new one", SLOT, ["%s =l call $slot()", "%t =l alloc8 8", "storel 1, %t", "%x =w loadw %s"],
     [(4, "stale")]),
    ("slot of no bytes", "", ["%s =l alloc4 0", "%t =l alloc4 4", "storeb 1, %s"], [(3, "bounds")]),
    # ---- calls
    ("function by its address", BYTE, ["%f =l copy $byte", "%x =w call %f()"], []),
    ("call of data", DATA, ["call $a()"], [(1, "callee")]),
    ("call of parts of two functions", BYTE + "data $two = align 8 { l $byte, l $byte }\n",
     ["%q =l add $two, 4", "%f =l loadl %q", "%x =w call %f()"], [(3, "callee")]),
    ("call of an exclusive or that is a function", BYTE, ["%t =l xor $byte, $takes", "%f =l xor %t, $takes",
                                                          "%x =w call %f()"], []),
    ("call beside a function", BYTE, ["%f =l add $byte, 16", "%x =w call %f(w 1)"], [(2, "callee")]),
    ("call of a number", BYTE, ["%x =w call 4096()"], [(1, "number")]),
    ("load from a function", BYTE, ["%x =w loadw $byte"], [(1, "bounds")]),
    # ---- sections
    ("store into what is read-only", READ_ONLY, ["storew 1, $r"], [(1, "rodata")]),
    ("load of what is read-only", READ_ONLY, ["%x =w loadw $r"], []),
    ("read-only is the next object alone", READ_ONLY + DATA, ["storew 1, $a"], []),
    # ---- open bits
    ("fresh byte decides", "", ["%s =l alloc4 4", "%v =w loadub %s", "jnz %v, @one, @one", "@one"], [(3, "undef")]),
    ("fresh bytes are copied", "", ["%s =l alloc4 4", "%t =l alloc4 4", "%v =w loadw %s", "storew %v, %t"], []),
    ("set byte decides", "", ["%s =l alloc4 4", "storeb 1, %s", "%v =w loadub %s", "jnz %v, @one, @one", "@one"], []),
    ("mask of set bits", "",
     ["%s =l alloc4 4", "storeb 1, %s", "%v =w loadw %s", "%m =w and %v, 255", "jnz %m, @one, @one", "@one"], []),
    ("a set bit is enough", "", ["%s =l alloc4 4", "storeb 1, %s", "%v =w loadw %s", "jnz %v, @one, @one", "@one"], []),
    ("address with open bits", DATA, ["%s =l alloc8 8", "%v =l loadl %s", "%q =l add $a, %v", "%x =w loadw %q"],
     [(4, "undef")]),
    ("open divisor", "", ["%s =l alloc4 4", "%v =w loadw %s", "%w =w or %v, 1", "%q =w udiv 9, %w"], [(4, "undef")]),
    ("open dividend", "", ["%s =l alloc4 4", "%v =w loadw %s", "%q =w udiv %v, 3"], []),
    ("open dividend of -1", "", ["%s =l alloc4 4", "%v =w loadw %s", "%q =w div %v, -1"], [(3, "undef")]),
    ("dividend that isn't the least", "", ["%s =l alloc4 4", "%v =w loadw %s", "%w =w or %v, 1", "%q =w div %w, -1"],
     []),
    ("open size", "", ["%s =l alloc8 8", "%v =l loadl %s", "%n =l and %v, 15", "%t =l alloc4 %n"], [(4, "undef")]),
    ("putchar of a fresh byte", "", ["%s =l alloc4 4", "%v =w loadub %s", "%x =w call $putchar(w %v)"], [(3, "undef")]),
    ("puts of fresh bytes", "", ["%s =l alloc4 4", "%x =w call $puts(l %s)"], [(2, "undef")]),
    ("exit with a fresh word", "", ["%s =l alloc4 4", "%v =w loadw %s", "call $exit(w %v)"], [(3, "undef")]),
    ("told once", "", ["%s =l alloc4 4", "%v =w loadw %s", "jnz %v, @one, @one", "@one", "jnz %v, @two, @two", "@two"],
     [(3, "undef")]),
    ("compared with itself", "",
     ["%s =l alloc4 4", "%v =w loadw %s", "%c =w ceqw %v, %v", "jnz %c, @one, @one", "@one"], []),
    ("comparison that set bits settle", "",
     ["%s =l alloc4 4", "%v =w loadub %s", "%c =w csltw %v, 256", "jnz %c, @one, @one",
      "@one"], []),
    ("comparison that is open", "",
     ["%s =l alloc4 4", "%v =w loadub %s", "%c =w csltw %v, 255", "jnz %c, @one, @one", "@one"], [(4, "undef")]),
    ("product with a set zero", "",
     ["%s =l alloc4 4", "%v =w loadw %s", "%m =w mul %v, 0", "jnz %m, @one, @one", "@one"], []),
    ("low bits of a product", "", ["%s =l alloc4 4", "%v =w loadw %s", "%m =w mul %v, 8", "%n =w and %m, 7",
                                   "jnz %n, @one, @one", "@one"], []),
    # ---- parts of words
    ("part isn't extended", BYTE, ["%x =w call $byte()", "%c =w ceqw %x, 7", "jnz %c, @one, @one", "@one"],
     [(3, "extension")]),
    ("part is extended", BYTE,
     ["%x =w call $byte()", "%e =w extub %x", "%c =w ceqw %e, 7", "jnz %c, @one, @one", "@one"], []),
    ("argument isn't extended", BYTE, ["%x =w call $takes(ub 7)", "jnz %x, @one, @one", "@one"], []),
    ("argument that may be zero", BYTE, ["%x =w call $takes(ub 0)", "jnz %x, @one, @one", "@one"], [(2, "extension")]),
    # ---- the heap
    ("block past its end", HEAP, ["%p =l call $malloc(l 8)", "%q =l add %p, 8", "storeb 1, %q"], [(3, "bounds")]),
    ("block that was freed", HEAP, ["%p =l call $malloc(l 8)", "call $free(l %p)", "%x =w loadw %p"], [(3, "freed")]),
    ("block freed twice", HEAP, ["%p =l call $malloc(l 8)", "call $free(l %p)", "call $free(l %p)"], [(3, "freed")]),
    ("free of zero", "data $arena = align 16 { z 64 }\nfunction l $malloc(l %n) {\n@start\n\tret $arena\n}\n"
     "function $free(l %p) {\n@start\n\tret\n}\n", ["call $free(l 0)"], []),
    ("free inside a block", HEAP, ["%p =l call $malloc(l 8)", "%q =l add %p, 4", "call $free(l %q)"], [(3, "free")]),
    ("fresh block decides", HEAP, ["%p =l call $malloc(l 8)", "%v =w loadw %p", "jnz %v, @one, @one", "@one"],
     [(3, "undef")]),
]


def text_of(beside: str, lines: list[str]) -> str:
    body = "".join(line + "\n" if line.startswith("@") else f"\t{line}\n" for line in lines)
    return f"{beside}export function w $main() {{\n@start\n{body}\tret 0\n}}\n"
