"""Hostile use of the built program, from outside; tests/robustness runs these.

    programs.py      random programs
    scripts.py       random scripts
    texts.py         texts: of one byte, cut, changed, long
    long_texts.py    texts at each limit, and long in two ways at once
    names.py         names that are made to collide, beside names at random
    operations.py    each operation at edge values
    sessions.py      scripts: long ones, and random ones against the model of tests/oracle
    single_lines.py  scripts of a line or two: the shapes of words, and how many there are
    edges.py         loads and stores at the edges of live memory, and calls of each kind of address
    pace.py          that a step back takes no longer than what it undoes
    devices.py       standard input and output that are slow, closed or fail
    memory.py        each allocation refused in turn
    counts.py        how many allocations moves and commands take
"""
