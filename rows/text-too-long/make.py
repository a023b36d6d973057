"""A program of 2^20 + 1 spaces."""
with open("program.ssa", "wb") as program:
    program.write(b" " * (2**20 + 1))
