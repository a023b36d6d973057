"""A script of 2^24 + 1 bytes: the lines that end among the first 2^24 are answered."""
with open("script", "wb") as script:
    script.write(b"step\n" + b"\n" * (2**24 - 4))
