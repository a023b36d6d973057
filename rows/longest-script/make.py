"""A script of 2^24 newlines, the most bytes that one may have."""
with open("script", "wb") as script:
    script.write(b"\n" * 2**24)
