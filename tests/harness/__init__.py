"""What the tests of the built program have in common.

    running.py     the places of the repository, which program is asked, a run of it, and what it did otherwise
    preloaded.py   libraries that are preloaded to a run: refusing.c refuses and counts allocations, full.c is a full
                   output
"""
