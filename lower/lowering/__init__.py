"""Lowers texts of QBE 1.2 to the smaller language that qrev runs: docs/REAL_COMPILERS.md says what is done to a
text."""
