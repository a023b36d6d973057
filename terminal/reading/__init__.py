"""The reader of QBE's text, for all Python here: its tokens, its tree, and what each word of it takes.

It knows nothing of a session, and imports nothing from outside its folder: `lower/`, `check/`, `page/` and the console
of an editor use it too. docs/inside/ARCHITECTURE.md says who needs what of it.
"""
