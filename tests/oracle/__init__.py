"""The language and the debugger once more, in plain Python: what a text, a program and a script must give.

It is written from docs/LANGUAGE.md and docs/DEBUGGER.md alone and shares nothing with the program. It is as near to
their words as it can be and keeps a list of whole states, so it is slow.

    tokens.py    a text's tokens, or its fault
    tree.py      what a program consists of, and the canonical text of its lines
    grammar.py   the program that tokens spell, or their fault
    rules.py     the rules of a program, whether it is in SSA form, and where its names lie
    machine.py   states and steps
    session.py   commands, stops and answers

Where two compilations part, written from docs/COMPARE.md alone:

    compare.py   the events of two runs, and the first that differs

And the debug adapter, written from docs/ADAPTER.md and docs/inside/REQUESTS.md alone:

    messages.py   messages in their frames
    asked.py      what an editor asks: members of requests, what a breakpoint of it asks for
    launching.py  what the arguments of a launch say
    places.py     the line of a place, the place that a line means
    debuggee.py   a session that moves by lines of commands, each of which is kept; runs over calls
    shown.py      frames, scopes, variables
    adapter.py    requests, and what is answered
"""
from .session import Session, load, transcript
from .tokens import Refused

__all__ = ["Refused", "Session", "load", "transcript"]
