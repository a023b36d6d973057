"""The parts of tests/dap.

    sessions/           sessions with a debug adapter, as texts of requests and of what must come back, and their
                        programs
    sessions.py         how such a text is read, and what it says of messages
    driver.py           the adapter as a process, messages in their frames, and a session played with it
    wire.py             input below requests: headers, bodies in pieces, what is no message; devices that fail
    large.py            large answers, a record that is full
    lowered.py          a text that lower/qrev-lower wrote, with its map
    lowering.py         texts of whole QBE, which are lowered by what stands before the adapter
    memory.py           sessions with each allocation of the adapter refused
    random_sessions.py  random requests, against the adapter of tests/oracle
    planted.py          whether the sessions see wrong behaviour
    schema.py           whether messages are those of the protocol's own definitions
    oracle_adapter   the adapter of tests/oracle as a program, to try the driver on
"""
