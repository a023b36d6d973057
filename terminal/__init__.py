"""The front end of qrev at a terminal: docs/TERMINAL.md."""
