"""A whole run in a browser: `./qrev --page FILE.ssa` (docs/PAGE.md)."""
