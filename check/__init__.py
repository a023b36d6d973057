"""`./qrev --check`: what a run does that no correct compiler's output does (docs/CHECKING.md)."""
