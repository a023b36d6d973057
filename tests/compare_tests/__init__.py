"""The parts of tests/compare."""
