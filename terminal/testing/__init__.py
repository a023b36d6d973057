"""The parts of terminal/test."""
