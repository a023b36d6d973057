"""The tests of lower/: the built program runs the texts that qrev-lower makes."""
