"""Tests of `./qrev --check`; check/test runs them."""
