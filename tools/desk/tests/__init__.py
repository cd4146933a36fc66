"""Tests of the desk: `python3 -m unittest` from the top of the repository runs them."""
