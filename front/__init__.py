"""The front command and its tests; a package so that `python3 -m unittest` in the clone finds the tests."""
