"""The test suite: it runs the real program and compares what it does with what is owed. tests/README.md says how."""
