"""The cases of tests/serve."""
