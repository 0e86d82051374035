"""The cases of tests/launcher."""
