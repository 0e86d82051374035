"""The cases of tests/http."""
