"""The cases of tests/page."""
