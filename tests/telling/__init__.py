"""The cases of tests/tell."""
