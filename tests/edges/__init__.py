"""Cases of tests/edge, by what they are about."""
