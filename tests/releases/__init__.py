"""Cases of tests/release."""
