"""What tests/scripts looks at: the Python and shell files, and the names that Python uses."""
