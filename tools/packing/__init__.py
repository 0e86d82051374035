"""What a release has: the words of the program as a manual page and as a completion, the installed files, the packages."""
