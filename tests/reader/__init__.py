"""A second reader of PCEP: what a script of sessions is to print, from docs/FORMAT.md and RFC 5440, 8231 and 8281."""
