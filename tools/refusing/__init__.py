"""Allocations of a program that are refused in turn."""
