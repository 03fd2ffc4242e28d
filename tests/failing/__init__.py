"""Allocations that fail, one in each run of a program."""
