"""Test cases for the operations, their outcomes taken from the reference."""
