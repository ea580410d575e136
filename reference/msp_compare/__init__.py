"""Compares a program with the independent implementation and with an exhaustive search."""
