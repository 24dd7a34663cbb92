"""Tries of the front, on files that they make themselves."""
