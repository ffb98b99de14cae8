"""Readers meet strangers: worlds and logs that nobody here wrote."""
