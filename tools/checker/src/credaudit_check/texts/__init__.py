"""Readers of the texts that a query is made of (FORMATS.md)."""
