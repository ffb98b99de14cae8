"""Rows of bounds, their text and the closure rules (BOUNDS.md, CERTIFICATE.md)."""
