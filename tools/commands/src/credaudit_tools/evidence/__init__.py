"""Premises of an answer, what establishes each, and the doubts that stand against them."""
