"""Witnesses beside the audit: small worlds, a plain search in them, and what they ask of the audit's answers."""
