"""A checker of certificates that rests on the documents alone (RULES.md, BOUNDS.md, FORMATS.md, CHECKER.md,
CERTIFICATE.md): worlds, scripts, recordings, the rules of the machine, bounds and their texts, each written anew from
these pages.
"""

VERSION = "2026.12.1"
