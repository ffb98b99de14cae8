"""The rules and the readers once more, as plain Python: second writings of the documents."""
