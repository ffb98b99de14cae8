"""A kernel's answers: recorders, replays and what they recorded."""
