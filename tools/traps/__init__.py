"""Programs that were recorded or judged wrongly, each with what must tell it (tools/traps/try_traps.py)."""
