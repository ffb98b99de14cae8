"""credaudit-summary: what became of each right that a process had."""
