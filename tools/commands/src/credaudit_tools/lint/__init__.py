"""credaudit-lint: what is wrong with a world and a log, and what makes them suspect."""
