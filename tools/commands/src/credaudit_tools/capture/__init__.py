"""credaudit-capture: the world of a live system."""
