"""The classes of a family's rights, for credaudit-summary and credaudit-unit."""
