"""credaudit-audit: a question to credaudit, and words on what it refuses."""
