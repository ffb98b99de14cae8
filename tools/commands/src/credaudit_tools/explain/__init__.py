"""credaudit-explain: reports and certificates in words, and as drawings."""
