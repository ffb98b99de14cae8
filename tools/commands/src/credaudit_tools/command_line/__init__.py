"""What each command's words, messages and files have in common."""
