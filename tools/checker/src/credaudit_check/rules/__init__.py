"""The machine's rules (RULES.md): ids, capabilities, credentials, files, execve."""
