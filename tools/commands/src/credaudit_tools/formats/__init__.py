"""Readers and writers of texts: worlds, reports, certificates, lines of strace, and the words in them."""
