"""credaudit-verify: a recording beside what the kernel showed."""
