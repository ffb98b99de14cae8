"""credaudit-trace: processes are recorded under strace."""
