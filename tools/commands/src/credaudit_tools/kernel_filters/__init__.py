"""The filters of system calls that the kernel shows of stopped processes, beside those of a log."""
