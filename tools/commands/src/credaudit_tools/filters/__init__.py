"""Filters of system calls: their programs, and what they may answer in the kernel's place."""
