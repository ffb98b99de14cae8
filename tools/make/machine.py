"""What this machine has for checks: processors, and memory."""
import os
import re

SPARED = 0.85               # of the memory that is free: some checks take more than is planned
LIMIT = "/sys/fs/cgroup/memory.max"


def processors() -> int:
    """How many processors this process may use."""
    return len(os.sched_getaffinity(0))


def number_in(path: str, pattern: str) -> int | None:
    """The number that a file of the kernel has; None where there is none."""
    try:
        with open(path, encoding="ascii", errors="replace") as file:
            found = re.search(pattern, file.read(), re.MULTILINE)
    except OSError:
        return None
    return int(found[1]) if found else None


def begun_by(first: int) -> list[int]:
    """The pids of all processes that this one started, and those started, as far as they run."""
    pids = [int(name) for name in os.listdir("/proc") if name.isdigit()]
    above = {pid: number_in(f"/proc/{pid}/status", r"^PPid:\s+(\d+)$") for pid in pids}
    found, last = list[int](), {first}
    while last:
        last = {pid for pid, parent in above.items() if parent in last}
        found += last
    return found


def held() -> int:
    """The bytes of memory that the processes hold that this one started. What several share is counted once."""
    return sum(number_in(f"/proc/{pid}/smaps_rollup", r"^Pss_Anon:\s+(\d+) kB$") or 0
               for pid in begun_by(os.getpid())) * 1024


def memory() -> float:
    """The bytes that all checks of this process may take together, with those that run: what is free now, and what they
    hold. Other work on the machine may take and give back, so it changes."""
    free, limit = number_in("/proc/meminfo", r"^MemAvailable:\s+(\d+) kB$"), number_in(LIMIT, r"^(\d+)$")
    known = [found for found in (free * 1024 + held() if free else None, limit) if found]
    return SPARED * min(known) if known else float("inf")
