"""The bars of bench.py: what a log of 64 MiB may take, as a part of what `tuned` of plain_replay.rs takes in the same
run; and that credaudit starts sooner than capsh(1) does.
"""

# Of tuned, while credaudit read a log whole before its first line (2026-11-28, docs/SPEED.md of that day; of comments
# and turns a trial's). This is what the bars of `pieces` are counted from.
WHOLE = {
    "setresuid": 1.04, "setuid": 0.99, "mixed": 0.99, "spaces": 1.00, "execve": 1.47,
    "strace": 1.75, "strace-few": 1.58, "strace-held": 1.92, "strace-held-quarter": 2.05,
    "recorded": 2.36, "comments": 1.46, "turns": 1.73, "turns-many": 1.91,
}
SCRIPTS = ("setresuid", "setuid", "mixed", "spaces", "execve")
DRAWN = ("strace", "strace-few", "strace-held", "strace-held-quarter")
LESS, NOISE = 0.15, 0.03        # what drawn logs of strace are to gain, and what counts as no worse
BARS = {
    "pieces": {"recorded": 1.0, "comments": 0.6, **{kind: WHOLE[kind] - LESS for kind in DRAWN},
               **{kind: WHOLE[kind] + NOISE for kind in SCRIPTS}},
    "replay": {"setresuid": 0.5, "setuid": 0.5, "mixed": 0.5, "spaces": 0.8, "execve": 0.8, "strace-few": 1.0,
               "strace": 1.2, "strace-held": 1.5, "strace-held-quarter": 1.5, "recorded": 0.8, "turns": 1.0,
               "turns-many": 1.0},
}


def all_within(bars: dict[str, float], measured: dict[str, float]) -> bool:
    """Whether all that was measured is at most its bar; all of it is shown."""
    print(f"{'log':24}{'of tuned':>10}{'at most':>9}{'log read whole':>16}")
    for kind, most in bars.items():
        past = "" if measured[kind] <= most else ", past the bar"
        print(f"{kind:24}{measured[kind]:10.2f}{most:9.2f}{WHOLE[kind]:16.2f}{past}")
    print()
    return all(measured[kind] <= most for kind, most in bars.items())


def starts_sooner(seconds: dict[str, list[float]], own: str, other: str) -> bool:
    """Whether the least of one command's starts, where it is measured, is below that of the other's; all are shown."""
    least = {name: min(every) for name, every in seconds.items()}
    sooner = own not in least or least[own] < least[other]
    print(f"{'start and end of':24}{'least, ms':>10}{'median, ms':>12}")
    for name, every in seconds.items():
        late = "" if name != own or sooner else f", no sooner than {other}"
        print(f"{name:24}{1000 * least[name]:10.3f}{1000 * sorted(every)[len(every) // 2]:12.3f}{late}")
    print()
    return sooner
