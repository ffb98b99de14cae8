"""Traps of the end of a recording: processes that can't be stopped, pipes and tracers of others."""
from .row import ALL, ATTACHED, Trap

WAITS = "a process stops by no signal while it waits: the recorder hangs, or a service stays stopped"
TRACERS = "a thread group, a job, a pipe or another tracer keeps a recording from its end"

TRAPS = (
    *(Trap("waits", case, WAITS, spelling, ("right or told",), ALL, options=("--for", "2"), limit=60)
      for case, spelling in (
        ("vfork", "for a child of vfork(2)"), ("thread-vfork", "the same in a second thread"),
        ("spawn", "posix_spawn(3), whose child opens a FIFO"),
        ("job", "the same in a job of a shell, which ignores signals"),
        ("notice", "for the answer to a notification, which nobody gives"),
        ("server", "for a file server (fuse(4)) that doesn't answer"),
        ("page", "for a page with the path of a call, which another thread fills (userfaultfd(2))"))),
    *(Trap("waits", case, WAITS, spelling, ("right or told",), ALL, how=ATTACHED, options=("--for", "2"), limit=60)
      for case, spelling in (
        ("vfork-attached", "a service, for a child of vfork(2)"), ("spawn-attached", "a service in posix_spawn(3)"),
        ("notice-attached", "a service, for the answer to a notification"))),
    Trap("waits", "page-attached", WAITS, "a service, for a page with the path of a call", ("told",), ALL, how=ATTACHED,
         options=("--for", "3"), limit=60, go=0.5),
    *(Trap("tracers", case, TRACERS, spelling, ("right or told",), ALL, options=("--for", "2"), limit=60)
      for case, spelling in (
        ("late", "the main thread ends while others run"), ("early", "it has ended at once"),
        ("stopped", "a job that has stopped itself"))),
    *(Trap("tracers", case, TRACERS, spelling, ("told",), options=("--for", "2"), limit=60) for case, spelling in (
        ("pipe", "the recorder's pipe is opened by the recorded"),
        ("pipe-daemon", "the same by a daemon with a session of its own"))),
    Trap("tracers", "late-attached", TRACERS, "a service's main thread ends while it is recorded", ("right or told",),
         ALL, how=ATTACHED, options=("--for", "3"), limit=60, go=0.5),
    Trap("tracers", "early-attached", TRACERS, "a service's main thread had ended before", ("right or told",), ALL,
         how=ATTACHED, options=("--for", "2"), limit=60),
    Trap("tracers", "traced", TRACERS, "a child of a service has another tracer", ("told",), how=ATTACHED,
         options=("--for", "2"), limit=60),
)
