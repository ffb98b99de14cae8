"""What the kernel shows of threads that have stopped: their statuses, and the user and mount namespaces in which they
stand."""
from collections.abc import Sequence
from dataclasses import replace

from ..command_line.command import Failure
from ..formats.statuses import Status, from_file
from ..replay.recording import SpaceSeen
from ..system import mount_namespaces, space_rows
from ..system.mount_namespaces import MountSpace
from ..system.namespaces import INITIAL_INODE
from ..system.running_kernel import Live


def status_of(live: Live, tid: int) -> Status | None:
    """What the kernel shows of a thread, None where it is gone; `space` is the kernel's own number."""
    data = live.proc.read(tid, "status")
    status = None if data is None else from_file(data)
    if status is None:
        return None
    key = live.space_of(status.tgid, tid, "user")
    return replace(status, space=INITIAL_INODE if key is None else key)


def spaces_seen(live: Live, keys: set[int]) -> tuple[list[SpaceSeen], dict[int, int]]:
    """The namespaces of these numbers and those above them, numbered: parents first."""
    found = space_rows.with_parents(live, keys)
    order = sorted(found, key=lambda key: (space_rows.depth(found, key), key))
    numbers = {INITIAL_INODE: 0, **{key: number for number, key in enumerate(order, 1)}}
    seen = [SpaceSeen(numbers[key], numbers.get(own.parent or INITIAL_INODE), own.owner, own.uid_map, own.gid_map,
                      own.setgroups) for key, own in ((key, found[key]) for key in order)]
    return seen, numbers


def mounts_seen(live: Live, found: Sequence[Status]) -> dict[int, MountSpace]:
    """The mount namespace of each of these threads; those that aren't shown are left out."""
    keys = {status.pid: live.space_of(status.tgid, status.pid, "mnt") for status in found}
    seen = {key: mount_namespaces.of_key(live, key) for key in set(keys.values()) if key is not None}
    live.leave()
    return {tid: space for tid, key in keys.items() if key is not None and (space := seen[key]) is not None}


def statuses(live: Live, tids: Sequence[int]) -> dict[int, Status]:
    """What the kernel shows of threads that have stopped. Fails where one has ended."""
    found = {}
    for tid in tids:
        status = status_of(live, tid)
        if status is None:
            raise Failure(f"process {tid} ended while it was looked at")
        found[tid] = status
    return found
