"""Makes the events of a log steps (RULES.md, "Steps, runs, rights"), or tells why one is none."""
from collections.abc import Iterable
from dataclasses import replace

from .texts.ends import Ended, limit
from .rules.capabilities import ALL, SETFCAP, SETGID, SETUID, SYS_ADMIN
from .rules.credentials import own_call
from .rules.ids import MapLine, has, is_map, outside_ids, taken_down
from .rules.machine import Credential, Process, Space, State, World, newcomer
from .rules.programs import execve
from .texts.script import BIRTHS, Event, Value

MOST_PROCESSES, MOST_SPACES, DEEPEST = 4096, 256, 32
FROM_OUTSIDE = ("ENOMEM", "EAGAIN", "EINTR", "EFAULT", "EIO")
OF_EXECVE = ("ENOENT", "EACCES", "ENOTDIR", "ELOOP", "ENAMETOOLONG", "E2BIG", "ENOEXEC", "ETXTBSY", "ELIBBAD")
NAMING = ("setns", "write_uid_map", "write_gid_map", "write_setgroups")


def is_from_outside(event: Event) -> bool:
    """Whether the result is an error from outside."""
    if event.call in ("setfsuid", "setfsgid", "exit"):
        return False
    return (event.result in FROM_OUTSIDE
            or event.result == "EINVAL" and event.call in ("unshare", "clone_user", "setns")
            or event.result in OF_EXECVE and event.call == "execve")


class Replay:
    """A world and its state as the log changes it."""

    def __init__(self, world: World) -> None:
        self.world = world
        self.state = world.state

    def run(self, events: Iterable[Event]) -> State:
        """All events, one after another."""
        for event in events:
            self.step(event)
            if len(self.state.processes) > MOST_PROCESSES:
                raise limit("processes", MOST_PROCESSES)
            if len(self.state.spaces) > MOST_SPACES:
                raise limit("spaces", MOST_SPACES)
        return self.state

    def step(self, event: Event) -> None:
        """One event."""
        def impossible(why: str) -> Ended:
            return Ended(f"impossible line {event.line}: {why}", 3)

        if event.pid not in self.state.processes:
            raise impossible("no process")
        if event.call in NAMING and event.numbers()[0] >= len(self.state.spaces):
            raise impossible("no space")
        is_pid = event.call in BIRTHS and isinstance(event.result, int)
        if is_pid and event.result in self.state.processes:
            raise impossible("pid in use")
        if event.call in self.state.processes[event.pid].filter:
            if event.result != "EPERM":
                raise impossible("the rules give EPERM")
            return
        if is_from_outside(event):
            return
        given = self.answer(event)
        if given == "child":
            if is_pid:
                self.birth(event)
                return
            pid = self.state.free_pid()
            raise impossible(f"the rules give {'EAGAIN' if pid is None else pid}")
        if given != event.result:
            raise impossible(f"the rules give {given}")

    def answer(self, event: Event) -> int | str:
        """What the rules answer; where that isn't the told result the state no longer counts. "child" is a birth
        that the rules allow, which isn't made yet."""
        caller = self.state.processes[event.pid]
        call, cred = event.call, caller.cred
        result: int | str = 0
        if call in BIRTHS:
            refused = self.refuses_space(caller) if call == "clone_user" else None
            return refused or "child"
        if call == "exit":
            del self.state.processes[event.pid]
            for pid, one in self.state.processes.items():
                if one.forebear == event.pid:
                    self.state.processes[pid] = replace(one, forebear=caller.forebear)
            return 0
        if call == "unshare":
            refused = self.refuses_space(caller)
            if refused is None:
                self.state.processes[event.pid] = self.in_new_space(caller)
            return refused or 0
        if call == "install":
            return self.install(event.pid, caller, event.values)
        if call == "setns":
            return self.setns(event.pid, caller, event.numbers()[0])
        if call in ("write_uid_map", "write_gid_map"):
            return self.write_map(caller, call == "write_uid_map", event.numbers()[0], event.lines())
        if call == "write_setgroups":
            return self.write_word(caller, event.numbers()[0], event.values[1])
        if call == "execve":
            path = event.values[0]
            file = self.world.files.get(path) if isinstance(path, bytes) else None
            result, cred = execve(self.state, caller.space, cred, file)
        else:
            result, cred = own_call(call, cred, self.state.spaces[caller.space], event.numbers())
        self.put(event.pid, caller, cred)
        return result

    def put(self, pid: int, process: Process, cred: Credential) -> None:
        """Gives a process a credential."""
        self.state.processes[pid] = replace(process, cred=cred)

    def install(self, pid: int, caller: Process, names: tuple[Value, ...]) -> int | str:
        """install."""
        if not caller.cred.no_new_privs and not caller.cred.effective & SYS_ADMIN:
            return "EACCES"
        self.state.processes[pid] = replace(caller, filter=caller.filter.union(map(str, names)))
        return 0

    # ---- births, new spaces, joins

    def birth(self, event: Event) -> None:
        """A child with the pid that was told."""
        caller = self.state.processes[event.pid]
        child = replace(caller, forebear=event.pid)
        assert isinstance(event.result, int)
        self.state.processes[event.result] = self.in_new_space(child) if event.call == "clone_user" else child

    def refuses_space(self, caller: Process) -> str | None:
        """Why a caller can't make a space."""
        space = self.state.spaces[caller.space]
        if self.state.level(caller.space) == DEEPEST:
            return "ENOSPC"
        if (not has(outside_ids(space.uid_map), caller.cred.user.effective)
                or not has(outside_ids(space.gid_map), caller.cred.group.effective)):
            return "EPERM"
        return None

    def in_new_space(self, process: Process) -> Process:
        """Makes a space below that of a process, and puts the process into it."""
        cred = process.cred
        self.state.spaces.append(Space(process.space, cred.user.effective, None, None,
                                       self.state.spaces[process.space].word, bool(cred.effective & SETFCAP)))
        return replace(process, space=len(self.state.spaces) - 1, cred=newcomer(cred, ALL))

    def setns(self, pid: int, caller: Process, target: int) -> int | str:
        """setns."""
        if target == caller.space:
            return "EINVAL"
        if not self.state.over(caller, SYS_ADMIN, target):
            return "EPERM"
        self.state.processes[pid] = replace(caller, space=target, cred=newcomer(caller.cred, ALL))
        return 0

    # ---- maps and the word

    def write_map(self, caller: Process, users: bool, target: int, lines: tuple[MapLine, ...]) -> int | str:
        """write_uid_map and write_gid_map."""
        space, capability = self.state.spaces[target], SETUID if users else SETGID
        written = space.uid_map if users else space.gid_map
        parent = space.parent
        if (written is not None or parent is None or caller.space not in (target, parent)
                or not self.state.over(caller, capability, target)):
            return "EPERM"
        if not is_map(lines):
            return "EINVAL"
        above = self.state.spaces[parent]
        kept = taken_down(lines, above.uid_map if users else above.gid_map)
        if kept is None:
            return "EPERM"
        if users and has(outside_ids(lines), 0):
            in_parent = caller.space == parent
            if not (self.state.over(caller, SETFCAP, parent) if in_parent else space.creator_setfcap):
                return "EPERM"
        cred = caller.cred
        own = cred.user.effective if users else cred.group.effective
        is_own = (len(kept) == 1 and kept[0][1:] == (own, 1) and cred.user.effective == space.owner
                  and (users or space.word == "deny"))
        if not is_own and not self.state.over(caller, capability, parent):
            return "EPERM"
        self.state.spaces[target] = replace(space, uid_map=kept) if users else replace(space, gid_map=kept)
        return 0

    def write_word(self, caller: Process, target: int, word: object) -> int | str:
        """write_setgroups."""
        space = self.state.spaces[target]
        if (not self.state.over(caller, SYS_ADMIN, target) or (word == "deny" and space.gid_map is not None)
                or (word == "allow" and space.word == "deny")):
            return "EPERM"
        self.state.spaces[target] = replace(space, word=str(word))
        return 0
