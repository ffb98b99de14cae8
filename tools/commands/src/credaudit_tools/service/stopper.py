"""A small program that stands in front of another one: it waits until it is set free, and then executes that one, with
the same environment. It is called with the path and then all words of the other one, its name among them.

While it waits it makes no system call, and then execve(2) alone: so it needs nothing that a filter of system calls may
refuse. It is set free by a word in its memory. Where nobody does that it goes on by itself after some minutes.
"""
import os
import struct

NAME = "ca-hold"                # within the 8 letters that the service manager shows of a program before its execve
TEXT, DATA, PAGE = 0x400000, 0x600000, 0x1000
ROUNDS = 1 << 32                # of a wait of 40 to 140 cycles each (PAUSE): one minute to four
NOT_EXECUTED = 203              # as the service manager ends where it can't execute a program (systemd.exec(5))
HEADER, SEGMENT = struct.Struct("<4s5B7xHHIQQQIHHHHHH"), struct.Struct("<IIQQQQQQ")
EXECUTE, WRITE, READ = 1, 2, 4
LOAD, STACK = 1, 0x6474e551


def code(word: int) -> bytes:
    """The instructions, which wait for the word at this address."""
    wait = (bytes.fromhex("f390")                                           # wait: pause
            + bytes.fromhex("833c25") + struct.pack("<I", word) + b"\0"     # cmp dword [word], 0
            + bytes.fromhex("7505")                                         # jne go
            + bytes.fromhex("48ffc9"))                                      # dec rcx
    wait += bytes.fromhex("75") + struct.pack("b", -len(wait) - 2)          # jnz wait
    return (bytes.fromhex("48b9") + struct.pack("<Q", ROUNDS) + wait        # mov rcx, ROUNDS
            + bytes.fromhex("488b7c2410")                                   # go: mov rdi, [rsp+16]: the path
            + bytes.fromhex("488d742418")                                   # lea rsi, [rsp+24]: its words
            + bytes.fromhex("488b0424")                                     # mov rax, [rsp]: how many there are
            + bytes.fromhex("488d54c410")                                   # lea rdx, [rsp+rax*8+16]: the environment
            + bytes.fromhex("b83b0000000f05")                               # execve
            + bytes.fromhex("bf") + struct.pack("<I", NOT_EXECUTED) + bytes.fromhex("b8e70000000f05")   # exit_group
            + bytes.fromhex("0f0b"))                                        # ud2


def word_at() -> int:
    """The address of the word that sets it free."""
    front = HEADER.size + 3 * SEGMENT.size
    return DATA + (front + len(code(DATA)) + 7) // 8 * 8


def program() -> bytes:
    """The file of the program: x86-64, static, no part of it both writable and executable."""
    text = code(word_at())
    front, ends = HEADER.size + 3 * SEGMENT.size, word_at() - DATA
    header = HEADER.pack(b"\x7fELF", 2, 1, 1, 0, 0, 2, 62, 1, TEXT + front, HEADER.size, 0, 0, HEADER.size,
                         SEGMENT.size, 3, 0, 0, 0)
    segments = (SEGMENT.pack(LOAD, READ | EXECUTE, 0, TEXT, TEXT, ends, ends, PAGE)
                + SEGMENT.pack(LOAD, READ | WRITE, ends, DATA + ends, DATA + ends, 8, 8, PAGE)
                + SEGMENT.pack(STACK, READ | WRITE, 0, 0, 0, 0, 0, 16))
    return (header + segments + text).ljust(ends + 8, b"\0")


def put(path: str) -> None:
    """Makes the file, which everybody may execute. Fails where something is there."""
    handle = os.open(path, os.O_WRONLY | os.O_CREAT | os.O_EXCL | os.O_NOFOLLOW | os.O_CLOEXEC, 0o700)
    with os.fdopen(handle, "wb") as file:
        file.write(program())
        os.fchmod(handle, 0o555)


def same_file(one: os.stat_result, other: os.stat_result) -> bool:
    """Whether two looks saw one file."""
    return (one.st_dev, one.st_ino) == (other.st_dev, other.st_ino)


def held(root: str, path: str) -> list[int]:
    """The processes below a /proc that execute this file."""
    try:
        wanted = os.stat(path)
    except OSError:
        return []
    found = []
    for name in os.listdir(root):
        try:
            if name.isdigit() and same_file(os.stat(f"{root}/{name}/exe"), wanted):
                found.append(int(name))
        except OSError:
            pass
    return sorted(found)


def free(root: str, path: str, pid: int) -> bool:
    """Sets a process free; false where it doesn't execute this file, or no more. What is written reaches no other
    program: an open mem file stays that of the one that was executed then (proc(5))."""
    try:
        with open(f"{root}/{pid}/mem", "r+b", buffering=0) as memory:
            if not same_file(os.stat(f"{root}/{pid}/exe"), os.stat(path)):
                return False
            memory.seek(word_at())
            return memory.write(b"\1") == 1
    except OSError:
        return False
