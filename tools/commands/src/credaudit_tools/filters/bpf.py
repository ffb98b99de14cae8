"""Programs of the classic BPF as filters of system calls have them (seccomp(2), struct sock_filter of linux/filter.h):
read from the kernel's bytes and from strace's words.

What can't be read for certain is None, never a guess. The instructions are those that the kernel takes for a filter of
system calls; a program with another one was never installed.
"""
import re
import struct
from dataclasses import dataclass

from ..formats.strace_lines import COMMENT, member, pieces

LOAD, LOAD_INDEX, STORE, STORE_INDEX, ARITHMETIC, JUMP, RETURN, MISCELLANY = range(8)
IMMEDIATE, ABSOLUTE, MEMORY, LENGTH = 0x00, 0x20, 0x60, 0x80
ADD, SUB, MUL, DIV, OR, AND, LSH, RSH, NEG, XOR = 0x00, 0x10, 0x20, 0x30, 0x40, 0x50, 0x60, 0x70, 0x80, 0xa0
ALWAYS, EQUAL, GREATER, GREATER_EQUAL, SET = 0x00, 0x10, 0x20, 0x30, 0x40
BY_INDEX, RETURN_A, TO_INDEX, FROM_INDEX = 0x08, 0x10, 0x00, 0x80
MOST_INSTRUCTIONS, CELLS, DATA_SIZE, WORD = 4096, 16, 64, 0xffffffff

KILL_PROCESS, KILL_THREAD, TRAP, ERRNO, NOTIFY, TRACE, LOG, ALLOW = (
    0x80000000, 0x00000000, 0x00030000, 0x00050000, 0x7fc00000, 0x7ff00000, 0x7ffc0000, 0x7fff0000)
ACTION, DETAIL = 0xffff0000, 0x0000ffff

CODE_WORDS = {
    b"BPF_LD": LOAD, b"BPF_LDX": LOAD_INDEX, b"BPF_ST": STORE, b"BPF_STX": STORE_INDEX, b"BPF_ALU": ARITHMETIC,
    b"BPF_JMP": JUMP, b"BPF_RET": RETURN, b"BPF_MISC": MISCELLANY, b"BPF_W": 0, b"BPF_H": 0x08, b"BPF_B": 0x10,
    b"BPF_IMM": IMMEDIATE, b"BPF_ABS": ABSOLUTE, b"BPF_IND": 0x40, b"BPF_MEM": MEMORY, b"BPF_LEN": LENGTH,
    b"BPF_MSH": 0xa0, b"BPF_ADD": ADD, b"BPF_SUB": SUB, b"BPF_MUL": MUL, b"BPF_DIV": DIV, b"BPF_OR": OR,
    b"BPF_AND": AND, b"BPF_LSH": LSH, b"BPF_RSH": RSH, b"BPF_NEG": NEG, b"BPF_MOD": 0x90, b"BPF_XOR": XOR,
    b"BPF_JA": ALWAYS, b"BPF_JEQ": EQUAL, b"BPF_JGT": GREATER, b"BPF_JGE": GREATER_EQUAL, b"BPF_JSET": SET,
    b"BPF_K": 0, b"BPF_X": BY_INDEX, b"BPF_A": RETURN_A, b"BPF_TAX": TO_INDEX, b"BPF_TXA": FROM_INDEX}
RETURN_WORDS = {
    b"SECCOMP_RET_KILL_PROCESS": KILL_PROCESS, b"SECCOMP_RET_KILL_THREAD": KILL_THREAD,
    b"SECCOMP_RET_KILL": KILL_THREAD, b"SECCOMP_RET_TRAP": TRAP, b"SECCOMP_RET_ERRNO": ERRNO,
    b"SECCOMP_RET_USER_NOTIF": NOTIFY, b"SECCOMP_RET_TRACE": TRACE, b"SECCOMP_RET_LOG": LOG,
    b"SECCOMP_RET_ALLOW": ALLOW}
OPERATIONS = (ADD, SUB, MUL, DIV, OR, AND, LSH, RSH, XOR)
TESTS = (EQUAL, GREATER, GREATER_EQUAL, SET)
TAKEN = frozenset((
    LOAD | ABSOLUTE, LOAD | LENGTH, LOAD | IMMEDIATE, LOAD | MEMORY, LOAD_INDEX | LENGTH, LOAD_INDEX | IMMEDIATE,
    LOAD_INDEX | MEMORY, STORE, STORE_INDEX, RETURN, RETURN | RETURN_A, MISCELLANY | TO_INDEX, MISCELLANY | FROM_INDEX,
    ARITHMETIC | NEG, JUMP | ALWAYS,
    *(kind | each | by for kind, group in ((ARITHMETIC, OPERATIONS), (JUMP, TESTS)) for each in group
      for by in (0, BY_INDEX))))


@dataclass(frozen=True)
class Instruction:
    """An instruction: what it does, where a test leads to by its outcome, and its number."""
    code: int
    jt: int
    jf: int
    k: int


Program = tuple[Instruction, ...]


def is_installable(program: Program) -> bool:
    """Whether the kernel takes a program as a filter of system calls (bpf_check_classic and seccomp_check_filter of
    the kernel): all jumps lead forward into it, its last instruction returns, and no cell is read that wasn't
    written."""
    if not 0 < len(program) <= MOST_INSTRUCTIONS or program[-1].code & 7 != RETURN:
        return False
    if not all(is_sound(each, len(program) - at - 1) for at, each in enumerate(program)):
        return False
    return reads_what_it_wrote(program)


def is_sound(one: Instruction, left: int) -> bool:
    """Whether the kernel takes an instruction that so many follow."""
    if one.code not in TAKEN:
        return False
    if one.code == LOAD | ABSOLUTE:
        return one.k < DATA_SIZE and one.k % 4 == 0
    if one.code in (LOAD | MEMORY, LOAD_INDEX | MEMORY, STORE, STORE_INDEX):
        return one.k < CELLS
    if one.code == ARITHMETIC | DIV:
        return one.k != 0
    if one.code in (ARITHMETIC | LSH, ARITHMETIC | RSH):
        return one.k < 32
    if one.code == JUMP | ALWAYS:
        return one.k < left
    return one.code & 7 != JUMP or max(one.jt, one.jf) < left


def reads_what_it_wrote(program: Program) -> bool:
    """Whether each cell that is read was written on every way that leads there."""
    written = [0xffff] * len(program)
    now = 0
    for at, one in enumerate(program):
        now &= written[at]
        if one.code in (STORE, STORE_INDEX):
            now |= 1 << one.k
        elif one.code in (LOAD | MEMORY, LOAD_INDEX | MEMORY) and not now >> one.k & 1:
            return False
        elif one.code & 7 == JUMP:
            steps = (one.k,) if one.code == JUMP | ALWAYS else (one.jt, one.jf)
            for step in steps:
                written[at + 1 + step] &= now
            now = 0xffff
    return True


# ---- the kernel's bytes ----------------------------------------------------------------------------------------------


def of_bytes(data: bytes) -> Program | None:
    """The program of the kernel's bytes, eight an instruction; None where the kernel would take no such filter."""
    if len(data) % 8:
        return None
    program = tuple(Instruction(*each) for each in struct.iter_unpack("=HBBI", data))
    return program if is_installable(program) else None


def bytes_of(program: Program) -> bytes:
    """The kernel's bytes of a program."""
    return b"".join(struct.pack("=HBBI", each.code, each.jt, each.jf, each.k) for each in program)


# ---- strace's words --------------------------------------------------------------------------------------------------


def of_text(argument: bytes) -> Program | None:
    """The program of an argument that strace decoded, `{len=N, filter=[..]}`; None where it isn't shown whole, or the
    kernel would take no such filter."""
    count, told = member(b"len", argument), member(b"filter", argument)
    if count is None or told is None or not (told.startswith(b"[") and told.endswith(b"]")):
        return None
    made = [instruction_of(each) for each in pieces(told[1:-1]) or ()]
    program = tuple(each for each in made if each is not None)
    if len(program) != len(made) or number_of(count) != len(made):
        return None
    return program if is_installable(program) else None


def instruction_of(text: bytes) -> Instruction | None:
    """The instruction of `BPF_STMT(CODE, K)` or `BPF_JUMP(CODE, K, JT, JF)`."""
    found = re.fullmatch(rb"BPF_(STMT|JUMP)\((.*)\)", text, re.S)
    words = None if found is None else [COMMENT.sub(b"", each) for each in pieces(found.group(2)) or ()]
    if words is None or len(words) not in (2, 4):
        return None
    code, k = joined(words[0], CODE_WORDS), joined(words[1], RETURN_WORDS)
    jt, jf = (number_of(each) for each in (words[2:] or [b"0", b"0"]))
    if code is None or k is None or jt is None or jf is None or max(jt, jf) > 0xff:
        return None
    return Instruction(code, jt, jf, k)


def joined(text: bytes, names: dict[bytes, int]) -> int | None:
    """The number of words and numbers between bars."""
    found = 0
    for word in text.split(b"|"):
        told = names.get(word.strip(), number_of(word.strip()))
        if told is None:
            return None
        found |= told
    return found


def number_of(text: bytes) -> int | None:
    """A number as strace writes it."""
    if re.fullmatch(rb"0x[0-9a-f]{1,8}|0|[1-9][0-9]{0,9}", text) is None:
        return None
    found = int(text, 0)
    return found if found <= WORD else None
