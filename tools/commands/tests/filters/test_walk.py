"""Filters of system calls: what the walker says of them, beside the running kernel and as worked out by hand. Drawn
programs and real ones are asked by calls that are made under them, which needs no root, but cc and a kernel for x86-64.
"""
import os
import platform
import random
import re
import shutil
import subprocess
import unittest

from credaudit_tools.filters import bpf
from credaudit_tools.filters.bpf import Instruction, Program
from credaudit_tools.filters.bpf_walk import ARGUMENTS, Bits, exact, returns, start
from credaudit_tools.filters.call_numbers import I386, LISTED, NUMBERS, PRCTL_OPTIONS, X86_64
from credaudit_tools.filters.filter_verdicts import COMPUTED, FAKED, MADE, REFUSED, Answer, fakes, outcomes
from credaudit_tools.formats import strace_lines
from credaudit_tools.trace.strace_options import CALLS

from ..support import EXAMPLES, HERE, Case, data

DRAWN, EACH = 120, 6
# Calls that do nothing and answer a positive number: getpid, getppid, getpgrp, gettid, and of 32-bit programs the same.
HARMLESS = {64: (39, 110, 111, 186), 32: (20, 64, 65, 224)}
ARGUMENTS_DRAWN = (0, 1, 2, 8, 28, 47, 0x10000000, 0x7fffffff, 0x80000000, 0xffffffff, 1 << 32, (1 << 32) + 1)
ENDINGS = (bpf.ALLOW, bpf.ALLOW, bpf.ERRNO, bpf.ERRNO | 1, bpf.ERRNO | 77, bpf.TRAP, bpf.KILL_PROCESS, bpf.KILL_THREAD,
           bpf.NOTIFY, bpf.TRACE | 3, 0x12340000)
ENOSYS = -38
# Calls that change nothing outside of the process that makes them, whether a filter lets them through or not, and none
# of which answers 77 or 78 by itself: bits, number, first arguments.
OF_REAL_ONES = (
    (64, 39, ()), (64, 105, (0,)), (64, 113, (5, 5)), (64, 117, (1, 2, 3)), (64, 122, (1000,)), (64, 122, (1001,)),
    (64, 122, (1 << 32,)), (64, 106, (0,)), (64, 114, (5, 5)), (64, 116, (70000, 0)), (64, 308, (999, 0)),
    (64, 272, (0,)), (64, 272, (0x10000000,)), (64, 272, (0x10000000 | 1 << 32,)), (64, 272, (0x10000001,)),
    (64, 56, (0x10000200,)), (64, 56, (0x800,)), (64, 435, (0, 0)), (64, 157, (28, 0)), (64, 157, (28 | 1 << 32, 0)),
    (64, 157, (27,)), (64, 157, (24, 999)), (64, 157, (38, 2)), (64, 161, (0,)), (64, 2, (0, 0)), (64, 257, (0, 0)),
    (64, 110, ()), (64, 101, (999,)), (64, 0x40000000 + 105, (0,)), (32, 20, ()), (32, 23, (0,)), (32, 213, (0,)),
    (32, 120, (0x10000200,)), (32, 172, (28, 0)), (32, 310, (0x10000000,)), (32, 81, (70000, 0)), (32, 11, (0, 0, 0)))

Call = tuple[int, int, tuple[int, ...]]         # bits, number, arguments


def statement(code: int, k: int) -> Instruction:
    """An instruction that tests nothing."""
    return Instruction(code, 0, 0, k)


def drawn(draw: random.Random) -> Program:
    """A program that lets through all but the harmless calls, and does with these what is drawn."""
    numbers = sorted({*HARMLESS[64], *HARMLESS[32]})
    front = [statement(bpf.LOAD | bpf.ABSOLUTE, 0)]
    for at, number in enumerate(numbers):
        front.append(Instruction(bpf.JUMP | bpf.EQUAL, len(numbers) - at, 0, number))
    front.append(statement(bpf.RETURN, bpf.ALLOW))
    while True:
        length = draw.randrange(3, 24)
        body = [body_one(draw, length - at) for at in range(length)]
        program = (*front, *body, statement(bpf.RETURN, draw.choice(ENDINGS)))
        if bpf.is_installable(program):
            return program


def body_one(draw: random.Random, left: int) -> Instruction:
    """An instruction, of all kinds."""
    kind, by = draw.randrange(14), draw.choice((0, 0, bpf.BY_INDEX))
    number = draw.choice((*ARGUMENTS_DRAWN[:10], *HARMLESS[64], X86_64, I386, draw.getrandbits(32)))
    if kind < 3:
        return statement(bpf.LOAD | bpf.ABSOLUTE, draw.choice((0, 4, 16, 16, 20, 24, 28, 32)))
    if kind < 8:
        return Instruction(bpf.JUMP | draw.choice(bpf.TESTS) | by, draw.randrange(left), draw.randrange(left), number)
    if kind == 8:
        operation = draw.choice(bpf.OPERATIONS)
        small = number % 31 + 1 if operation in (bpf.LSH, bpf.RSH) else number or 1
        return statement(bpf.ARITHMETIC | operation | by, small)
    if kind == 9:
        return statement(draw.choice((bpf.ARITHMETIC | bpf.NEG, bpf.MISCELLANY, bpf.MISCELLANY | bpf.FROM_INDEX,
                                      bpf.LOAD | bpf.LENGTH, bpf.LOAD_INDEX | bpf.LENGTH)), 0)
    if kind == 10:
        return statement(draw.choice((bpf.STORE, bpf.STORE_INDEX, bpf.LOAD | bpf.MEMORY, bpf.LOAD_INDEX | bpf.MEMORY)),
                         draw.randrange(3))
    if kind == 11:
        return statement(draw.choice((bpf.LOAD, bpf.LOAD_INDEX)) | bpf.IMMEDIATE, number)
    if kind == 12:
        return statement(bpf.JUMP, draw.randrange(left))
    return Instruction(bpf.RETURN | draw.choice((0, 0, bpf.RETURN_A)), draw.randrange(3), draw.randrange(3),
                       draw.choice(ENDINGS))


def call_drawn(draw: random.Random) -> Call:
    """A harmless call with drawn arguments."""
    bits = draw.choice((64, 64, 32))
    own = [draw.choice((*ARGUMENTS_DRAWN, draw.getrandbits(64))) for _ in range(6)]
    return bits, draw.choice(HARMLESS[bits]), tuple(own if bits == 64 else [each % (1 << 32) for each in own[:5]] + [0])


def words_of(call: Call, known: int = 6) -> tuple[tuple[int, Bits], ...]:
    """What a filter sees of the first arguments of a call."""
    words = [(ARGUMENTS + 8 * at + 4 * half, exact(each >> 32 * half))
             for at, each in enumerate(call[2][:known]) for half in (0, 1)]
    return tuple(words)


def told(answer: Answer) -> str:
    """What the kernel does by a return of a filter, as asking.c writes it; of a call that is made a positive number."""
    if answer is None:
        return "anything"
    action, detail = answer & bpf.ACTION, answer & bpf.DETAIL
    if action in (bpf.ALLOW, bpf.LOG):
        return "made"
    if action == bpf.ERRNO:
        return f"returned {-min(detail, 4095)}"
    return {bpf.NOTIFY: f"returned {ENOSYS}", bpf.TRACE: f"returned {ENOSYS}", bpf.TRAP: "trapped"}.get(action, "ended")


def shown(line: str) -> str:
    """A line of asking.c, with `made` for what the harmless calls answer."""
    word, _, number = line.partition(" ")
    return "made" if word == "returned" and int(number) > 0 else line


@unittest.skipIf(shutil.which("cc") is None, "cc isn't there")
@unittest.skipIf(platform.machine() != "x86_64", "calls of x86-64 are asked")
class Beside(Case):
    def setUp(self) -> None:
        super().setUp()
        self.asking = os.path.join(self.work, "asking")
        source = os.path.join(HERE, "filters", "asking", "asking.c")
        subprocess.run(["cc", "-O1", "-o", self.asking, source], check=True)

    def asked(self, wanted: list[tuple[Program, list[Call]]]) -> list[list[str]]:
        """What the kernel did with each call under its program."""
        lines = []
        for program, calls in wanted:
            lines.append("program " + bpf.bytes_of(program).hex())
            lines += [f"call {bits} {number} {' '.join(map(str, own))}" for bits, number, own in calls]
        done = subprocess.run([self.asking], input="\n".join(lines) + "\n", stdout=subprocess.PIPE, text=True,
                              check=True)
        out = iter(done.stdout.splitlines())
        return [[shown(next(out)) for _ in calls] for _, calls in wanted]

    def test_drawn_programs(self) -> None:
        draw = random.Random(20261130)
        wanted = [(drawn(draw), [call_drawn(draw) for _ in range(EACH)]) for _ in range(DRAWN)]
        outcomes = set()
        for (program, calls), seen in zip(wanted, self.asked(wanted)):
            for call, line in zip(calls, seen):
                outcomes.add(line.split(" ")[0])
                architecture = X86_64 if call[0] == 64 else I386
                for known in (6, 1, 0):
                    begin = start(architecture, call[1], dict(words_of(call, known)))
                    found = {told(each.number) for each in returns(program, begin)}
                    with self.subTest(program=program, call=call, known=known):
                        self.assertTrue(line in found or "anything" in found, (line, found))
                        if known == 6:
                            self.assertEqual(len(found), 1, found)
                            self.assertEqual(found, {line})
        self.assertLessEqual({"made", "returned", "trapped", "ended"}, outcomes)

    def test_real_programs(self) -> None:
        """libseccomp's, OpenSSH's and chrony's. Of a call that a filter lets through the kernel's answer is its own."""
        calls = [(bits, number, (own + (0,) * 6)[:6]) for bits, number, own in OF_REAL_ONES]
        named = {**of_libseccomp(), **of_recordings()}
        asked = self.asked([(program, calls) for program in named.values()])
        for (name, program), seen in zip(named.items(), asked):
            for call, line in zip(calls, seen):
                begin = start(X86_64 if call[0] == 64 else I386, call[1], dict(words_of(call)))
                [found] = {each.number for each in returns(program, begin)}
                with self.subTest(name, call=call):
                    if told(found) == "made":
                        self.assertNotIn(line, ("trapped", "returned -77", "returned -78"))
                    else:
                        self.assertEqual(line, told(found))

    @unittest.skipIf(shutil.which("strace") is None, "strace isn't there")
    def test_words_of_strace(self) -> None:
        """What strace writes of a program is read as that program, or as none."""
        draw = random.Random(7)
        programs = [*(drawn(draw) for _ in range(40)), *of_libseccomp().values()]
        wanted = "".join(f"program {bpf.bytes_of(each).hex()}\ncall 64 39 0 0 0 0 0 0\n" for each in programs)
        log = os.path.join(self.work, "log")
        words = ["strace", "-f", "-v", "-e", "trace=seccomp", "-o", log, self.asking]
        done = subprocess.run(words, input=wanted, text=True, stdout=subprocess.DEVNULL, stderr=subprocess.DEVNULL,
                              check=False)
        if done.returncode != 0:
            self.skipTest("processes can't be traced here")
        with open(log, "rb") as file:
            split = [strace_lines.parted(line) for line in file.read().splitlines()]
        made = [call for each in split if each is not None and (call := strace_lines.call_of(each[1])) is not None]
        self.assertEqual([bpf.of_text(call.arguments[2]) for call in made], programs)


def of_libseccomp() -> dict[str, Program]:
    """The stored filters of libseccomp."""
    found = {}
    for line in data("libseccomp.txt").decode().splitlines():
        name, _, text = line.partition(" ")
        program = bpf.of_bytes(bytes.fromhex(text))
        assert program is not None
        found[name] = program
    return found


def of_recordings() -> dict[str, Program]:
    """The filters that recorded programs installed."""
    found = {}
    for name in ("sshd", "chronyd"):
        with open(os.path.join(EXAMPLES, "strace", name, "filters.txt"), "rb") as file:
            for number, line in enumerate(file.read().splitlines()):
                program = bpf.of_text(line.partition(b": ")[2])
                assert program is not None
                found[f"{name} {number}"] = program
    return found


# ---- by hand ---------------------------------------------------------------------------------------------------------


def number_is(number: int, then: Program) -> Program:
    """Lets through all calls but that of a number, of every architecture; for that one the rest decides."""
    return (statement(bpf.LOAD | bpf.ABSOLUTE, 0), Instruction(bpf.JUMP | bpf.EQUAL, 1, 0, number),
            statement(bpf.RETURN, bpf.ALLOW), *then)


def ends(action: int) -> Instruction:
    """A return."""
    return statement(bpf.RETURN, action)


FIRST = statement(bpf.LOAD | bpf.ABSOLUTE, 16)
PRCTL, SETUID, UNSHARE = 157, 105, 272
# What is worked out by hand: filters, the first installed first; a call; and all that can become of it.
BY_HAND: tuple[tuple[str, tuple[Program, ...], str, set[str]], ...] = (
    ("an error for setuid of 64-bit programs alone", (number_is(SETUID, (ends(bpf.ERRNO | 1),)),), "setuid",
     {MADE, REFUSED}),
    ("an error for all calls", ((ends(bpf.ERRNO | 1),),), "setuid", {REFUSED}),
    ("an end for all calls", ((ends(bpf.KILL_THREAD),),), "setuid", {REFUSED}),
    ("an action that isn't known ends the process", ((ends(0x12340000),),), "setuid", {REFUSED}),
    ("success for all calls", ((ends(bpf.ERRNO),),), "setuid", {FAKED}),
    ("success, and an error of one that came later", ((ends(bpf.ERRNO),), (ends(bpf.ERRNO | 1),)), "setuid", {REFUSED}),
    ("an error, and success of one that came later", ((ends(bpf.ERRNO | 1),), (ends(bpf.ERRNO),)), "setuid", {FAKED}),
    ("success of one, and an end of the other", ((ends(bpf.KILL_THREAD),), (ends(bpf.ERRNO),)), "setuid", {REFUSED}),
    ("notification of one, and an error of the other", ((ends(bpf.ERRNO | 1),), (ends(bpf.NOTIFY),)), "setuid",
     {REFUSED}),
    ("notification, and a tracer of one that came later", ((ends(bpf.NOTIFY),), (ends(bpf.TRACE),)), "setuid", {FAKED}),
    ("what is logged is made", ((ends(bpf.LOG),),), "setuid", {MADE}),
    ("success for one option of prctl", (number_is(PRCTL, (
        FIRST, Instruction(bpf.JUMP | bpf.EQUAL, 0, 1, 28), ends(bpf.ERRNO), ends(bpf.ALLOW))),),
     "prctl(PR_SET_SECUREBITS)", {FAKED, MADE}),
    ("success for another option of prctl", (number_is(PRCTL, (
        FIRST, Instruction(bpf.JUMP | bpf.EQUAL, 0, 1, 28), ends(bpf.ERRNO), ends(bpf.ALLOW))),),
     "prctl(PR_SET_KEEPCAPS)", {MADE}),
    ("a return with a jump is a return", ((Instruction(bpf.RETURN, 1, 0, bpf.ERRNO),
                                           ends(bpf.ALLOW)),), "setuid", {FAKED}),
    ("what A holds, worked out of the number: 105, which ends", ((
        statement(bpf.LOAD | bpf.ABSOLUTE, 0), statement(bpf.RETURN | bpf.RETURN_A, 0)),), "setuid", {REFUSED}),
    ("what A holds, worked out of an argument", ((FIRST, statement(bpf.RETURN | bpf.RETURN_A, 0)),), "setuid", {FAKED}),
    ("success that is worked out of the number: 0x50000", ((
        statement(bpf.LOAD | bpf.ABSOLUTE, 0), statement(bpf.ARITHMETIC | bpf.AND, 0),
        statement(bpf.ARITHMETIC | bpf.OR, bpf.ERRNO), statement(bpf.RETURN | bpf.RETURN_A, 0)),), "setuid", {FAKED}),
    ("a bit of a flag that is tested, moved aside", (number_is(UNSHARE, (
        FIRST, statement(bpf.ARITHMETIC | bpf.RSH, 28), Instruction(bpf.JUMP | bpf.SET, 0, 1, 1), ends(bpf.ERRNO | 1),
        ends(bpf.ALLOW))),), "unshare", {REFUSED, MADE}),
    ("a way that can't be gone: an argument that is two numbers", (number_is(SETUID, (
        FIRST, Instruction(bpf.JUMP | bpf.EQUAL, 0, 3, 5), FIRST, Instruction(bpf.JUMP | bpf.EQUAL, 0, 1, 6),
        ends(bpf.ERRNO), ends(bpf.ALLOW))),), "setuid", {MADE}),
    ("what a cell keeps", ((FIRST, statement(bpf.STORE, 3), statement(bpf.LOAD | bpf.IMMEDIATE, bpf.ERRNO),
                            statement(bpf.STORE, 4), statement(bpf.LOAD | bpf.MEMORY, 4),
                            statement(bpf.RETURN | bpf.RETURN_A, 0)),), "setuid", {FAKED}))


class ByHand(unittest.TestCase):
    def test_outcomes(self) -> None:
        calls = {each.name: each for each in LISTED}
        for title, programs, name, wanted in BY_HAND:
            with self.subTest(title):
                self.assertTrue(all(map(bpf.is_installable, programs)))
                self.assertEqual(outcomes(programs, calls[name]), wanted)

    def test_fakes(self) -> None:
        """Which calls a filter can answer in the kernel's place, and how; none where none of its returns does."""
        seen = number_is(PRCTL, (FIRST, statement(bpf.RETURN | bpf.RETURN_A, 0)))
        self.assertEqual(fakes((seen,)), {})        # every option that is listed is a number that ends the process
        seen = number_is(SETUID, (FIRST, statement(bpf.RETURN | bpf.RETURN_A, 0)))
        self.assertEqual(fakes((seen,)), {"setuid": COMPUTED})
        self.assertEqual(fakes((number_is(90, (ends(bpf.ERRNO),)),)), {})

    def test_many_ways_are_joined(self) -> None:
        """Tests of twenty bits, one behind the other, are 2^20 ways: what is found stays whole."""
        program = (*(each for bit in range(20) for each in (
            FIRST, Instruction(bpf.JUMP | bpf.SET, 0, 1, 1 << bit), statement(bpf.LOAD_INDEX | bpf.IMMEDIATE, bit))),
            statement(bpf.MISCELLANY | bpf.FROM_INDEX, 0), statement(bpf.ARITHMETIC | bpf.OR, bpf.ERRNO),
            statement(bpf.RETURN | bpf.RETURN_A, 0))
        self.assertTrue(bpf.is_installable(program))
        self.assertEqual(fakes((program,)).get("setuid"), COMPUTED)

    def test_what_the_kernel_takes(self) -> None:
        """Each of these is refused by the kernel, so nothing is read of it."""
        allow = ends(bpf.ALLOW)
        for title, program in (
                ("nothing", ()), ("no return at the end", (FIRST,)), ("a jump out of it", (
                    Instruction(bpf.JUMP | bpf.EQUAL, 1, 0, 5), allow)),
                ("a load that isn't aligned", (statement(bpf.LOAD | bpf.ABSOLUTE, 17), allow)),
                ("a load of half a word", (statement(bpf.LOAD | bpf.ABSOLUTE | 0x08, 16), allow)),
                ("a division by 0", (statement(bpf.ARITHMETIC | bpf.DIV, 0), allow)),
                ("a remainder", (statement(bpf.ARITHMETIC | 0x90, 3), allow)),
                ("a cell that wasn't written", (statement(bpf.LOAD | bpf.MEMORY, 3), allow)),
                ("a cell that was written on one way alone", (
                    Instruction(bpf.JUMP | bpf.EQUAL, 0, 1, 5), statement(bpf.STORE, 3),
                    statement(bpf.LOAD | bpf.MEMORY, 3), allow)),
                ("a return of X", (statement(bpf.RETURN | bpf.BY_INDEX, 0),))):
            with self.subTest(title):
                self.assertIsNone(bpf.of_bytes(bpf.bytes_of(program)))

    def test_texts_that_are_not_whole(self) -> None:
        one = b"BPF_STMT(BPF_RET|BPF_K, SECCOMP_RET_ALLOW)"
        self.assertEqual(bpf.of_text(b"{len=1, filter=[" + one + b"]}"), (ends(bpf.ALLOW),))
        for text in (b"", b"NULL", b"0x7ffd10", b"{len=2, filter=[" + one + b"]}", b"{len=1, filter=0x7ffd10}",
                     b"{len=2, filter=[" + one + b", ...]}", b"{len=1, filter=[BPF_STMT(BPF_RET|BPF_Q, 0)]}",
                     b"{len=1, filter=[BPF_STMT(BPF_RET|BPF_K, SECCOMP_RET_OTHER)]}",
                     b"{len=1, filter=[BPF_JUMP(BPF_RET|BPF_K, 0, 0x100, 0)]}"):
            with self.subTest(text):
                self.assertIsNone(bpf.of_text(text))

    def test_numbers(self) -> None:
        """Every call that strace is asked for has its numbers, but for those that ask; those of the kernel's headers,
        where they are there."""
        names = set(re.findall(r"\b__NR_(\w+)", "".join(map(header, ("64", "32")))))
        wanted = {each for each in names if re.fullmatch(f"({CALLS})(32|64)?", each)
                  and not re.match(r"get|capget|io_uring_(enter|register)", each)}
        if not names:
            self.skipTest("the kernel's headers aren't there")
        self.assertEqual(NUMBERS.keys(), {re.sub("(?<=[a-z])(32|64)$", "", each) for each in wanted - {"pwrite64"}}
                         | {"pwrite64"})
        for bits, place in (("64", 0), ("32", 1)):
            told = dict(re.findall(r"__NR_(\w+) (\d+)", header(bits)))
            for name, (usual, short, _) in NUMBERS.items():
                spelled = [int(told[each]) for each in (name, name + "32", name + "64") if each in told]
                self.assertEqual(spelled, list(short) if place else [usual], name)

    def test_options(self) -> None:
        path = "/usr/include/linux/prctl.h"
        if not os.path.exists(path):
            self.skipTest("the kernel's headers aren't there")
        with open(path) as file:
            told = dict(re.findall(r"#define (PR_\w+)\s+(\d+)", file.read()))
        self.assertEqual(PRCTL_OPTIONS, {name: int(told[name]) for name in PRCTL_OPTIONS})


def header(bits: str) -> str:
    """The kernel's numbers of calls, where the headers are there."""
    for folder in ("/usr/include/x86_64-linux-gnu/asm", "/usr/include/asm"):
        path = os.path.join(folder, f"unistd_{bits}.h")
        if os.path.exists(path):
            with open(path) as file:
                return file.read()
    return ""
