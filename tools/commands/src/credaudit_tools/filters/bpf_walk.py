"""All ways through a filter of system calls: what it can return for a call of an architecture and a number, whatever
the call's other arguments are.

A word of what the filter sees (struct seccomp_data, seccomp(2)) is known bit by bit: the number and the architecture
are known, of arguments what is said of them, and what a test on the way showed. A test whose outcome isn't known is
followed both ways. Jumps lead forward, so one pass suffices. Where too many ways meet they are joined, which can only
add returns: what isn't among them is never returned.
"""
from collections.abc import Mapping
from dataclasses import dataclass, replace

from . import bpf
from .bpf import WORD, Instruction, Program

NUMBER, ARCHITECTURE, ARGUMENTS = 0, 4, 16      # offsets in what a filter sees; an argument's low half stands first
WORDS = bpf.DATA_SIZE // 4
MOST_WAYS = 16


@dataclass(frozen=True)
class Bits:
    """A word of which the bits of `known` are known: those of `ones`."""
    ones: int = 0
    known: int = 0

    def least(self) -> int:
        """The least number that it can be."""
        return self.ones

    def most(self) -> int:
        """The greatest number that it can be."""
        return self.ones | ~self.known & WORD

    def is_exact(self) -> bool:
        """Whether all of it is known."""
        return self.known == WORD

    def joined(self, other: "Bits") -> "Bits":
        """What is known of both."""
        known = self.known & other.known & ~(self.ones ^ other.ones)
        return Bits(self.ones & known, known)


def exact(number: int) -> Bits:
    """A word that is known."""
    return Bits(number & WORD, WORD)


ANY, NOTHING = Bits(), exact(0)


@dataclass(frozen=True)
class Held:
    """What a register holds. `source` is the place of the seen word of which it holds the bits of `mask`, None where it
    isn't a part of one."""
    bits: Bits
    source: int | None = None
    mask: int = WORD


@dataclass(frozen=True)
class Way:
    """Where a way through the program stands: the registers, the cells, and what is known of the seen words."""
    a: Held
    x: Held
    cells: tuple[Held, ...]
    seen: tuple[Bits, ...]

    def joined(self, other: "Way") -> "Way":
        """What is known on both ways."""
        return Way(joined_held(self.a, other.a), joined_held(self.x, other.x),
                   tuple(map(joined_held, self.cells, other.cells)),
                   tuple(one.joined(two) for one, two in zip(self.seen, other.seen)))


def joined_held(one: Held, other: Held) -> Held:
    """What is known of a register on both ways."""
    if one == other:
        return one
    source = one.source if (one.source, one.mask) == (other.source, other.mask) else None
    return Held(one.bits.joined(other.bits), source, one.mask if source is not None else WORD)


@dataclass(frozen=True)
class Returned:
    """What a way ends with: the number, None where it is worked out of what isn't known; and what the way's tests
    showed of the arguments, by their offsets."""
    number: int | None
    arguments: tuple[tuple[int, Bits], ...] = ()


def start(architecture: int, number: int, arguments: Mapping[int, Bits] = {}) -> Way:
    """The beginning for a call; `arguments` has by their offsets what is known of words of arguments."""
    seen = [arguments.get(4 * at, ANY) for at in range(WORDS)]
    seen[NUMBER // 4], seen[ARCHITECTURE // 4] = exact(number), exact(architecture)
    return Way(Held(NOTHING), Held(NOTHING), (Held(NOTHING),) * bpf.CELLS, tuple(seen))


def returns(program: Program, begin: Way) -> frozenset[Returned]:
    """All that a program, which the kernel takes, can return."""
    waiting: list[dict[Way, None]] = [{} for _ in program]
    waiting[0][begin] = None
    found = set[Returned]()
    for at, one in enumerate(program):
        ways, waiting[at] = waiting[at], {}
        for way in together(list(ways)):
            if one.code & 7 == bpf.RETURN:
                found.add(returned(one, way, begin))
                continue
            if one.code == bpf.ARITHMETIC | bpf.DIV | bpf.BY_INDEX and way.x.bits.least() == 0:
                found.add(Returned(bpf.KILL_THREAD))        # a division by 0 ends the program so
                if way.x.bits.is_exact():
                    continue
            for step, next_way in steps(one, way):
                waiting[at + 1 + step][next_way] = None
    return frozenset(found)


def together(ways: list[Way]) -> list[Way]:
    """The ways that meet; one for all where they are too many."""
    if len(ways) <= MOST_WAYS:
        return ways
    all_of_them = ways[0]
    for way in ways[1:]:
        all_of_them = all_of_them.joined(way)
    return [all_of_them]


def returned(one: Instruction, way: Way, begin: Way) -> Returned:
    """What a return gives."""
    bits = way.a.bits if one.code & bpf.RETURN_A else exact(one.k)
    learned = tuple((4 * at, now) for at, (now, before) in enumerate(zip(way.seen, begin.seen))
                    if now != before and 4 * at >= ARGUMENTS)
    return Returned(bits.ones if bits.is_exact() else None, learned)


# ---- one instruction -------------------------------------------------------------------------------------------------


def steps(one: Instruction, way: Way) -> list[tuple[int, Way]]:
    """Where a way goes on: how many instructions are passed over, and the way behind."""
    kind = one.code & 7
    if one.code == bpf.JUMP | bpf.ALWAYS:
        return [(one.k, way)]
    if kind == bpf.JUMP:
        return tested(one, way)
    if kind == bpf.LOAD:
        return [(0, replace(way, a=loaded(one, way)))]
    if kind == bpf.LOAD_INDEX:
        return [(0, replace(way, x=loaded(one, way)))]
    if kind in (bpf.STORE, bpf.STORE_INDEX):
        cells = list(way.cells)
        cells[one.k] = way.a if kind == bpf.STORE else way.x
        return [(0, replace(way, cells=tuple(cells)))]
    if kind == bpf.MISCELLANY:
        return [(0, replace(way, a=way.x) if one.code & bpf.FROM_INDEX else replace(way, x=way.a))]
    return [(0, replace(way, a=worked_out(one, way)))]


def loaded(one: Instruction, way: Way) -> Held:
    """What a load brings."""
    mode = one.code & 0xe0
    if mode == bpf.ABSOLUTE:
        return Held(way.seen[one.k // 4], one.k // 4)
    if mode == bpf.MEMORY:
        return way.cells[one.k]
    return Held(exact(bpf.DATA_SIZE if mode == bpf.LENGTH else one.k))


def operand(one: Instruction, way: Way) -> Bits:
    """The second operand of a test or of an operation."""
    return way.x.bits if one.code & bpf.BY_INDEX else exact(one.k)


def worked_out(one: Instruction, way: Way) -> Held:
    """What an operation leaves in A."""
    operation, left, right = one.code & 0xf0, way.a, operand(one, way)
    bits = of_operation(operation, left.bits, right)
    if operation == bpf.AND and right.is_exact() and left.source is not None:
        return Held(bits, left.source, left.mask & right.ones)
    return Held(bits)


def of_operation(operation: int, left: Bits, right: Bits) -> Bits:
    """What is known of an operation's outcome."""
    both = left.known & right.known
    if operation == bpf.AND:
        known = both | left.known & ~left.ones | right.known & ~right.ones
        return Bits(left.ones & right.ones & known, known)
    if operation == bpf.OR:
        known = both | left.ones | right.ones
        return Bits((left.ones | right.ones) & known, known)
    if operation == bpf.XOR:
        return Bits((left.ones ^ right.ones) & both, both)
    if operation in (bpf.LSH, bpf.RSH) and right.is_exact():
        return shifted(operation, left, right.ones & 31)
    if operation == bpf.NEG:
        return exact(-left.ones) if left.is_exact() else ANY
    if both != WORD or operation == bpf.DIV and right.ones == 0:
        return ANY
    return exact(number_of(operation, left.ones, right.ones))


def shifted(operation: int, left: Bits, count: int) -> Bits:
    """What is known behind a shift."""
    if operation == bpf.LSH:
        return Bits(left.ones << count & WORD, (left.known << count | (1 << count) - 1) & WORD)
    return Bits(left.ones >> count, left.known >> count | WORD & ~(WORD >> count))


def number_of(operation: int, left: int, right: int) -> int:
    """The outcome on two numbers."""
    if operation == bpf.ADD:
        return left + right
    if operation == bpf.SUB:
        return left - right
    if operation == bpf.MUL:
        return left * right
    return left // right


# ---- tests -----------------------------------------------------------------------------------------------------------


def tested(one: Instruction, way: Way) -> list[tuple[int, Way]]:
    """The ways behind a test: of each outcome that can come."""
    right, found = operand(one, way), []
    for outcome, step in ((True, one.jt), (False, one.jf)):
        if can_come(one.code & 0xf0, way.a.bits, right, outcome):
            behind = showed(one.code & 0xf0, way, right, outcome)
            if behind is not None:
                found.append((step, behind))
    return found


def can_come(test: int, left: Bits, right: Bits, outcome: bool) -> bool:
    """Whether a test can have this outcome."""
    both = left.known & right.known
    if test == bpf.EQUAL:
        differ = bool((left.ones ^ right.ones) & both)
        return not differ if outcome else differ or both != WORD
    if test == bpf.SET:
        surely = bool(left.ones & right.ones)
        return bool(left.most() & right.most()) if outcome else not surely
    if test == bpf.GREATER:
        return left.most() > right.least() if outcome else left.least() <= right.most()
    return left.most() >= right.least() if outcome else left.least() < right.most()


def showed(test: int, way: Way, right: Bits, outcome: bool) -> Way | None:
    """The way behind a test by a known number, with what its outcome shows of the word that was looked at; None where
    that can't be."""
    held = way.a
    if held.source is None or not right.is_exact():
        return way
    shown: Bits | None = None
    if test == bpf.EQUAL and outcome:
        if right.ones & ~held.mask:
            return None
        shown = Bits(right.ones, held.mask)
    elif test == bpf.SET:
        looked_at = right.ones & held.mask
        single = looked_at & (looked_at - 1) == 0
        shown = Bits(looked_at, looked_at) if outcome and single else None if outcome else Bits(0, looked_at)
    if shown is None:
        return way
    before = way.seen[held.source]
    if (before.ones ^ shown.ones) & before.known & shown.known:
        return None
    now = Bits(before.ones | shown.ones, before.known | shown.known)
    own = Bits(now.ones & held.mask, now.known & held.mask | ~held.mask & WORD)
    seen = (*way.seen[:held.source], now, *way.seen[held.source + 1:])
    return replace(way, a=replace(held, bits=own), seen=seen)
