"""Tapes of commands on bits that take every arm, made from a fixed seed.

For each opcode, prime and mode, random tapes are drawn, and one is taken if it takes an arm of that opcode that too few of the
tapes before it took. So the tapes are few, and say what arms there are rather than what is likely.
"""

import random
from collections import Counter
from itertools import product

from arms import ARMS, counted
from rules import Run, is_variable

PRIMES = [3, 7, 29, 101]
MODES = ["values", "setup"]
# How often each arm is to be taken in all, and at most over each prime and in each mode: first few times over each, and then
# more where not all of them have it.
IN_ALL = 22
EACH = [2, 3, 6, IN_ALL]
# After how many tapes without a new arm no more are drawn.
PATIENCE = 400


class Tape:
    """A tape that grows by commands, with its run."""

    def __init__(self, rng, prime, mode):
        self.rng = rng
        self.run = Run(prime, mode == "values")
        self.bytes = b""
        self.commands = 0

    def add(self, opcode, *operands):
        """A command; an operand is a byte, or the two bytes of a number of an answer, as `place` gives them."""
        data = b"".join(bytes([o]) if isinstance(o, int) else o for o in operands)
        self.bytes += bytes([opcode]) + data
        self.run.command(self.commands, opcode, data)
        self.commands += 1

    def new(self, mode):
        """A new bit, seldom with no value."""
        absent = mode > 0 and not self.run.keeps_values and self.rng.random() < 0.1
        self.add(0x01, mode, 2 if absent else self.rng.randrange(2))

    def places(self, wanted):
        """The answers that are `wanted`: 0, 1 or "v" for a variable."""
        return [n for n, bit in enumerate(self.run.book) if wanted == ("v" if is_variable(bit) else bit)]

    def pick(self, earlier):
        """An answer: now and then one that was picked already, and else a constant or a variable."""
        if earlier and self.rng.random() < 0.3:
            return self.rng.choice(earlier)
        return self.rng.choice(self.places(self.rng.choice([0, 1, "v"])))

    def prelude(self):
        """Bits of each kind."""
        self.add(0x01, 0, 0)
        self.add(0x01, 0, 1)
        for mode in self.rng.choice([[1, 2], [2, 2], [2, 1, 2]]):
            self.new(mode)
        for _ in range(self.rng.randrange(3)):
            a, b = (self.rng.choice(self.places("v")) for _ in range(2))
            if self.rng.randrange(2):
                self.add(0x10, place(a))
            else:
                self.add(self.rng.choice([0x11, 0x12, 0x13]), place(a), place(b))

    def copies(self, kinds):
        """Copies of answers of these kinds, next to each other, and where the first of them is."""
        first = len(self.run.book)
        for wanted in kinds:
            if wanted == "v" and self.rng.random() < 0.1:
                self.add(0x01, 2, self.rng.randrange(2))
            else:
                self.add(0x03, place(self.rng.choice(self.places(wanted))))
        return first


def place(n):
    return n.to_bytes(2, "little")


def members(rng, count):
    """What the members of a gate or a bound are: constants, variables, or both."""
    kinds = rng.choice([[0], [1], [0, 1], ["v"], ["v", 0], ["v", 1], ["v", "v", 0, 1]])
    drawn = [rng.choice(kinds) for _ in range(count)]
    if rng.random() < 0.3:
        drawn[rng.randrange(count)] = "v"
    return drawn


def gate(tape, opcode):
    rng = tape.rng
    count = rng.choice([1, 2, 2, 3, 3, 4, 4, 5, 6, rng.randrange(7, 12)])
    kinds = members(rng, count)
    if rng.random() < 0.05:
        kinds = [rng.choice([0, 1]) for _ in range(64)]
        kinds[rng.randrange(64)] = kinds[rng.randrange(64)] = "v"
        count = 64
    first = tape.copies(kinds)
    wrong = rng.random()
    if wrong < 0.03:
        first, count = rng.choice([(first + 1, count), (0, 200)])
    elif wrong < 0.06:
        count = 0
    tape.add(opcode, place(first), count)


def bounds(rng):
    """A number of bits and a bound on them: any, or two runs of ones with a zero behind each."""
    if rng.random() < 0.02:
        return 64, 2**64 - 2
    if rng.random() < 0.4:
        runs = ["1" * rng.randrange(1, 5) + "0" * rng.randrange(1, 3) for _ in range(2)]
        element = int("".join(runs), 2)
        return element.bit_length() + rng.choice([0, 0, 1]), element
    count = rng.randrange(8)
    length = rng.choice([count, rng.randrange(count + 1)])
    return count, rng.randrange(2**length)


def bound(tape, opcode):
    rng = tape.rng
    count, element = bounds(rng)
    kinds = members(rng, count) if count else []
    if count == 64 or rng.random() < 0.4:
        # The bound's own bits, of which some give way to variables.
        kinds = [element >> i & 1 for i in range(count)]
        for _ in range(rng.randrange(3) if count else 0):
            kinds[rng.randrange(count)] = "v"
    first = tape.copies(kinds)
    wrong = rng.random()
    if wrong < 0.03:
        first += 1
    elif wrong < 0.06:
        element = 2**63
    tape.add(opcode, place(first), count, element.to_bytes(8, "little"))


def new_bit(tape, opcode):
    rng = tape.rng
    tape.add(opcode, rng.choice([0, 1, 2, 2, 3]), rng.choice([0, 1, 1, 2, 2, 3]))


def on_few(tape, opcode):
    """A command of one to three bits."""
    count = {0x03: 1, 0x10: 1, 0x19: 3, 0x1A: 3, 0x1B: 3}.get(opcode, 2)
    picked = []
    for _ in range(count):
        picked.append(tape.pick(picked))
    if tape.rng.random() < 0.02:
        picked[tape.rng.randrange(count)] = tape.rng.choice([len(tape.run.book), 65535])
    tape.add(opcode, *map(place, picked))


WRITERS = {0x01: new_bit, 0x14: gate, 0x15: gate, 0x16: gate, 0x17: gate, 0x34: bound}


def draw(rng, opcode, prime, mode):
    """A random tape with some commands of an opcode, of which the last answer, where it is a variable, comes to stand in a row."""
    tape = Tape(rng, prime, mode)
    tape.prelude()
    before = Counter(tape.run.arms)
    for _ in range(rng.choice([2, 3, 4])):
        WRITERS.get(opcode, on_few)(tape, opcode)
    taken = counted(tape.run.arms - before, tape.run.differences)
    if is_variable(tape.run.book[-1]):
        tape.add(0x11, place(len(tape.run.book) - 1), place(rng.choice(tape.places("v"))))
    return tape, taken


def ended(rng, prime, mode):
    """Two tapes, of which one ends at an unknown command, and one at a command that is cut off."""
    unknown = [bytes([opcode]) for opcode in (0x00, 0x04, 0x0F, 0x1C, 0x35, 0x44, 0x52, 0xFF)]
    cut_off = [b"\x01", b"\x01\x02", b"\x03\x00", b"\x11\x00\x00\x01", b"\x19" + bytes(5), b"\x34" + bytes(10)]
    for last in (unknown, cut_off):
        tape = Tape(rng, prime, mode)
        tape.prelude()
        yield 0, prime, mode, tape.bytes + rng.choice(last)


def fill(rng, opcode, prime, mode, short, take):
    """Takes tapes until none comes that takes one of the opcode's arms that are short."""
    names = [f"{opcode:02X} {name}" for name in ARMS[opcode]]
    idle = 0
    while idle < PATIENCE and any(map(short, names)):
        tape, taken = draw(rng, opcode, prime, mode)
        if len(tape.run.differences) > 1 or not any(short(arm) for arm in taken):
            idle += 1
            continue
        idle = 0
        take(tape, taken)


def tapes_of(rng, opcode):
    """The tapes of an opcode."""
    tapes, total, each = [], Counter(), {}
    for most in EACH:
        for prime, mode in product(PRIMES, MODES):
            counts = each.setdefault((prime, mode), Counter())

            def take(tape, taken):
                tapes.append((opcode, prime, mode, tape.bytes))
                counts.update(taken)
                total.update(taken)

            fill(rng, opcode, prime, mode, lambda arm: total[arm] < IN_ALL and counts[arm] < most, take)
    return tapes


def all_tapes(seed):
    """All tapes, each with its opcode, prime and mode; where it ends before its end, with 0 for its opcode."""
    rng = random.Random(seed)
    tapes = [tape for opcode in ARMS for tape in tapes_of(rng, opcode)]
    for prime, mode in product(PRIMES, MODES):
        for _ in range(3):
            tapes += ended(rng, prime, mode)
    return tapes
