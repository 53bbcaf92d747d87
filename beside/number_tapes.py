"""Tapes of commands on numbers that take every arm, made from a fixed seed as those of tapes.py are.

Most of the commands are drawn for an arm: its name says which operands are constants, which are variables, and which are the same.
"""

import random
import re
from collections import Counter
from itertools import product

from arms import counted
from number_arms import MIXED, NUMBER_ARMS, ON_BITS
from number_rules import KINDS, RANGES, Number, NumberRun, holds
from rules import OPERANDS, is_variable
from tapes import IN_ALL, MODES, PATIENCE, Tape, place

PRIMES = [3, 7, 29, 101, 2013265921, 4294967291]
# How often each arm is to be taken over each prime and in each mode where it can be; and then at most, until it is taken often
# enough in all.
FIRST = 1
EACH = [2, 4, IN_ALL]


def given(value):
    """The nine bytes of a value; of an absent one eight are not looked at."""
    return bytes(9) if value is None else b"\1" + value.to_bytes(8, "little", signed=True)


def sort(what):
    """What a pattern calls a constant or a variable."""
    return "v" if is_variable(what) else what if what < 2 else "c"


class NumberTape(Tape):
    """A tape of numbers and bits that makes those that its commands want."""

    def __init__(self, rng, prime, mode):
        super().__init__(rng, prime, mode)
        self.run = NumberRun(prime, mode == "values")
        # Few values, so that some are equal.
        self.values = [0, 1, self.other(), self.other()]

    def other(self):
        """A constant that is not 0 or 1."""
        return self.rng.choice([2, self.run.prime - 1, self.rng.randrange(2, self.run.prime)])

    def book(self, kind):
        """The answers of a kind, with their places: numbers (n) or bits (b)."""
        answers = [(n, a.what if isinstance(a, Number) else a, isinstance(a, Number)) for n, a in enumerate(self.run.book)]
        return [(n, what) for n, what, is_number in answers if is_number == (kind == "n")]

    def places_of(self, kind, wanted):
        return [n for n, what in self.book(kind) if sort(what) == wanted]

    def last(self):
        return len(self.run.book) - 1

    def number(self, value):
        """A constant with this value, new or not."""
        there = [n for n, what in self.book("n") if what == value]
        if not there:
            shift = self.run.prime if self.rng.random() < 0.1 else 0
            self.add(0x02, 0, given(value - shift))
        return self.rng.choice(there) if there else self.last()

    def new_variable(self, kind):
        """An input or a witness."""
        mode = self.rng.choice([1, 2])
        absent = not self.run.keeps_values and self.rng.random() < 0.1
        if kind == "b":
            self.add(0x01, mode, 2 if absent else self.rng.randrange(2))
        else:
            self.add(0x02, mode, given(None if absent else self.rng.choice(self.values)))
        return self.last()

    def new_combination(self, kind):
        """A combination of one or two variables, which are there."""
        a, b = (self.rng.choice(self.places_of(kind, "v")) for _ in range(2))
        if kind == "b":
            self.add(0x10, place(a))
        elif self.rng.random() < 0.5:
            self.add(0x20, place(a), place(b))
        elif self.rng.random() < 0.5 and self.places_of("b", "v"):
            self.add(0x2D, place(self.rng.choice(self.places_of("b", "v"))))
        else:
            self.add(self.rng.choice([0x23, 0x24]), place(a))
        return self.last()

    def find(self, kind, wanted, but=()):
        """An answer of a kind: 0, 1, another constant (c), or a variable (v), other than some; new where there is none."""
        there = [n for n in self.places_of(kind, wanted) if self.run.book[n] not in [self.run.book[m] for m in but]]
        if there and self.rng.random() < 0.7:
            return self.rng.choice(there)
        if wanted != "v" and kind == "b":
            self.add(0x01, 0, wanted)
            return self.last()
        if wanted != "v":
            return self.number(self.rng.choice(self.values[2:]) if wanted == "c" else wanted)
        if self.places_of(kind, "v") and self.rng.random() < 0.4:
            return self.new_combination(kind)
        return self.new_variable(kind)


def solved(opcode, prime, values):
    """Values some of which are changed so that a statement on them may hold."""
    values = list(values)
    if opcode == 0x26:
        values[2] = values[0] * values[1] % prime
    elif opcode == 0x27:
        values[1] = values[0] ** 2 % prime
    else:
        values[1] = values[0]
    return values


def constants(tape, opcode, words, hold):
    """Constants of these sorts that obey a statement, or do not; none where none are found."""
    for _ in range(20):
        values = [tape.other() if word == "c" else int(word) for word in words]
        if opcode == 0x26 and values[0] and tape.rng.random() < 0.3:
            values[1] = pow(values[0], -1, tape.run.prime)
        if hold:
            values = solved(opcode, tape.run.prime, values)
        if [str(sort(v)) for v in values] == words and holds(opcode, tape.run.prime, values) == hold:
            return values
    return None


def for_pattern(tape, opcode, arm):
    """The operands for an arm, as places in the book; none where the arm has no pattern or cannot be had."""
    kinds = KINDS[opcode]
    match = re.fullmatch(r"[0-9A-F]{2} ((?:[01cv]|=\d)(?: (?:[01cv]|=\d))*)(?:[, ].*|:.*)?", arm)
    words = match.group(1).split(" ") if match else []
    if len(words) != len(kinds):
        return None
    stated = kinds.rindex("n") + 1 if "n" in kinds else 0
    picked = []
    if "hold" in arm:
        values = constants(tape, opcode, words[:stated], "do not" not in arm)
        if values is None:
            return None
        picked = [tape.number(value) for value in values]
    for kind, word in list(zip(kinds, words))[len(picked):]:
        if word[0] == "=":
            picked.append(picked[int(word[1]) - 1])
        else:
            picked.append(tape.find(kind, int(word) if word in "01" else word, picked))
    return picked


def at_random(tape, opcode):
    """Any operands, as places in the book; seldom some that are not there or of the other kind."""
    rng, picked = tape.rng, []
    for kind in KINDS[opcode]:
        if rng.random() < 0.04:
            kind = "b" if kind == "n" else "n"
        picked.append(tape.find(kind, rng.choice([0, 1, "v"] if kind == "b" else [0, 1, "c", "v", "v"])))
    if rng.random() < 0.04:
        picked[rng.randrange(len(picked))] = rng.choice([len(tape.run.book), 65535])
    return picked


def on_numbers(tape, opcode):
    arm = tape.rng.choice(NUMBER_ARMS[opcode])
    picked = for_pattern(tape, opcode, arm) or at_random(tape, opcode)
    tape.add(opcode, *map(place, picked))


def new_numbers(tape, _):
    """A new number of some size, or a copy of one."""
    rng, prime = tape.rng, tape.run.prime
    numbers = tape.book("n")
    if numbers and rng.random() < 0.5:
        tape.add(0x03, place(rng.choice(numbers)[0]))
        return
    if numbers and rng.random() < 0.3 and tape.places_of("n", "v"):
        tape.new_combination("n")
    below, beyond = [rng.randrange(2), rng.randrange(prime)], [-rng.randrange(1, prime), rng.randrange(-2**63, 0)]
    value = given(rng.choice([*below, *beyond, rng.randrange(prime, 2**63), None, None]))
    if rng.random() < 0.04:
        value = b"\2" + value[1:]
    tape.add(0x02, rng.choice([0, 0, 1, 1, 2, 2, 3]) if rng.random() < 0.3 else rng.randrange(3), value)


def numbers_for_bits(tape, _):
    """A command on bits with a number among its operands."""
    rng, opcode = tape.rng, tape.rng.choice(ON_BITS)
    number = tape.find("n", rng.choice([0, 1, "c", "v"]))
    if opcode in RANGES:
        count = rng.randrange(1, 4)
        first = max(0, number - rng.randrange(count))
        tape.add(opcode, place(first), min(count, len(tape.run.book) - first), *([bytes(8)] if opcode == 0x34 else []))
        return
    picked = [tape.find("b", rng.choice([0, 1, "v"])) for _ in range(OPERANDS[opcode] // 2)]
    picked[rng.randrange(len(picked))] = number
    tape.add(opcode, *map(place, picked))


WRITERS = {0x02: new_numbers, MIXED: numbers_for_bits}


def draw(rng, group, prime, mode):
    """A random tape with some commands of a group, of which the last answer, where it is a variable, comes to stand in a row; and
    how often it takes the arms of the group."""
    tape = NumberTape(rng, prime, mode)
    for _ in range(rng.choice([2, 3, 4])):
        WRITERS.get(group, on_numbers)(tape, group)
    if tape.run.book:
        answer, last = tape.run.book[-1], place(tape.last())
        if is_variable(answer):
            tape.add(0x11, last, last)
        elif isinstance(answer, Number) and is_variable(answer.what):
            tape.add(0x22, last, last)
    taken = counted(tape.run.arms, tape.run.differences)
    return tape, Counter({arm: n for arm, n in taken.items() if arm in NUMBER_ARMS[group]})


def fill(rng, group, prime, mode, short, take):
    """Takes tapes until none comes that takes one of the group's arms that are short."""
    idle = 0
    while idle < PATIENCE and any(map(short, NUMBER_ARMS[group])):
        tape, taken = draw(rng, group, prime, mode)
        if len(tape.run.differences) > 1 or not any(map(short, taken)):
            idle += 1
            continue
        idle = 0
        take(tape, taken)


def tapes_of(rng, group):
    """The tapes of a group."""
    tapes, total, each = [], Counter(), {}
    for most in [FIRST, *EACH]:
        enough = IN_ALL if most > FIRST else float("inf")
        for prime, mode in product(PRIMES, MODES):
            counts = each.setdefault((prime, mode), Counter())

            def take(tape, taken):
                tapes.append((group, prime, mode, tape.bytes))
                counts.update(taken)
                total.update(taken)

            fill(rng, group, prime, mode, lambda arm: total[arm] < enough and counts[arm] < most, take)
    return tapes


def number_tapes(seed):
    """All tapes, each with its group, prime and mode."""
    rng = random.Random(seed)
    return [tape for group in NUMBER_ARMS for tape in tapes_of(rng, group)]
