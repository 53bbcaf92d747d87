"""The model of rules.py with the commands on numbers: 02, 03 of a number, 20 to 2D.

It follows docs/TAPE.md and docs/CALLS.md as rules.py does. Of a tape with a difference on purpose that numbers show it can also
say what the Rust crate does: with `as_the_crate` it goes the other way in just the steps that differ. make.py holds that to the
Rust crate's own text, so nothing else can hide behind a named difference.
"""

from dataclasses import dataclass

from rules import ONE, Refused, Run, as_sum, is_variable, kind, less, word

CONSTANT_NUMBERS = "constant-numbers"  # constants that break 26, 27, 2A or 2B: the Rust crate accepts them
SQUARE_CONSTANT = "square-constant"  # the constant of 27 beside a variable: a free witness in the Rust crate
DIFFERENCES = {CONSTANT_NUMBERS, SQUARE_CONSTANT}

# What the operands of an opcode are: n a number, b a bit.
KINDS = {0x20: "nn", 0x21: "nn", 0x22: "nn", 0x23: "n", 0x24: "n", 0x25: "n", 0x26: "nnn", 0x27: "nn", 0x28: "nn", 0x29: "nn",
         0x2A: "nnb", 0x2B: "nnb", 0x2C: "bnn", 0x2D: "b"}
RANGES = {0x14, 0x15, 0x16, 0x17, 0x34}
# The commands that answer a number.
NUMBERS = {0x02, 0x20, 0x21, 0x22, 0x23, 0x24, 0x25, 0x2C, 0x2D}


@dataclass(frozen=True)
class Number:
    """A number in the book: `what` is a constant below p, or a variable."""

    what: object


class NumberRun(Run):
    """A run of a tape of commands on bits and numbers."""

    def __init__(self, prime, keeps_values, as_the_crate=False):
        super().__init__(prime, keeps_values)
        self.as_the_crate = as_the_crate

    # ---- operands

    def operands(self, opcode, data):
        if opcode == 0x02:
            mode, there = data[0], data[1]
            if mode > 2 or there > 1:
                raise Refused(2, 1)
            return mode, int.from_bytes(data[2:], "little", signed=True) if there else None
        if opcode in (0x01, 0x03):
            return super().operands(opcode, data)
        if opcode in RANGES:
            first, count = word(data), data[2]
            self.want(opcode, "b" * count, list(range(first, first + count)))
            return super().operands(opcode, data)
        places = [word(data[i:]) for i in range(0, len(data), 2)]
        return self.want(opcode, KINDS.get(opcode, "b" * len(places)), places)

    def want(self, opcode, kinds, places):
        """Some answers, each of its kind."""
        if any(place >= len(self.book) for place in places):
            raise Refused(2, 1)
        answers = [self.book[place] for place in places]
        for wanted, answer in zip(kinds, answers):
            if isinstance(answer, Number) != (wanted == "n"):
                self.arms[f"{opcode:02X} a {'number for a bit' if wanted == 'b' else 'bit for a number'}"] += 1
                raise Refused(2, 1)
        return [answer.what if isinstance(answer, Number) else answer for answer in answers]

    # ---- numbers

    def constant(self, number):
        """The combination that stands for a constant."""
        return self.combination((number, ONE))

    def pair(self, a, b):
        """Two numbers, not both constants, as variables: first the constant's, if there is one."""
        if is_variable(a) and is_variable(b):
            return a, b
        return (self.constant(b), a) if is_variable(a) else (self.constant(a), b)

    def number_of(self, x):
        """The value of a number where values are kept."""
        return self.value(x) if is_variable(x) else x

    def new_number(self, mode, value, note):
        size = "absent" if value is None else "negative" if value < 0 else "below p" if value < self.prime else "p or more"
        note(f"{('constant', 'input', 'witness')[mode]}, {size}")
        if mode > 0:
            return self.new("iw"[mode - 1], value)
        if value is None:
            raise Refused(5, 2)
        return value % self.prime

    def added(self, a, b):
        if not is_variable(a):
            a, b = b, a
        if not is_variable(a):
            return (a + b) % self.prime
        if b == 0:
            return a
        return self.combination((1, a), (1, b) if is_variable(b) else (b, ONE))

    def subtracted(self, a, b):
        if is_variable(a) and is_variable(b):
            return self.combination((1, a), (-1, b))
        if is_variable(a):
            return a if b == 0 else self.combination((1, a), (-b, ONE))
        if not is_variable(b):
            return (a - b) % self.prime
        return self.negative(b if a == 0 else self.combination((1, b), (-a, ONE)))

    def multiplied(self, a, b):
        if not is_variable(a):
            a, b = b, a
        if not is_variable(a):
            return a * b % self.prime
        if not is_variable(b):
            return a if b == 1 else self.combination((b, a))
        w = self.witness(self.keeps_values and self.value(a) * self.value(b))
        self.row([(1, a)], [(1, b)], [(1, w)])
        return w

    def negative(self, a):
        return self.combination((-1, a)) if is_variable(a) else -a % self.prime

    def doubled(self, a):
        return self.combination((2, a)) if is_variable(a) else 2 * a % self.prime

    def inverted(self, a):
        if not is_variable(a):
            if a == 0:
                raise Refused(5, 2)
            return pow(a, -1, self.prime)
        value = self.value(a)
        w = self.witness(pow(value, -1, self.prime) if value else 0)
        self.row([(1, a)], [(1, w)], [(1, ONE)])
        return w

    def of_bit(self, bit):
        return self.combination((1, bit)) if is_variable(bit) else bit

    # ---- equality and choice

    def equal(self, a, b):
        if not is_variable(a) and not is_variable(b):
            return int(a == b)
        x, y = self.pair(a, b)
        gap = self.keeps_values and (self.value(x) - self.value(y)) % self.prime
        w = self.witness(int(gap != 0))
        m = self.witness(pow(gap, -1, self.prime) if gap else 1)
        difference = [(1, x), (-1, y)]
        self.row(difference, [(1, m)], [(1, w)])
        self.row(difference, [(1, self.combination(*less(w)))], [])
        return self.combination(*less(w))

    def unequal(self, a, b):
        return self.negated(self.equal(a, b))

    def chosen_number(self, c, a, b):
        if not is_variable(c):
            return a if c else b
        if not is_variable(a) and not is_variable(b):
            return self.chosen_constant(c, a, b)
        x = a if is_variable(a) else self.constant(a)
        y = b if is_variable(b) else self.constant(b)
        w = self.witness(self.keeps_values and self.value(x if self.value(c) else y))
        self.row([(1, c)], [(1, x), (-1, y)], [(1, w), (-1, y)])
        return w

    def chosen_constant(self, c, a, b):
        """One of two constants, with no row."""
        i = self.combination((1, c))
        o = self.combination((1, self.combination(*less(c))))
        if a != 1:
            i = self.combination((a, i))
        if b != 1:
            o = self.combination((b, o))
        return self.combination((1, i), (1, o))

    # ---- statements

    def settled(self, holds, c):
        """A statement about constants alone, under a condition."""
        if holds or c == 0 or self.as_the_crate:
            return
        if c == 1:
            raise Refused(6, 2)
        self.row([(1, ONE)], [(1, c)], [])

    def product_is(self, a, b, c):
        constants = [not is_variable(x) for x in (a, b, c)]
        if all(constants):
            return self.settled(a * b % self.prime == c, 1)
        if not any(constants[:2]):
            c = self.constant(c) if constants[2] else c
            return self.row([(1, a)], [(1, b)], [(1, c)])
        product = self.multiplied(a, b)
        if constants[2]:
            left, right = self.constant(c), product
        elif all(constants[:2]):
            left, right = self.constant(product), c
        else:
            left, right = c, product
        self.row([(1, left), (-1, right)], [(1, ONE)], [])

    def square_is(self, a, b):
        constants = [not is_variable(x) for x in (a, b)]
        if all(constants):
            return self.settled(a * a % self.prime == b, 1)
        stand_in = self.witness if self.as_the_crate else self.constant
        a = stand_in(a) if constants[0] else a
        b = stand_in(b) if constants[1] else b
        self.row([(1, a)], [(1, a)], [(1, b)])

    def equal_where(self, a, b, c):
        if not is_variable(a) and not is_variable(b):
            return self.settled(a == b, c)
        x, y = self.pair(a, b)
        self.row([(1, x), (-1, y)], as_sum(c), [])

    def unequal_where(self, a, b, c):
        if not is_variable(a) and not is_variable(b):
            return self.settled(a != b, c)
        x, y = self.pair(a, b)
        value = None
        if self.keeps_values:
            gap = (self.value(x) - self.value(y)) % self.prime
            wanted = self.number_of(c)
            value = 0 if not wanted else pow(gap, -1, self.prime) if gap else None
        m = self.witness(value)
        self.row([(1, x), (-1, y)], [(1, m)], as_sum(c))

    # ---- commands

    def arm(self, opcode, operands):
        """The arm of a command on numbers, and the difference that it shows, if any."""
        name = number_shape(operands)
        if opcode not in STATED or any(is_variable(x) for x in operands[:STATED[opcode]]):
            one_constant = opcode == 0x27 and not all(map(is_variable, operands))
            return (name + " ≠", SQUARE_CONSTANT) if one_constant else (name, None)
        if holds(opcode, self.prime, operands):
            return name + ", which hold", None
        if opcode in (0x2A, 0x2B) and operands[2] == 0:
            return name + ", which do not hold", None
        return name + ", which do not hold ≠", CONSTANT_NUMBERS

    def note_values(self, opcode, operands, note):
        """What the kept values say of a command on variables."""
        if not self.keeps_values or not any(map(is_variable, operands)):
            return
        values = [self.number_of(x) for x in operands]
        if opcode in (0x28, 0x29):
            note(f"values that {'are equal' if values[0] == values[1] else 'differ'}")
        if opcode == 0x25:
            note(f"a value that is {'0' if values[0] == 0 else 'not 0'}")
        if opcode == 0x2C and is_variable(operands[0]):
            note(f"a condition with the value {values[0]}")
        if opcode in TRUTHS:
            note(f"values that {'obey' if TRUTHS[opcode](self.prime, *values) else 'break'} it")

    def perform(self, opcode, operands, note):
        if opcode == 0x02:
            return Number(self.new_number(*operands, note))
        if opcode == 0x03 and isinstance(operands[0], Number):
            note("number, " + number_kind(operands[0].what))
            return operands[0]
        if opcode not in KINDS:
            return super().perform(opcode, operands, note)
        arm, difference = self.arm(opcode, operands)
        if difference:
            self.differences.add(difference)
        for k, x in zip(KINDS[opcode], operands):
            if is_variable(x):
                note(f"{'a number' if k == 'n' else 'a bit'} that is {'an' if x[0] == 'i' else 'a'} {kind(x)}")
        self.note_values(opcode, operands, note)
        note(arm)
        calls = {0x20: self.added, 0x21: self.subtracted, 0x22: self.multiplied, 0x23: self.negative, 0x24: self.doubled,
                 0x25: self.inverted, 0x26: self.product_is, 0x27: self.square_is, 0x28: self.equal, 0x29: self.unequal,
                 0x2A: self.equal_where, 0x2B: self.unequal_where, 0x2C: self.chosen_number, 0x2D: self.of_bit}
        answer = calls[opcode](*operands)
        return Number(answer) if opcode in NUMBERS else answer

    # ---- the text

    def answer_text(self, answer):
        if not isinstance(answer, Number):
            return super().answer_text(answer)
        if not is_variable(answer.what):
            return f"number constant {answer.what}"
        return "number" + super().answer_text(answer.what).removeprefix("bit")


# How many operands of a statement come before its condition.
STATED = {0x26: 3, 0x27: 2, 0x2A: 2, 0x2B: 2}

# What the operands of a statement have to obey.
TRUTHS = {
    0x26: lambda p, a, b, c: a * b % p == c,
    0x27: lambda p, a, b: a * a % p == b,
    0x2A: lambda p, a, b, c: not c or a == b,
    0x2B: lambda p, a, b, c: not c or a != b,
}


def holds(opcode, prime, operands):
    """Whether constants obey a statement, apart from its condition."""
    condition = [1] if opcode in (0x2A, 0x2B) else []
    return TRUTHS[opcode](prime, *operands[:STATED[opcode]], *condition)


def number_kind(x):
    return kind(x) if is_variable(x) else str(x) if x < 2 else "another constant"


def number_shape(operands):
    """Which operands are constants (c, where not 0 or 1), which are variables, and which of these are the same: `0 v`, `v =1`."""
    if len(operands) == 1:
        return number_kind(operands[0])
    seen, words = [], []
    for x in operands:
        if not is_variable(x):
            words.append(str(x) if x < 2 else "c")
        else:
            words.append(f"={1 + seen.index(x)}" if x in seen else "v")
        seen.append(x)
    return " ".join(words)
