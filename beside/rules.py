"""A model of the commands on bits: what this repository's rules make of a tape.

It follows docs/TAPE.md and docs/CALLS.md line by line, and shares no code with the crates or with the Rust crate. It notes which
arm of a command's table each command takes, with ≠ where the Rust crate does otherwise on purpose, and the name of that
difference. make.py uses it for both, and for what is expected where the two differ; everywhere else it must agree with the Rust
crate.
"""

from collections import Counter

# The differences on purpose that a tape of commands on bits can show.
CONSTANT_STATEMENT = "constant-statement"  # constants that break 1A or 1B, under a condition that is not the constant 1
RIGHT_SIDE = "right-side"  # the right side of the row of 1B
CONSTANT_GATE = "constant-gate"  # a gate of four or more constants
WIDE_GATE = "wide-gate"  # a gate of four or more members, and at least p of them

# How many bytes the operands of an opcode take.
OPERANDS = {0x01: 2, 0x03: 2, 0x10: 2, 0x11: 4, 0x12: 4, 0x13: 4, 0x14: 3, 0x15: 3, 0x16: 3, 0x17: 3, 0x18: 4, 0x19: 6,
            0x1A: 6, 0x1B: 6, 0x34: 11,
            0x02: 10, 0x20: 4, 0x21: 4, 0x22: 4, 0x23: 2, 0x24: 2, 0x25: 2, 0x26: 6, 0x27: 4, 0x28: 4, 0x29: 4, 0x2A: 6, 0x2B: 6,
            0x2C: 6, 0x2D: 2}
STATEMENTS = {0x17, 0x1A, 0x1B, 0x34, 0x26, 0x27, 0x2A, 0x2B}
ONE = ("one",)


class Refused(Exception):
    """The refusal of a command: its number and its layer."""


class Run:
    """A run of a tape. A bit is 0 or 1, or a variable: ("i", n), ("w", n), or ("c", n) with the place of a combination,
    which is how many terms the combinations before it use, and itself."""

    def __init__(self, prime, keeps_values):
        self.prime = prime
        self.keeps_values = keeps_values
        self.values = {ONE: 1}
        self.inputs = self.witnesses = 0
        self.sums = {}  # by place
        self.rows = []
        self.book = []
        self.refusals = []
        self.arms = Counter()
        self.differences = set()

    # ---- the system

    def merged(self, terms):
        total = Counter()
        for coefficient, variable in terms:
            total[variable] += coefficient
        return {variable: c % self.prime for variable, c in total.items() if c % self.prime}

    def value(self, variable):
        return self.values[variable] if self.keeps_values else None

    def values_of(self, bits):
        return [self.value(bit) if is_variable(bit) else bit for bit in bits] if self.keeps_values else None

    def new(self, side, value):
        count = self.inputs if side == "i" else self.witnesses
        variable = (side, count)
        if self.keeps_values:
            if value is None:
                raise Refused(5, 3)
            self.values[variable] = value % self.prime
        if side == "i":
            self.inputs += 1
        else:
            self.witnesses += 1
        return variable

    def witness(self, value):
        return self.new("w", value)

    def combination(self, *terms):
        merged = self.merged(terms)
        place = sum(1 + len(s) for s in self.sums.values()) + len(merged)
        self.sums[place] = merged
        if self.keeps_values:
            self.values["c", place] = sum(c * self.values[v] for v, c in merged.items()) % self.prime
        return ("c", place)

    def row(self, a, b, c):
        self.rows.append(tuple(self.merged(terms) for terms in (a, b, c)))

    # ---- gates of one and two bits

    def negated(self, a):
        return 1 - a if not is_variable(a) else self.combination((1, ONE), (-1, a))

    def both(self, a, b):
        if 0 in (a, b):
            return 0
        if 1 in (a, b):
            return b if a == 1 else a
        values = self.values_of((a, b))
        w = self.witness(values and values[0] & values[1])
        self.row([(1, a)], [(1, b)], [(1, w)])
        return w

    def either(self, a, b):
        if a == 0:
            return b
        if b == 0:
            return a
        if 1 in (a, b):
            return 1
        values = self.values_of((a, b))
        w = self.witness(values and values[0] | values[1])
        self.row(less(a), less(b), less(w))
        return w

    def differ(self, a, b):
        if a == 0:
            return b
        if b == 0:
            return a
        if a == 1:
            return self.negated(b)
        if b == 1:
            return self.negated(a)
        values = self.values_of((a, b))
        w = self.witness(values and values[0] ^ values[1])
        self.row([(2, a)], [(1, b)], [(1, a), (1, b), (-1, w)])
        return w

    def chosen(self, c, a, b):
        if not is_variable(c):
            return a if c else b
        if b == 0:
            return self.both(c, a)
        if a == 0:
            return self.both(self.negated(c), b)
        if a == 1:
            return self.either(c, b)
        if b == 1:
            return self.either(self.negated(c), a)
        values = self.values_of((c, a, b))
        w = self.witness(values and values[1 if values[0] else 2])
        self.row([(1, c)], [(1, a), (-1, b)], [(1, w), (-1, b)])
        return w

    # ---- statements

    def claim(self, opcode, a, b, c, note):
        constants = not is_variable(a) and not is_variable(b)
        if constants and (a == b) != (opcode == 0x1A):
            return self.broken(a, b, c, note)
        differs = opcode == 0x1B and not constants and is_variable(c)
        note(shape([a, b, c]) + (" ≠" if differs else ""))
        if differs:
            self.differences.add(RIGHT_SIDE)
        if not constants and c != 0:
            self.claim_row(opcode, a, b, c)

    def broken(self, a, b, c, note):
        """A statement that its constants break."""
        if c == 1:
            note(shape([a, b, c]))
            raise Refused(6, 2)
        note(shape([a, b, c]) + " ≠")
        self.differences.add(CONSTANT_STATEMENT)
        if c != 0:
            self.row([(1, ONE)], [(1, c)], [])

    def claim_row(self, opcode, a, b, c):
        if not is_variable(b):
            a, b = b, a
        if opcode == 0x1A:
            side = less(b) if a == 1 else [(1, b)] + ([(-1, a)] if a != 0 else [])
            self.row(side, as_sum(c), [])
        else:
            self.row(as_sum(b) + as_sum(a), as_sum(c), as_sum(c))

    def force_zero(self, bit):
        if bit == 1:
            raise Refused(6, 2)
        if bit != 0:
            self.row([(1, bit)], [(1, ONE)], [])

    # ---- gates of many bits

    def many(self, members, two, note):
        """ALL, where `two` is `both`, or SOME, where it is `either`."""
        count = len(members)
        if count <= 3:
            return self.chain(members, two, note)
        variables = [m for m in members if is_variable(m)]
        if count >= self.prime:
            self.differences.add(WIDE_GATE)
            note(f"too wide, {'with variables' if variables else 'of constants'} ≠")
            raise Refused(4, 2)
        if not variables:
            self.differences.add(CONSTANT_GATE)
            answer = int(all(members) if two == self.both else any(members))
            note(f"four or more, constants that fold to {answer} ≠")
            return answer
        note(f"four or more, {'one variable' if len(variables) == 1 else 'variables'}, {constants_of(members)}")
        if count == 64:
            note("64 members")
        if len(set(variables)) < len(variables):
            note("four or more, a variable twice")
        return self.compared(members, variables, two)

    def chain(self, members, two, note):
        rows = len(self.rows)
        answer = members[0]
        for member in members[1:]:
            answer = two(answer, member)
        added = len(self.rows) - rows
        what = "a variable" if is_variable(answer) else "a constant"
        note(f"{len(members)} in a chain, {added} rows, {what}")
        variables = [m for m in members if is_variable(m)]
        if len(set(variables)) < len(variables):
            note("a chain, a variable twice")
        return answer

    def compared(self, members, variables, two):
        """The sum of the members against the number that it has where all are 1, or where none is."""
        parts = [self.combination((1, v)) for v in variables]
        total = self.combination(*((1, part) for part in parts))
        ones = members.count(1)
        if ones:
            total = self.combination((1, total), (ones, ONE))
        constant = [(len(members), ONE)] if two == self.both else []
        c = self.combination(*constant)
        gap = None
        if self.keeps_values:
            gap = (self.value(c) - self.value(total)) % self.prime
        w = self.witness(gap is not None and int(gap != 0))
        m = self.witness(gap is not None and (pow(gap, -1, self.prime) if gap else 1))
        difference = [(1, c), (-1, total)]
        self.row(difference, [(1, m)], [(1, w)])
        self.row(difference, [(1, self.combination(*less(w)))], [])
        equal = self.combination(*less(w))
        return equal if two == self.both else self.combination(*less(equal))

    # ---- a bound

    def walk(self, bits, element, note):
        length = element.bit_length()
        rows = len(self.rows)
        over = 0
        for bit in bits[length:]:
            over = self.either(over, bit)
        above = shown(over) + (", by rows" if len(self.rows) > rows else "") if len(bits) > length else "none"
        note(f"bits above the bound: {above}" if bits else "no bits")
        self.force_zero(over)
        last, run, closed = 1, [], 0
        for i in reversed(range(length)):
            if element >> i & 1:
                run.append(bits[i])
                continue
            if run:
                closed += 1
                which = "the first run" if closed == 1 else "a later run"
                last = self.many(run + [last], self.both, lambda text: note(f"{which}, {text}"))
                run = []
            late = ", after rows" if last == bits[i] == 1 and len(self.rows) > rows else ""
            note(f"a zero of the bound: last is {shown(last)}, the bit is {shown(bits[i])}{late}")
            self.force_zero(self.both(last, bits[i]))
        note("a run is open at the end" if run else "no run is open at the end")

    # ---- commands

    def operands(self, opcode, data):
        """The operands of a command, fit and of good length."""
        if opcode == 0x01:
            if data[0] > 2 or data[1] > 2:
                raise Refused(2, 1)
            return data
        if opcode in (0x14, 0x15, 0x16, 0x17, 0x34):
            first, count = word(data), data[2]
            if count and first + count > len(self.book):
                raise Refused(2, 1)
            element = int.from_bytes(data[3:], "little")
            fewest = element.bit_length() if opcode == 0x34 else 1
            if not fewest <= count <= 64:
                raise Refused(3, 1)
            return self.book[first:first + count], element
        places = [word(data[i:]) for i in range(0, len(data), 2)]
        if max(places) >= len(self.book):
            raise Refused(2, 1)
        return [self.book[place] for place in places]

    def new_bit(self, mode, truth, note):
        value = (0, 1, None)[truth]
        note(f"{('constant', 'input', 'witness')[mode]}{', absent' if value is None else ''}")
        if mode == 0:
            if value is None:
                raise Refused(5, 2)
            return value
        x = self.new("iw"[mode - 1], value)
        self.row(less(x), [(1, x)], [])
        return x

    def perform(self, opcode, operands, note):
        """The answer of a command, or nothing for a statement."""
        if opcode == 0x01:
            return self.new_bit(*operands, note)
        if opcode in (0x14, 0x15, 0x16, 0x17):
            answer = self.many(operands[0], self.either if opcode == 0x15 else self.both, note)
            if opcode == 0x16:
                return self.negated(answer)
            if opcode == 0x17:
                many = ", of four or more ≠" if answer == 1 and len(operands[0]) > 3 else ""
                note(f"forced to 0: {shown(answer)}{many}")
                return self.force_zero(answer)
            return answer
        if opcode == 0x34:
            return self.walk(*operands, note)
        if opcode in (0x1A, 0x1B):
            return self.claim(opcode, *operands, note)
        note(shape(operands))
        gates = {0x03: lambda a: a, 0x10: self.negated, 0x11: self.both, 0x12: self.either, 0x13: self.differ,
                 0x18: lambda a, b: self.negated(self.differ(a, b)), 0x19: self.chosen}
        return gates[opcode](*operands)

    def command(self, number, opcode, data):
        counts = self.inputs, self.witnesses
        rows, sums = len(self.rows), len(self.sums)
        noted = []

        def note(text):
            noted.append(f"{opcode:02X} {text}")

        try:
            operands = self.operands(opcode, data)
            answer = self.perform(opcode, operands, note)
        except Refused as refusal:
            why, layer = refusal.args
            last = noted[-1] if layer > 1 else f"{opcode:02X} on the tape"
            self.arms[f"{last}: refused with {why}"] += 1
            self.refusals.append((number, why, layer))
            self.inputs, self.witnesses = counts
            del self.rows[rows:]
            for place in list(self.sums)[sums:]:
                del self.sums[place]
            return
        self.arms.update(noted)
        if opcode not in STATEMENTS:
            self.book.append(answer)

    def tape(self, tape):
        number = at = 0
        while at < len(tape):
            opcode = tape[at]
            end = at + 1 + OPERANDS.get(opcode, 0)
            if opcode not in OPERANDS or end > len(tape):
                self.refusals.append((number, 1, 1))
                self.arms[("unknown" if opcode not in OPERANDS else "cut off") + ": refused with 1"] += 1
                return
            self.command(number, opcode, tape[at + 1:end])
            number, at = number + 1, end

    # ---- the text

    def written_out(self, terms):
        total = Counter()
        for variable, coefficient in terms.items():
            inner = {variable: 1} if variable[0] != "c" else self.outlines[variable[1]]
            for v, c in inner.items():
                total[v] += coefficient * c
        return {v: c % self.prime for v, c in total.items() if c % self.prime}

    def sum_text(self, terms):
        order = sorted(terms.items(), key=lambda term: ("oiw".index(term[0][0][0]), term[0]))
        return " + ".join(f"{c} {name(v)}" for v, c in order) or "0"

    def verdict(self):
        if not self.keeps_values:
            return "setup"
        for number, row in enumerate(self.rows):
            a, b, c = (sum(k * self.values[v] for v, k in terms.items()) for terms in row)
            if (a * b - c) % self.prime:
                return f"unmet {number}"
        return "met"

    def answer_text(self, bit):
        if not is_variable(bit):
            return f"bit constant {bit}"
        value = f" {self.values[bit]}" if self.keeps_values else ""
        return f"bit {name(bit)}{value}"

    def lines(self):
        self.outlines = {}
        for place, terms in self.sums.items():
            self.outlines[place] = self.written_out(terms)
        lines = [f"refused {number} {why} {layer}" for number, why, layer in self.refusals]
        lines.append(f"inputs {self.inputs} witnesses {self.witnesses} rows {len(self.rows)}")
        lines += [" ; ".join(self.sum_text(self.written_out(terms)) for terms in row) for row in self.rows]
        lines.append(self.verdict())
        lines += [f"{number} {self.answer_text(bit)}" for number, bit in enumerate(self.book)]
        terms = sum(1 + len(s) for s in self.sums.values()) + sum(len(terms) for row in self.rows for terms in row)
        return lines + [f"combinations {len(self.sums)} terms {terms}"]


def word(data):
    return data[0] + 256 * data[1]


def is_variable(bit):
    return isinstance(bit, tuple)


def less(variable):
    return [(1, ONE), (-1, variable)]


def as_sum(bit):
    return [] if bit == 0 else [(1, ONE if bit == 1 else bit)]


def name(variable):
    return "".join(map(str, variable))


def shown(bit):
    return "a variable" if is_variable(bit) else str(bit)


def shape(bits):
    """Which operands are constants, which are variables, and which of these are the same, as in `0 v` or `v =1`."""
    seen, words = [], []
    for bit in bits:
        if not is_variable(bit):
            words.append(str(bit))
        elif bit in seen:
            words.append(f"={1 + seen.index(bit)}")
        else:
            words.append("v")
        seen.append(bit)
    return " ".join(words) if len(bits) > 1 else kind(bits[0])


def kind(bit):
    return {"i": "input", "w": "witness", "c": "combination"}[bit[0]] if is_variable(bit) else "constant"


def constants_of(members):
    zeros, ones = members.count(0) > 0, members.count(1) > 0
    names = {(False, False): "no constants", (True, False): "zeros", (False, True): "ones", (True, True): "zeros and ones"}
    return names[zeros, ones]
