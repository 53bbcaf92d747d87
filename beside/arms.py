"""The arms of the commands on bits: each case that the tables of docs/CALLS.md tell apart, as rules.py notes it.

In an arm with ≠ the Rust crate does otherwise on purpose.

Those of the commands on numbers stand in number_arms.py, their rules in number_rules.py and their tapes in number_tapes.py.
Commands that are served later bring theirs.
"""

from collections import Counter
from itertools import product

from rules import shape

ABSENT = ["input, absent", "witness, absent"]
KINDS = ["constant", "input", "witness", "combination"]
CONSTANTS = ["zeros", "ones", "zeros and ones"]
SUMS = ["one variable, " + c for c in CONSTANTS] + ["variables, " + c for c in ["no constants", *CONSTANTS]]
TOO_WIDE = ["too wide, of constants ≠: refused with 4", "too wide, with variables ≠: refused with 4"]
# Of a chain's members: how many there are, the rows that it adds, and what it answers.
CHAINS = {
    1: ["0 rows, a constant", "0 rows, a variable"],
    2: ["0 rows, a constant", "0 rows, a variable", "1 rows, a variable"],
    3: ["0 rows, a constant", "0 rows, a variable", "1 rows, a constant", "1 rows, a variable", "2 rows, a variable"],
}

# What 17 makes of its gate's answer.
FORCED = ["forced to 0: " + what for what in ("0", "1: refused with 6", "1, of four or more ≠: refused with 6", "a variable")]


def shapes(count):
    """All ways in which so many operands are constants, variables, and the same variables."""
    bits = [0, 1] + [("w", n) for n in range(count)]
    return sorted({shape(operands) for operands in product(bits, repeat=count)})


def claims(breaking, right_side_differs):
    """The arms of a statement on two bits under a condition, which the constants of `breaking` break."""
    return [name + claim_outcome(name, breaking, right_side_differs) for name in shapes(3)]


def claim_outcome(name, breaking, right_side_differs):
    a, b, c = name.split(" ")
    if f"{a} {b}" in breaking:
        return ": refused with 6" if c == "1" else " ≠"
    constants = a in "01" and b in "01"
    return " ≠" if right_side_differs and not constants and c not in "01" else ""


def chains(counts):
    return [f"{count} in a chain, {rest}" for count in counts for rest in CHAINS[count]] + ["a chain, a variable twice"]


def gate(sums, chain_counts, folds=(0, 1)):
    wide = ["four or more, " + s for s in sums]
    wide += [f"four or more, constants that fold to {bit} ≠" for bit in folds]
    return chains(chain_counts) + wide + ["four or more, a variable twice", *TOO_WIDE, "64 members"]


def bound():
    above = ["none", "0", "1: refused with 6", "1, by rows: refused with 6", "a variable", "a variable, by rows"]
    above = ["no bits"] + [f"bits above the bound: {what}" for what in above]
    bits = ("0", "1", "a variable")
    zeros = [f"a zero of the bound: last is {last}, the bit is {bit}" for last in bits for bit in bits]
    broken = "a zero of the bound: last is 1, the bit is 1"
    zeros.remove(broken)
    zeros += [f"{broken}: refused with 6", f"{broken}, after rows: refused with 6"]
    # The last member of the first run's gate is the constant 1.
    first = gate([s for s in SUMS if "ones" in s], [2, 3])
    impossible = {"2 in a chain, 1 rows, a variable", "3 in a chain, 1 rows, a constant", "3 in a chain, 2 rows, a variable"}
    runs = [f"the first run, {arm}" for arm in first if arm not in impossible]
    runs += [f"a later run, {arm}" for arm in gate(SUMS, [2, 3]) if arm != "64 members"]
    ends = ["a run is open at the end", "no run is open at the end"]
    return above + zeros + runs + ends


# By opcode.
ARMS = {
    0x01: ["constant", "input", "witness", "constant, absent: refused with 5", *ABSENT, *(a + ": refused with 5" for a in ABSENT)],
    0x03: list(KINDS),
    0x10: list(KINDS),
    0x11: shapes(2),
    0x12: shapes(2),
    0x13: shapes(2),
    0x14: gate(SUMS, [1, 2, 3]),
    0x15: gate(SUMS, [1, 2, 3]),
    0x16: gate(SUMS, [1, 2, 3]),
    0x17: gate(SUMS, [1, 2, 3], folds=[0]) + FORCED,
    0x18: shapes(2),
    0x19: shapes(3),
    0x1A: claims(["0 1", "1 0"], right_side_differs=False),
    0x1B: claims(["0 0", "1 1"], right_side_differs=True),
    0x34: bound(),
}

for opcode, names in ARMS.items():
    names.append("on the tape: refused with 2")
    if opcode in (0x14, 0x15, 0x16, 0x17, 0x34):
        names.append("on the tape: refused with 3")

ALL = [f"{opcode:02X} {name}" for opcode, names in ARMS.items() for name in names]
ALL += ["unknown: refused with 1", "cut off: refused with 1"]


def counted(arms, differences):
    """The arms of a tape that count: all, or in a tape that shows a difference the arms that have it."""
    return Counter({arm: n for arm, n in arms.items() if not differences or "≠" in arm})
