"""The arms of the commands on numbers: each case that the tables of docs/CALLS.md tell apart, as number_rules.py notes it.

They stand by groups, for each of which number_tapes.py makes tapes. In an arm with ≠ the Rust crate does otherwise on purpose.
"""

from itertools import product

from number_rules import KINDS, TRUTHS, NumberRun
from rules import is_variable

# Bits for the condition and numbers for the rest, over 7: all constants, and as many variables as there are operands.
BITS = [0, 1, ("w", 9)]
NUMBERS = [*range(7), ("w", 0), ("w", 1), ("w", 2)]

MODES = ["constant", "input", "witness"]
SIZES = ["absent", "negative", "below p", "p or more"]
VARIABLES = ["input", "witness", "combination"]
ON_BITS = [0x10, 0x11, 0x12, 0x13, 0x14, 0x15, 0x16, 0x17, 0x18, 0x19, 0x1A, 0x1B, 0x34]
WRONG_KINDS = {"n": "a bit for a number", "b": "a number for a bit"}


def outcomes(opcode, operands):
    """The arms of a command with some operands: as it is accepted, and as it is refused."""
    name, _ = NumberRun(7, True).arm(opcode, operands)
    if "do not hold ≠" in name and (opcode in (0x26, 0x27) or operands[2] == 1):
        return [name + ": refused with 6"]
    if opcode == 0x25 and operands[0] == 0:
        return [name + ": refused with 5"]
    # The multiplier of two equal numbers is wanting where the condition is 1.
    if opcode == 0x2B and any(map(is_variable, operands[:2])) and operands[2] != 0:
        return [name, name + ": refused with 5"]
    return [name]


def said_of_values(opcode):
    """What the kept values can say of a command on variables."""
    if opcode in (0x28, 0x29):
        return ["values that are equal", "values that differ"]
    if opcode == 0x25:
        return ["a value that is 0", "a value that is not 0"]
    if opcode == 0x2C:
        return ["a condition with the value 0", "a condition with the value 1"]
    if opcode == 0x2B:
        return ["values that obey it"]
    return ["values that obey it", "values that break it"] if opcode in TRUTHS else []


def arms_of(opcode):
    kinds = KINDS[opcode]
    names = []
    # Of a single operand it counts what kind of variable it is.
    more = [("i", 0), ("c", 1)] if len(kinds) == 1 else []
    for operands in product(*[(BITS if k == "b" else NUMBERS) + more for k in kinds]):
        names += [name for name in outcomes(opcode, operands) if name not in names]
    names += said_of_values(opcode)
    for k, what in WRONG_KINDS.items():
        if k in kinds:
            names += [f"{'a number' if k == 'n' else 'a bit'} that is {'an' if v == 'input' else 'a'} {v}" for v in VARIABLES]
            names.append(what)
    return [f"{opcode:02X} {name}" for name in [*names, "on the tape: refused with 2"]]


def new_numbers():
    names = [f"02 {mode}, {size}" for mode in MODES for size in SIZES]
    names[0] += ": refused with 5"
    names += [f"02 {mode}, absent: refused with 5" for mode in MODES[1:]]
    kinds = ["0", "1", "another constant", *VARIABLES]
    return [*names, "02 on the tape: refused with 2", *(f"03 number, {kind}" for kind in kinds)]


# By group: the opcode, with copies in the group of 02; and for bits where numbers stand in their place.
MIXED = "numbers for bits"
NUMBER_ARMS = {0x02: new_numbers(), **{opcode: arms_of(opcode) for opcode in KINDS}}
NUMBER_ARMS[MIXED] = [f"{opcode:02X} {WRONG_KINDS['b']}" for opcode in ON_BITS]
ALL_NUMBERS = [arm for names in NUMBER_ARMS.values() for arm in names]
