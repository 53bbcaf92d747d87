#!/usr/bin/env python3
"""make.py SRC   makes the list crates/beside/data again, from the published source of the Rust crate in the folder SRC

Each tape of tapes.py and number_tapes.py is run through the Rust crate (run.sh) and through the model of this repository's rules
(rules.py, number_rules.py). Where both give the same text, that is what is expected of the port. Where they differ, the model must
have come to a difference on purpose: then the block's head names it, and the text is the model's. Anything else is an error, and
nothing is written. So the expected text is the Rust crate's own, but for the named differences.

The right side of 1B is rewritten by a rule besides: the Rust crate's row, with its middle sum for the one at its right, must be
the model's row. Of the differences that numbers show, the model knows both ways: where it goes the Rust crate's, its text must be
the Rust crate's.

It prints how often each arm was taken, and fails if one was taken less than 20 times, or if an arm was taken that arms.py and
number_arms.py do not know. A tape that shows a difference counts for the arms that differ alone. It also prints how many of the
arms of numbers were taken over each prime and in each mode.
"""

import subprocess
import sys
from collections import Counter
from pathlib import Path

from arms import ALL as ALL_BITS, counted
from number_arms import ALL_NUMBERS, MIXED
from number_rules import DIFFERENCES, NumberRun
from number_tapes import number_tapes
from rules import RIGHT_SIDE
from tapes import all_tapes

SEED = 1
LEAST = 20
ALL = [*ALL_BITS, *ALL_NUMBERS]
HERE = Path(__file__).resolve().parent
DATA = HERE.parent / "crates" / "beside" / "data"
# What stands above the blocks of each file.
HEAD = """\
# Made by beside/make.py. A block is a line PRIME MODE HEX, with the bytes of a tape in hexadecimal; the lines that are expected of
# its run; and a line of dashes. The lines are those of the Rust crate. Only where the first line ends with `differs` and the name
# of a difference on purpose (docs/DIFFERENCES.md) they are those of the model of the rules, beside/rules.py.
---
"""
# The files of the list of bits, and the opcodes whose tapes they hold; 0 stands for a tape that ends before its end.
BITS = {
    "one-and-two-bits.txt": [0x00, 0x01, 0x03, 0x10, 0x11, 0x12, 0x13, 0x18],
    "choices-and-statements.txt": [0x19, 0x1A, 0x1B],
    "gates-and-or.txt": [0x14, 0x15],
    "gates-nand.txt": [0x16, 0x17],
    "bounds.txt": [0x34],
}
# The files of the list of numbers, and their groups.
NUMBERS = {
    "numbers-arithmetic.txt": [0x02, 0x20, 0x21, 0x22, 0x23, 0x24, 0x25, 0x2D, MIXED],
    "numbers-products.txt": [0x26],
    "numbers-squares-and-choices.txt": [0x27, 0x2C],
    "numbers-equality.txt": [0x28, 0x29, 0x2A],
    "numbers-inequality.txt": [0x2B],
}


def ask_rust(source, heads):
    """What the Rust crate makes of some tapes: a list of lines for each head."""
    text = "".join(head + "\n" for head in heads)
    done = subprocess.run([HERE / "run.sh", source], input=text, stdout=subprocess.PIPE, text=True, check=True)
    blocks = [block.split("\n") for block in done.stdout.split("\n---\n")[:-1]]
    assert [lines[0] for lines in blocks] == heads, "the blocks of run.sh are not those of the tapes"
    return [lines[1:] for lines in blocks]


def with_right_sides(rust, expected):
    """The Rust crate's lines, in which each row that is not as expected gets its middle sum at its right."""
    lines = []
    for ours, theirs in zip(expected, rust):
        if ours != theirs and " ; " in theirs:
            a, b, c = theirs.split(" ; ")
            theirs = f"{a} ; {b} ; {b}" if c == "1 one" else theirs
        lines.append(theirs)
    return lines


def without_verdict(lines):
    return [line for line in lines if line != "met" and not line.startswith("unmet ")]


def as_the_crate(head):
    """What the model makes of a tape where it goes the Rust crate's way."""
    prime, mode, digits = head.split(" ")
    run = NumberRun(int(prime), mode == "values", as_the_crate=True)
    run.tape(bytes.fromhex(digits))
    return run.lines()


def block(head, rust, run):
    """The block of a tape, and the name of the difference that it shows, if any."""
    expected = run.lines()
    if rust == expected:
        return "\n".join([head, *expected, "---", ""]), None
    difference = ",".join(run.differences)
    if difference == "":
        sys.exit("\n".join([f"no difference on purpose: {head}", "the Rust crate:", *rust, "the model:", *expected]))
    if difference == RIGHT_SIDE and without_verdict(with_right_sides(rust, expected)) != without_verdict(expected):
        sys.exit(f"more than the right side differs: {head}")
    if difference in DIFFERENCES and as_the_crate(head) != rust:
        sys.exit(f"more than {difference} differs: {head}")
    return "\n".join([f"{head} differs {difference}", *expected, "---", ""]), difference


def count_arms(arms):
    """Prints how often the arms were taken; whether that is enough."""
    unknown = [arm for arm in arms if arm not in ALL]
    short = [arm for arm in ALL if arms[arm] < LEAST]
    for arm in ALL:
        print(f"{arms[arm]:6} {arm}")
    for arm in unknown:
        print(f"not an arm that is known: {arm}")
    print(f"{len(ALL)} arms, each taken {min(arms[arm] for arm in ALL)} times or more")
    return not unknown and not short


def blocks_of(source, tapes, arms, differences):
    """The blocks of some tapes, by opcode or group. Counts the arms, by prime and mode, and the differences."""
    heads = [f"{prime} {mode} {tape.hex()}" for _, prime, mode, tape in tapes]
    blocks = {}
    for (group, prime, mode, tape), head, rust in zip(tapes, heads, ask_rust(source, heads)):
        run = NumberRun(prime, mode == "values")
        run.tape(tape)
        arms.setdefault((prime, mode), Counter()).update(counted(run.arms, run.differences))
        text, difference = block(head, rust, run)
        differences[difference] += 1
        blocks.setdefault(group, []).append(text)
    return blocks


def write(files, blocks):
    for file, groups in files.items():
        text = "".join(text for group in groups for text in blocks[group])
        written = (DATA / file).write_text(HEAD + text)
        print(f"{file}: {text.count('---')} tapes, {written} characters")


def main(source):
    arms, differences = {}, Counter()
    bits = blocks_of(source, all_tapes(SEED), arms, differences)
    numbers = blocks_of(source, number_tapes(SEED), arms, differences)
    enough = count_arms(sum(arms.values(), Counter()))
    for (prime, mode), taken in arms.items():
        print(f"over {prime}, {mode}: {sum(arm in taken for arm in ALL_NUMBERS)} of the {len(ALL_NUMBERS)} arms of numbers")
    print(f"{sum(differences.values())} tapes: {differences.pop(None)} as the Rust crate has them,", dict(differences))
    if not enough:
        sys.exit("an arm is taken too seldom, or not known; nothing is written")
    DATA.mkdir(exist_ok=True)
    write(BITS, bits)
    write(NUMBERS, numbers)


if __name__ == "__main__":
    if len(sys.argv) != 2:
        sys.exit(__doc__)
    main(sys.argv[1])
