#!/usr/bin/env python3
"""Respells the names that this repository's specs/ and proofs/ define with dashes: words get underscores, facts and types
camel case. Run once, at the top, right after the kit's own script (docs/PORT.md says when). Names that Rattle makes (goals,
invariants, measures) and names of the library stay. usage: respell.py [--list]"""
import collections
import glob
import os
import re
import sys

NAME = r"[A-Za-z][A-Za-z0-9_'-]*"
HEAD = re.compile(r"^\s*(?:abbrev |unfoldable )?(?:pub )?(?:data |record )?(" + NAME + r")(?:\s+\(|\s+\{|\s*:\s)")
SIGNATURE = re.compile(r"^\s*(?:abbrev |unfoldable )?(?:pub )?(?:data |record )?((?:" + NAME + r"\s+)*" + NAME + r")\s+:\s")
TOKEN = re.compile(r"(?<![A-Za-z0-9_'◌-])" + NAME + r"(?![A-Za-z0-9_'◌-])")
# names whose plain respelling would be another name that is in use, or that keep an older word inside
BY_HAND = {"getD-new": "get_or_new", "getD-old": "get_or_old"}
# a set of rules and a variable, which no signature shows
BESIDES = {"reads-32", "pos-r"}


def files():
    for pattern in ("crates/*/specs/**/*.antt", "crates/*/proofs/**/*.antt", "crates/*/src/**/*.rt"):
        yield from sorted(glob.glob(pattern, recursive=True))


def respelled(name):
    if name in BY_HAND:
        return BY_HAND[name]
    if name[0].isupper():
        first, *rest = name.split("-")
        return first + "".join(part[0].upper() + part[1:] for part in rest)
    return name.replace("-", "_")


def collect(texts):
    """The names with a dash that the repository defines, those that Rattle makes left out."""
    defined, made, imported = set(), set(), set()
    for path, text in texts.items():
        if path.endswith(".rt"):
            for line in re.findall(r"^ghost use .*", text, re.M):
                defined.update(re.findall(r" as (" + NAME + ")", line))
            continue
        made.update(re.findall(r"\bgoal\.(" + NAME + ")", text))
        made.update(re.findall(r"\bneed\.(" + NAME + ")", text))
        for line in text.splitlines():
            own = re.match(r"^use Rattle\.(\w+)\.", line)
            if line.startswith("use ") and (not own or not os.path.isdir(os.path.join("crates", own.group(1)))):
                braces = re.search(r"\{(.*)\}", line)
                imported.update(w.split(" as ")[0].strip() for w in (braces.group(1).split(",") if braces else []))
            if line.startswith("use "):
                defined.update(re.findall(r" as (" + NAME + ")", line))
            if line.startswith(("use ", "--")):
                continue
            found = SIGNATURE.match(line)
            if found and (not line.startswith("    ") or " " not in found.group(1)):
                defined.update(found.group(1).split())
            found = HEAD.match(line)
            if found and re.match(r"\s*(abbrev |unfoldable )?(pub )?(data|record) ", line):
                defined.add(found.group(1))
    return {n for n in defined if "-" in n} - made - imported | BESIDES


def turned(path, text, names):
    def one(found):
        return respelled(found.group(0)) if found.group(0) in names else found.group(0)

    if path.endswith(".rt"):
        parts = re.split(r'("(?:\\.|[^"\\])*")', text)
        return "".join(p if i % 2 else TOKEN.sub(one, p) for i, p in enumerate(parts))
    return TOKEN.sub(one, text)


def main(argv):
    texts = {}
    for path in files():
        with open(path, encoding="utf-8") as f:
            texts[path] = f.read()
    names = collect(texts)
    used = collections.Counter()
    for text in texts.values():
        used.update(TOKEN.findall(text))
    target = collections.Counter(respelled(n) for n in names)
    for n in sorted(names):
        new = respelled(n)
        if used[new] or target[new] > 1:
            print(f"falls together: {n} -> {new}, which stands {used[new]} times")
    if "--list" in argv:
        print("\n".join(f"{n} {respelled(n)}" for n in sorted(names)))
        return
    for path, text in texts.items():
        new = turned(path, text, names)
        if new != text:
            with open(path, "w", encoding="utf-8") as f:
                f.write(new)


main(sys.argv[1:])
