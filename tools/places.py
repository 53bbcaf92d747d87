#!/usr/bin/env python3
# Lists the places of docs/DESIGN-PASS.md in crates/*/src, a heading and a line `N places` for each point.
#   python3 tools/places.py [FOLDER]
# It goes by text: what it lists is looked at by hand, and what it cannot see (see the page) is found by reading.
import difflib
import glob
import itertools
import os
import re
import sys

root = sys.argv[1] if len(sys.argv) > 1 else os.path.join(os.path.dirname(os.path.abspath(__file__)), "..")
os.chdir(root)
files = sorted(f for f in glob.glob("crates/*/src/*.rt"))
texts = {f: open(f).read() for f in files}


def close(text, at, opener, closer):
    depth = 0
    for i in range(at, len(text)):
        if text[i] == opener:
            depth += 1
        elif text[i] == closer:
            depth -= 1
            if depth == 0:
                return i
    return len(text)


class Function:
    def __init__(self, file, text, m):
        self.file, self.name = file, m.group(1)
        self.line = text.count("\n", 0, m.start()) + 1
        opened = text.index("(", m.end())
        closed = close(text, opened, "(", ")")
        self.params = [p.strip() for p in re.split(r",(?![^<\[(]*[>\])])", text[opened + 1:closed]) if p.strip()]
        # The body is the first brace that no clause opens; a method of a trait ends in a semicolon.
        at, self.clauses, self.body = closed + 1, [], ""
        head = text[at:]
        result = re.match(r"\s*(->\s*((?:[^{;\n]|;(?=[^\n]*\]))*))?", head)
        self.result = (result.group(2) or "").strip()
        at += result.end()
        while True:
            clause = re.compile(r"\s*(requires|ensures)\*?(\s+\w+)?\s*\{").match(text, at)
            if not clause:
                break
            end = close(text, clause.end() - 1, "{", "}")
            self.clauses.append((clause.group(1), " ".join(text[clause.end():end].split())))
            at = end + 1
        body = re.compile(r"\s*(where[^{;]*)?\{").match(text, at)
        if body:
            self.body = text[body.end():close(text, body.end() - 1, "{", "}")]

    def where(self):
        return f"{self.file}:{self.line} {self.name}"


functions = [Function(f, t, m) for f, t in texts.items() for m in re.finditer(r"\bfn (\w+)", t)]
tested = lambda f: "/tests.rt" in f or "field_tests" in f


def show(title, lines):
    print(f"== {title}")
    for line in lines:
        print("  " + line)
    print(f"{len(lines)} places\n")


def grep(pattern, flags=0):
    out = []
    for f, t in texts.items():
        for m in re.finditer(pattern, t, flags):
            out.append(f"{f}:{t.count(chr(10), 0, m.start()) + 1} {' '.join(m.group(0).split())[:100]}")
    return out


show("1a. A `bool` that tells whether a function with a `&mut` did it",
     [f.where() for f in functions if f.result == "bool" and any("&mut" in p for p in f.params)])
show("1b. A number that stands for none", grep(r"; 0 (where|for)[^\n.]*\bno\b[^\n]*"))
show("1c. An error or a none handed on by hand",
     grep(r"Err\((\w+)\) => (return )?Err\(\1\)|None => (return )?None\b|None => (return )?Err\([^)]*\)\)?|Err\(_\) => Err\([^)]*\)"))
show("1d. A number of a kind, a layer or a refusal", grep(r"=> \(\d+, \d+\)|pub (number|layer): u32"))


def tokens(text):
    names = {}
    out = []
    for token in re.findall(r"\w+|[^\w\s]", text):
        out.append(names.setdefault(token, f"v{len(names)}") if re.match(r"[A-Za-z_]", token) and token not in
                   ("if", "else", "match", "for", "while", "in", "let", "mut", "return", "self", "as", "Ok", "Err", "Some", "None") else token)
    return out


# A body that only fills a struct is left out, and so are pairs whose operators differ.
bodies = [(f, tokens(f.body)) for f in functions if f.body.strip() and not tested(f.file) and f.name not in ("main", "from", "fmt")
          and not re.fullmatch(r"\s*\w+ \{[^{}]*\}\s*", f.body)]
operators = lambda ts: sorted(t for t in ts if t in "+-*/%<>!&|")
twins = []
for (f, a), (g, b) in itertools.combinations(bodies, 2):
    # Functions that hand on to one call are compared as well, where all but a name or a constant is the same.
    least, alike = (12, 0.9) if min(len(a), len(b)) < 30 else (30, 0.8)
    if f.name != g.name and operators(a) == operators(b) and min(len(a), len(b)) >= least and difflib.SequenceMatcher(None, a, b, False).ratio() >= alike:
        twins.append(f"{f.where()} and {g.where()}")
show("2a. Functions whose bodies differ in names or constants", twins)
show("2b. A method that hands on to the same method of a field",
     [f.where() for f in functions if re.fullmatch(r"\s*self\.\w+\.(\w+)(::<\w+>)?\([^;{}]*\)\s*", f.body)
      and re.search(rf"\.{f.name}(::<\w+>)?\(", f.body)])
members = {}
for f, t in texts.items():
    for m in re.finditer(r"\b(struct|trait) (\w+)[^{;]*\{", t):
        body = t[m.end():close(t, m.end() - 1, "{", "}")]
        pattern = r"^    (?:pub(?:\(crate\))? )?(\w+):" if m.group(1) == "struct" else r"^    fn (\w+)"
        members[f"{f} {m.group(2)}"] = set(re.findall(pattern, body, re.M))
show("2c. Types and traits that share most of three or more members",
     [f"{a} and {b}" for a, b in itertools.combinations(members, 2)
      if len(members[a] & members[b]) >= 3 and len(members[a] & members[b]) >= 0.75 * max(len(members[a]), len(members[b]))])


def indexing():
    """`while` loops that step a counter, and `for` loops over numbers that index a slice."""
    out = []
    for f, t in texts.items():
        for m in re.finditer(r"\bwhile [^{]*[<>][^{]*\{|\bfor (\w+) in [^{]*\.\.[^{]*\{", t):
            body = t[m.end():close(t, m.end() - 1, "{", "}")]
            counted = re.search(r"[-+]= |(\w+) = \1 [-+]", body) if not m.group(1) else re.search(
                rf"\[[^\]]*\b{m.group(1)}\b|= [^;]*\b{m.group(1)}\b[^;]*;[^}}]*\[at\b", body)
            if counted:
                out.append(f"{f}:{t.count(chr(10), 0, m.start()) + 1} {' '.join(m.group(0).split())}")
    return out


show("3. Loops that count an index by hand", indexing())
show("4a. Conversions by hand: one value in, a `match` or a pattern on it, another out",
     [f.where() for f in functions if f.name not in ("from", "fmt") and len(f.params) == 1 and "&" not in f.params[0] and f.result
      and re.match(r"\s*(let [^;]* = match|match|let \w+ \{[^}]*\} =) ?(self|\w+)?", f.body)])
show("4b. Text pushed piece by piece", grep(r"push_shown\([^;}]*?format_args!", re.S))
groups = {}
for f in functions:
    names = [p for p in f.params if p not in ("self", "&self", "&mut self")]
    for three in itertools.combinations(names, 3):
        groups.setdefault(three, set()).add(f.where())
travelling = sorted({w for where in groups.values() if len(where) >= 3 for w in where})
show("5a. Functions with three parameters that travel together through three or more", travelling)
facts = {}
for f in functions:
    for kind, text in f.clauses:
        if kind == "requires" or re.match(r"[\w.]*sound\b|Sound\b|Fit\b", text):
            facts.setdefault(re.sub(r"\.(now|old|new)\b", "", text), set()).add(f.where())
show("5b. Facts about a value that three or more functions ask for or keep",
     [f"{len(where)} functions: {text[:120]}" for text, where in sorted(facts.items()) if len(where) >= 3])
show("6. Lent buffers beside lengths", grep(r"^    (?:pub(?:\(crate\))? )?\w+: &'a mut \[[^\n]*", re.M))
show("7. Switches on which step to run",
     [f.where() for f in functions if f.name not in ("from", "fmt") and re.search(r"match \(?\*?(self|gate|command|action|mode|side)\b", f.body)
      and re.search(r"=> [\w.:&(]*\w+\([^)]*(cs|circuit|book|cs\.)", f.body)])
