#!/usr/bin/env python3
"""Counts the places that docs/DESIGN-PASS.md speaks of.

usage: tools/count_places.py [-v] [FOLDER]     (FOLDER has crates/; -v lists each place)

The counts are of text, so each place that is listed is then read: docs/DESIGN-PASS.md says which of them are places of
its points and which only look like one.
"""
import itertools
import os
import re
import sys

KEYWORDS = set(
    "fn pub crate impl for in if else match let mut return self Self struct enum trait const use mod where as ref true "
    "false Ok Err Some None requires ensures ghost".split()
)


def sources(folder):
    for crate in sorted(os.listdir(os.path.join(folder, "crates"))):
        src = os.path.join(folder, "crates", crate, "src")
        if os.path.isdir(src):
            for name in sorted(os.listdir(src)):
                if name.endswith(".rt"):
                    path = os.path.join(src, name)
                    yield os.path.relpath(path, folder), open(path).read()


def code_lines(text):
    for number, line in enumerate(text.split("\n"), 1):
        bare = line.split("//")[0]
        if bare.strip():
            yield number, bare


def functions(path, text):
    """Each function: where it stands, its name, its parameters, its clauses and its body."""
    for found in re.finditer(r"^([ ]*)(?:pub(?:\(crate\))? )?fn (\w+)", text, re.M):
        indent, name = found.group(1), found.group(2)
        end = re.search(r"^" + indent + r"(\}|.*;)\s*$", text[found.end():], re.M)
        if not end:
            continue
        whole = text[found.start():found.end() + end.end()]
        line = text[:found.start()].count("\n") + 1
        opened = whole.find("\n" + indent + "{\n")
        if opened < 0:
            head, _, body = whole.partition("{\n")
        else:
            head, body = whole[:opened], whole[opened:]
        clauses = re.findall(r"^\s*(?:requires|ensures)\b[^{]*\{(.*)\}\s*$", head, re.M)
        signature = re.split(r"\b(?:requires|ensures)\b", head)[0]
        # a generic parameter may itself have brackets, as a closure's bound
        listed = signature[signature.find("fn " + name):]
        while not re.match(r"fn \w+(<.*?>)?\(", listed, re.S) and "(" in listed:
            listed = "fn _(" + listed.partition(">(")[2]
        listed = listed.partition("(")[2]
        parameters = re.findall(r"(\w+): ([^,()]+)", listed)
        yield f"{path}:{line}", name, parameters, clauses, body


def shape(body):
    """The body with names of its own, numbers and strings taken out."""
    body = re.sub(r"//[^\n]*", "", body)
    tokens = re.findall(r'"[^"]*"|0x[0-9A-Fa-f_]+|\d+|\w+|[^\w\s]', body)
    return tuple(t if t in KEYWORDS or not re.match(r'\w|"', t) else "_" for t in tokens)


def by_patterns(*patterns):
    """A finder of the lines in which a pattern stands, each with what that is called."""

    def find(path, text):
        for number, line in code_lines(text):
            for name, pattern in patterns:
                if re.search(pattern, line):
                    yield f"{path}:{number}", f"{name}: {line.strip()}"

    return find


point_1 = by_patterns(
    ("a flag", r"^(?!.*\blet ).*\b\w+: bool\b"),
    (
        "an outcome passed on by hand",
        r"\bErr\(\w+\) => (return )?Err\(|if let Err\(|None => (return )?(Err|None)\b"
        r"|Some\(\w+\) => (Ok|Some|Err)\(|Err\(_\) => Err",
    ),
    ("a number for a kind", r"as u\d+ == .* as u\d+|Result<[^<>]*, u(8|16|32|64|size)>"),
)

point_4 = by_patterns(
    ("a copy", r"copy_from_slice"),
    ("an equality", r"\[0\] != .*\[1\] !="),
    (
        "an impl",
        r"^impl.* (From<.*>|TryFrom<.*>|FromStr|PartialEq|PartialOrd|Ord|Clone|Default|fmt::Display|fmt::Debug) for ",
    ),
)


def point_3(path, text):
    lines = text.split("\n")
    for number, line in code_lines(text):
        if re.search(r"^\s*(while|loop)\b", line):
            yield f"{path}:{number}", line.strip()
        loop = re.search(r"^(\s*)for (?:\((\w+), \w+\)|(\w+)) in ", line)
        if not loop or not (".." in line or "enumerate" in line):
            continue
        variable = loop.group(2) or loop.group(3)
        body = []
        for later in lines[number:]:
            if later.startswith(loop.group(1) + "}"):
                break
            body.append(later)
        if re.search(r"\[[^\]]*\b" + variable + r"\b[^\]]*\]", "\n".join(body)):
            yield f"{path}:{number}", line.strip()


def point_6(path, text):
    for number, line in code_lines(text):
        if re.search(r"\.len\(\) (<|>|!=|==) \d+ \{|\.is_empty\(\) \{|\.len\(\) > 0", line):
            yield f"{path}:{number}", "a length tested by hand: " + line.strip()
    for place, name, parameters, _, _ in functions(path, text):
        if re.search(r"&(mut )?\[u8\]", str([t for _, t in parameters])) and any(n in ("at", "count", "from") for n, t in parameters if t.strip() == "usize"):
            yield place, f"a buffer with a number beside: {name}"


def point_7(path, text):
    for number, line in code_lines(text):
        if re.search(r": fn\(|\bdyn \w|\[fn\(", line):
            yield f"{path}:{number}", line.strip()
    for place, name, parameters, _, body in functions(path, text):
        for flag, kind in parameters:
            if kind.strip() == "bool" and re.search(r"if " + flag + r"\b", body):
                yield place, f"runs what {flag} says: {name}"


def main():
    words = [w for w in sys.argv[1:] if w != "-v"]
    folder = words[0] if words else "."
    files = list(sources(folder))
    every = [f for path, text in files for f in functions(path, text)]

    twins = []
    groups = {}
    for place, name, _, _, body in every:
        form = shape(body)
        if len(form) >= 16:
            groups.setdefault(form, []).append(f"{place} {name}")
    for group in groups.values():
        if len(group) > 1:
            twins.append((group[0].split()[0], "; ".join(g.split()[1] + " (" + g.split()[0] + ")" for g in group)))

    together = {}
    repeated = {}
    for place, name, parameters, clauses, _ in every:
        if name in ("get", "put", "add", "drop_last", "count", "limit", "fmt"):
            continue
        names = sorted({f"{n}: {t.strip()}" for n, t in parameters if n not in ("self", "rt", "heap")})
        for trio in itertools.combinations(names, 3):
            together.setdefault(trio, set()).add(f"{place} {name}")
        for clause in clauses:
            repeated.setdefault(re.sub(r"\s+", " ", clause.strip()), set()).add(f"{place} {name}")
    travelling = {}
    for trio, where in together.items():
        if len(where) >= 3:
            travelling.setdefault(frozenset(where), set()).update(trio)
    fives = [("", "parameters " + ", ".join(sorted(names)) + " in " + "; ".join(sorted(w.split()[1] for w in where)))
             for where, names in travelling.items()]
    fives += [("", "clause { " + clause[:100] + " } in " + "; ".join(sorted(w.split()[1] for w in where)))
              for clause, where in repeated.items() if len(where) >= 3]

    found = {n: [] for n in range(1, 8)}
    for path, text in files:
        for n, finder in ((1, point_1), (3, point_3), (4, point_4), (6, point_6), (7, point_7)):
            found[n] += list(finder(path, text))
    found[2], found[5] = twins, fives
    titles = {
        1: "outcomes and flags by hand",
        2: "groups of functions of one shape",
        3: "loops that index by their count",
        4: "copies, equalities and impls by hand",
        5: "parameters and clauses that stand together in three functions or more",
        6: "lengths and places beside buffers",
        7: "switches on what to run",
    }
    for n, places in found.items():
        print(f"point {n}: {len(places)} {titles[n]}")
        if "-v" in sys.argv:
            for place, what in places:
                print(f"    {place} {what}")
    files, lines = 0, 0
    for crate in sorted(os.listdir(os.path.join(folder, "crates"))):
        for where, _, names in os.walk(os.path.join(folder, "crates", crate, "proofs")):
            for name in names:
                if name.endswith(".antt"):
                    files += 1
                    lines += open(os.path.join(where, name)).read().count("\n")
    print(f"point 8: {files} files of proofs, {lines} lines")


main()
