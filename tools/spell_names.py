#!/usr/bin/env python3
"""Brings this repository's own words to today's spelling: definitions, lemmas and their variables in snake case, facts
and types in camel case, a prime as an apostrophe.

usage: python3 tools/spell_names.py        at the top, once, after /opt/rattle/port/port.py

It goes over crates/*/specs, crates/*/proofs and the ghost parts of crates/*/src. Names of the library, names that
Rattle makes (goals, calls, loops), functions of src/, strings and comments keep their spelling. It says where
a name of a file becomes one that stands there already.
"""

import os
import re
import sys

WORD = re.compile(r"[^\W\d_][\w'\u2032]*(?:-[\w'\u2032]+)+|[^\W\d_][\w']*\u2032[\w'\u2032]*")
KEPT_PARTS = re.compile(r"//[^\n]*|\"(?:\\[\s\S]|[^\"\\])*\"|'(?:\\.|[^'\\\n])'(?!\w)")
ANTT_COMMENT = re.compile(r"--[ \n][^\n]*|--$")
IMPORT = re.compile(r"\b(?:ghost )?use (\w+(?:[.·][\w-]+)*)(?:\.\{([^}]*)\}| as ([\w-]+))?")
GOAL = re.compile(r"^(?:abbrev )?(?:pub )?([\w'-]+) : goal\.", re.M)
FIELD = re.compile(r"^  pub ([\w'-]+) *(?:\([^)]*\) *)*:", re.M)


def files():
    for top, folders, names in os.walk("crates"):
        folders[:] = sorted(f for f in folders if f not in ("out", "must-fail", "data"))
        for name in sorted(names):
            if name.endswith((".rt", ".antt")):
                yield os.path.join(top, name)


def spelled(word):
    word = word.replace("\u2032", "'")
    if "-" not in word:
        return word
    first, *rest = word.replace("getD", "get_or").split("-")
    if first[0].isupper() and len(first) > 2:
        return first + "".join(part[:1].upper() + part[1:] for part in rest)
    return "_".join([first, *rest])


def names_of(text, ours):
    """The names that a file takes from our own crates, or from elsewhere."""
    found = set()
    for path, several, alias in IMPORT.findall(text):
        own = any(path.startswith("Rattle." + crate + ".") for crate in ours)
        for item in several.split(","):
            parts = item.split(" as ")
            if ours and not own:
                found.update(part.strip() for part in parts)
    return found


def kept_spans(path, text):
    pattern = KEPT_PARTS if path.endswith(".rt") else ANTT_COMMENT
    return [match.span() for match in pattern.finditer(text)]


def turned(path, text, elsewhere, fields):
    goals = set(GOAL.findall(text))
    aliases = {alias for _, _, alias in IMPORT.findall(text) if alias}
    spans = kept_spans(path, text)
    present = set(re.findall(r"[^\W\d_][\w']*", text))

    def one(match):
        word = match.group(0)
        start = match.start()
        if any(low <= start < high for low, high in spans):
            return word
        if word in elsewhere or word in goals:
            return word
        before = text[:start]
        if before.endswith("."):
            owner = re.search(r"([\w'-]+)\.$", before)
            module = owner and (owner.group(1)[0].isupper() or owner.group(1) in aliases)
            if word not in fields and not module:
                return word
            if re.search(r"\bgoal\.$", before):
                return word
        to = spelled(word)
        if to in present and to != word:
            print(f"look: {path}: {word} becomes {to}, which stands there already")
        return to

    return WORD.sub(one, text)


def main():
    ours = sorted(os.listdir("crates"))
    texts = {}
    for path in files():
        with open(path, encoding="utf-8") as file:
            texts[path] = file.read()
    fields = set()
    for path, text in texts.items():
        if path.endswith(".antt"):
            fields.update(FIELD.findall(text))
    for path, text in texts.items():
        new = turned(path, text, names_of(text, ours), fields)
        if new != text:
            with open(path, "w", encoding="utf-8") as file:
                file.write(new)


if __name__ == "__main__":
    sys.exit(main())
