#!/usr/bin/env python3
"""Respells this repository's own names as today's Rattle does: words in snake case, with no capital and no dash in a word.

Run once, at the top, after port.py; a second run changes nothing. It turns the names of definitions, laws and fields of .antt files, and
those that a file gives to what it takes from others, wherever they stand: in proofs and definitions, in the contracts and comments of the code (.rt) and in must-fail edits. Types, modules
and facts begin with a capital letter and stay; so do the functions of src/, strings, the names that the check makes, and the library's.
"""
import collections
import glob
import re
import sys

# What the plain spelling would make of one name what another one is already: called otherwise.
APART = {
    "nameLen": "name_length",
    "noRoom": "room_fails",
    "rangesIn": "range_count",
    "getD": "get_or",
}
# The same in one crate alone.
APART_IN = {"crates/model/": {"oneMore": "one_extent_more"}}
# Laws and fields that keep their dash: without it they would be the definition, the field or the function that they speak of.
LEAVE = set(
    "entry-tests header-tests extent-tests first-fit footprint-len open-refusal run-byte header-a header-b span-start span-end in-turn"
    " with-tag len-at region-at has-row name-length last-at lists-fail order-part facts-part".split()
)

CAMEL = re.compile(r"(?<![A-Za-z0-9_'.\"])[a-z][A-Za-z0-9_']*[A-Z][A-Za-z0-9_']*|(?<=[.-])[a-z][A-Za-z0-9_']*[A-Z][A-Za-z0-9_']*")
NAME = re.compile(r"[^\s(){}.;,@\"«»\[\]`]+")
DECLARED = re.compile(r"^ *(?:pub |abbrev |unfoldable |record |data )*([a-z]\S*-\S+)(?: \{[^{}\n]*\})* :(?= |$)(.*)", re.M)
IMPORTED = re.compile(r"^use (\S+?)\.\{([^}]*)\}", re.M)
# What a file calls a module or a name that it takes from elsewhere; that holds in this file alone.
TAKEN_AS = re.compile(r"^use [^\n]*(?:\n[ \t}][^\n]*)*", re.M)
STRING = re.compile(r'("(?:[^"\\\n]|\\.)*")')


def files(*patterns):
    return sorted(path for pattern in patterns for path in glob.glob(pattern, recursive=True))


def read(path):
    with open(path, encoding="utf-8") as f:
        return f.read()


def outside_strings(text, turn):
    return "".join(part if part.startswith('"') else turn(part) for part in STRING.split(text))


def without_capitals(path, text):
    apart = dict(APART)
    for place, names in APART_IN.items():
        if path.startswith(place):
            apart.update(names)
    snake = lambda word: apart.get(word) or re.sub(r"(?<=[a-z0-9])[A-Z]", lambda m: "_" + m.group(0).lower(), word)
    return outside_strings(text, lambda part: CAMEL.sub(lambda m: snake(m.group(0)), part))


def dashed(texts):
    """The names with a dash that these texts declare, but for those that the check or a library makes."""
    found, others = set(), set(LEAVE)
    for text in texts.values():
        code = re.sub(r"--.*", "", text)
        for m in IMPORTED.finditer(code):
            if not m[1].startswith("Rattle.") or m[1].startswith("Rattle.std") or m[1].endswith(".Goals"):
                others.update(name.split(" as ")[0].strip() for name in m[2].split(","))
        for m in DECLARED.finditer(code):
            (others if re.match(r" (goal|tie)\.", m[2]) else found).add(m[1])
    return found - others


# Behind these stand the names that the check makes: in answers the facts of a place, in invariants the variables of a loop.
MADE = {"Answers": r"(?<![\w'-])(c|goal)\.\Z", "Proof": r"(?<![\w'-])(c|tie)\.\Z", "Invariants": r"(?<![\w'-])(l|goal)\.\Z"}


def without_dashes(path, text, names):
    of_function = re.search(r"/proofs/.+/(Answers|Proof|Invariants)\.antt$", path)

    def turn(m):
        before = text[max(0, m.start() - 5) : m.start()]
        if m[0] not in names or of_function and re.search(MADE[of_function[1]], before):
            return m[0]
        return m[0].replace("-", "_")

    return NAME.sub(turn, text)


def without_dashes_in_uses(text):
    taken = {name for use in TAKEN_AS.findall(text) for name in re.findall(r"\sas\s+([a-z][^\s,{}]*-[^\s,{}]*)", use)}
    words = set(NAME.findall(text))
    free = {name for name in taken if name.replace("-", "_") not in words}

    def turn(m):
        return m[0].replace("-", "_") if m[0] in free and text[m.start() - 1 : m.start()] != "." else m[0]

    return NAME.sub(turn, text)


def main():
    changed = collections.Counter()

    def write(path, old, new):
        if new != old:
            with open(path, "w", encoding="utf-8") as f:
                f.write(new)
            changed[path] += 1

    sources = ("crates/*/specs/**/*.antt", "crates/*/proofs/**/*.antt", "crates/*/src/**/*.rt")
    for path in files(*sources):
        old = read(path)
        write(path, old, without_capitals(path, old))
    proofs = {path: read(path) for path in files(*sources[:2])}
    names = dashed(proofs)
    for path in files(*sources, "crates/*/must-fail/*.edit"):
        old = read(path)
        new = without_dashes(path, old, names)
        write(path, old, without_dashes_in_uses(new) if path.endswith(".antt") else new)
    print(f"respell: {len(names)} names with a dash, {len(changed)} files")
    return 0


if __name__ == "__main__":
    sys.exit(main())
