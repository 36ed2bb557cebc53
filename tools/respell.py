#!/usr/bin/env python3
"""Brings the names of this repository's own definitions and lemmas to the spelling of the library.

usage: tools/respell.py [--list]        at the top of the repository

Words are in snake case, facts and types in upper camel case. A dash stays only between two names that are defined in specs/
or that the library defines. Names of src/, of goals and of the steps in them keep their spelling. --list only prints the
names, old and new.
"""
import collections
import glob
import re
import sys

TOKEN = re.compile(r"[A-Za-z0-9_'ℕℤ◌⊕-]+")
DEFINED = re.compile(
    r"\s*(?:(?:abbrev|unfoldable|pub|data|record|where)\s+)*([A-Za-z0-9_'ℕℤ◌-]+)\s*:(?!=)"
)
# words of the library that join to a name by a dash
LIBRARY = set(
    "length take drop append reverse map set size zero suc rank pow sum count none some true false".split()
)


# A lemma that would have the name of a definition or of a function gets `_lem`. The first two were respelled by port.py, and
# the definition of that name comes to it now.
LEMMAS = {
    "float_value": "float_value_lem",
    "product_value": "product_value_lem",
    "before-tab": "before_tab_lem",
    "behind-tab": "behind_tab_lem",
    "short-limit": "short_limit_lem",
    "agreement-by-values": "agreement_by_values_lem",
    "rounding-laws": "rounding_laws_lem",
    "marked-cases": "marked_cases_lem",
}


# Lemmas of the library whose names own definitions come to, by the file that takes both.
TAKEN = {
    "crates/numbers/proofs/Floats.antt": "field_of",
    "crates/sheets/proofs/Counted.antt": "decimal_digit",
}


def snake(word):
    word = re.sub(r"([a-z0-9])([A-Z])", r"\1_\2", word)
    word = re.sub(r"([A-Za-z0-9])([ℕℤ])", r"\1_\2", word)
    return word.lower().replace("ℤ".lower(), "ℤ").replace("ℕ".lower(), "ℕ")


def camel(word):
    return "".join(part[0].upper() + part[1:] for part in re.split("[-_]", word))


def files(*kinds):
    return sorted(f for kind in kinds for f in glob.glob(f"crates/*/{kind}/**/*.antt", recursive=True))


def defined_in(paths, goals):
    found = set()
    for path in paths:
        for line in open(path):
            match = DEFINED.match(line)
            if match and not line[match.end() :].strip().startswith("goal."):
                found.add(match.group(1))
    return found - goals


def goals_of():
    """Names that the library gives: what answers are for, and what files import of goals."""
    found = set()
    for path in files("proofs"):
        text = open(path).read()
        found |= set(re.findall(r"^(?:abbrev )?(?:pub )?([^\s:]+) : goal\.", text, re.M))
        for names in re.findall(r"^use \S+\.(?:Goals|Given|TheVariants)(?:\.\S+)?\.\{([^}]*)\}", text, re.M):
            found |= {name.strip() for name in names.split(",")}
    return found


def new_name(old, names):
    if "◌" in old:
        return "◌" + snake(old.strip("◌")) + "◌" if old.startswith("◌") else old
    if old[0].isupper():
        return camel(old) if "-" in old else old
    parts = [snake(part) for part in old.split("-")]
    made = parts[0]
    for before, part in zip(parts, parts[1:]):
        made += ("-" if before in names and part in names else "_") + part
    return made


def table():
    goals = goals_of()
    specs = defined_in(files("specs"), goals)
    own = specs | defined_in(files("proofs"), goals)
    stated = {snake(name) for name in specs if "-" not in name and not name[0].isupper()}
    names = stated | LIBRARY
    made = dict(LEMMAS)
    for old in sorted(own - set(LEMMAS)):
        if old.startswith(("invariant-", "decreases-", "returns-", "overflow", "loop-")):
            continue
        if re.search(r"-requires(-|$)|-preserved$|-init$|-smaller$", old) or old in goals:
            continue
        new = new_name(old, names)
        if new != old:
            made[old] = new
    return made


def turned(text, rows):
    def turn(match):
        word = match.group(0)
        if word not in rows:
            return word
        # behind a dot stands a field, but for the infix form of an operator
        if match.start() and text[match.start() - 1] == ".":
            return word
        return rows[word]

    return TOKEN.sub(turn, text)


def turned_file(path, text, rows):
    taken = TAKEN.get(path)
    if not taken:
        return turned(text, rows)
    made = turned(text, rows | {taken: taken + "_lem"})
    return re.sub(r"(^use Rattle\.std\..*)\b%s_lem\b" % taken, r"\1%s as %s_lem" % (taken, taken), made, flags=re.M)


def names_twice(path, text):
    """Names that a file imports or defines twice."""
    seen = collections.Counter()
    for names in re.findall(r"^(?:ghost )?use \S+\.\{([^}]*)\}", text, re.M):
        for name in names.split(","):
            seen[name.split(" as ")[-1].strip()] += 1
    if path.endswith(".antt"):
        for line in text.splitlines():
            match = DEFINED.match(line)
            if match and line[0] not in " \t":
                seen[match.group(1)] += 1
    return [name for name, count in seen.items() if count > 1]


def main():
    rows = table()
    operators = {old.strip("◌"): new.strip("◌") for old, new in rows.items() if "◌" in old}
    paths = files("specs", "proofs") + sorted(glob.glob("crates/*/src/**/*.rt", recursive=True))
    texts = {path: open(path).read() for path in paths}
    words = collections.Counter(word for text in texts.values() for word in TOKEN.findall(text))
    met = collections.defaultdict(list)
    for old, new in rows.items():
        met[new].append(old)
    together = {new: olds for new, olds in met.items() if len(olds) > 1 or words[new]}
    if "--list" in sys.argv:
        for old, new in rows.items():
            print(f"{old}\t{new}")
        for new, olds in sorted(together.items()):
            print("falls together:", new, olds, words[new])
        for path, text in texts.items():
            before, after = names_twice(path, text), names_twice(path, turned_file(path, text, rows | operators))
            if after != before:
                print("twice in", path, after)
        return
    for path, text in texts.items():
        made = turned_file(path, text, rows | operators)
        if made != text:
            open(path, "w").write(made)


main()
