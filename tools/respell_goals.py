#!/usr/bin/env python3
"""Brings the names of goals, and of the steps in them, to the spelling that the check asks for, in the proof files of a crate.

usage: tools/respell_goals.py NAME      at the top of the repository

It runs `rt check --generated` in crates/NAME and goes by names that differ in dashes and underscores alone.
"""
import collections
import glob
import json
import os
import re
import subprocess
import sys
import tempfile

TOKEN = re.compile(r"[A-Za-z0-9_'ℕℤ◌⊕+-]+")


def words_in(value, found):
    if isinstance(value, str):
        found.update(TOKEN.findall(value))
    elif isinstance(value, dict):
        for key, part in value.items():
            words_in(key, found)
            words_in(part, found)
    elif isinstance(value, list):
        for part in value:
            words_in(part, found)


def names_of(function):
    """Names that a proof of the function may cite."""
    found = set()
    words_in(function, found)
    clauses = function.get("asked", {})
    for old, new in function.get("needs", []):
        found.update(f"{new}-clause-{clause}" for clause in clauses.get(old, []))
    return found


def respelled(text, names):
    likely = collections.defaultdict(set)
    for name in names:
        likely[name.replace("_", "-")].add(name)

    def turn(match):
        word = match.group(0)
        found = likely.get(word.replace("_", "-"), set())
        return next(iter(found)) if word not in names and "-" in word and len(found) == 1 else word

    return TOKEN.sub(turn, text)


def main():
    crate = sys.argv[1]
    with tempfile.TemporaryDirectory() as made:
        subprocess.run(
            ["rt", "check", "--generated", made, "--old-names", "--allow-holes"],
            cwd=f"crates/{crate}",
            stdout=subprocess.DEVNULL,
            stderr=subprocess.DEVNULL,
        )
        with open(f"{made}/names.json") as file:
            functions = json.load(file)
    for key, function in functions.items():
        match = re.fullmatch(rf"Rattle-{crate}-proofs\.(.*)\.Lts", key)
        if not match:
            continue
        names = names_of(function)
        for path in sorted(glob.glob(f"crates/{crate}/proofs/{match.group(1).replace('.', '/')}/*.antt")):
            text = open(path).read()
            made = respelled(text, names)
            if made != text:
                open(path, "w").write(made)
                print("respelled", path)


main()
