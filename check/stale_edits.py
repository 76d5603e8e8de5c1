#!/usr/bin/env python3
"""Reads every wrong body, check/edits, check/test_edits and crates/*/must-fail, and reports those that don't fit any more.

    check/stale_edits.py

An edit fits if each text that it takes away stands once in its file, and each name with a capital that its new text has is
known there: it stands in the file itself, or comes by a path of the new text from a crate that has it. Nothing is compiled
and nothing proved: it takes a second, where the wrong bodies themselves take hours.
Exit status 0 if all fit."""
import glob
import os
import re
import sys

TOP = os.path.join(os.path.dirname(os.path.abspath(__file__)), "..")
# What every file knows.
PRELUDE = set("""Option Some None Result Ok Err Vec String Box Self Drop Copy Clone Debug Default From Into Fn FnMut FnOnce
    Iterator IntoIterator Send Sync Sized PartialEq Eq PartialOrd Ord Rattle""".split())
CAPITAL = re.compile(r"(?<!\w)([A-Z]\w*)")
# A name behind a path, and the crate that the path begins with: `Rattle.CRATE.specs...{A, B}`, `CRATE::A`.
CLAUSE_PATH = re.compile(r"\bRattle\.(\w+)\.[\w.]*?\{([^}]*)\}")
CODE_PATH = re.compile(r"(?<![\w:])([a-z]\w*)::(?:[a-z]\w*::)*(?:\{([^}]*)\}|([A-Z]\w*))")
# A name that the new text itself makes.
MADE = re.compile(r"\b(?:struct|enum|trait|type|const)\s+([A-Z]\w*)|[<,]\s*([A-Z]\w*)\s*:")


def read(path):
    with open(path, encoding="utf-8") as it:
        return it.read()


def names(text):
    """The names with a capital, outside comments and texts."""
    text = re.sub(r"//.*", "", text)
    text = re.sub(r'"(?:[^"\\]|\\.)*"', '""', text)
    return set(CAPITAL.findall(text)), text


def names_of_crates():
    """The names in each crate of this repository."""
    known = {}
    for crate in os.listdir(os.path.join(TOP, "crates")):
        folder = os.path.join(TOP, "crates", crate)
        known[crate] = set()
        for path in glob.glob(f"{folder}/src/**/*.rt", recursive=True) + glob.glob(f"{folder}/specs/**/*.antt", recursive=True):
            known[crate] |= names(read(path))[0]
    return known


def brought(text, crates):
    """The names that a path of this text brings. Of the kit's crates nothing is known here: they have what is asked for."""
    found = set()
    for crate, listed in CLAUSE_PATH.findall(text):
        found |= {name for name in CAPITAL.findall(listed) if name in crates.get(crate, {name})}
    for crate, listed, one in CODE_PATH.findall(text):
        found |= {name for name in CAPITAL.findall(listed + one) if name in crates.get(crate, {name})}
    return found


def unknown(new, file, crates):
    """The names of the new text that the file doesn't know."""
    words, new = names(new)
    made = {name for pair in MADE.findall(new) for name in pair if name}
    left = words - names(file)[0] - PRELUDE - brought(new, crates) - made
    everywhere = set().union(*crates.values())
    # A part of what is known, as a variant or a field, stands behind it.
    parts = set(re.findall(r"(?<=\w)(?:::|\.)([A-Z]\w*)", new))
    return {name for name in left if not (name in parts and (name in everywhere or name.isupper()))}


def faults(path, folder, crates):
    """What is wrong with an edit of the crate in this folder."""
    texts, name, old, found = {}, None, None, []
    for line in read(path).splitlines():
        word, _, text = line.partition(": ")
        if word == "file":
            name = os.path.join(folder, text)
        elif word == "old":
            old = text
        elif word == "new":
            if not os.path.isfile(name):
                return [f"there is no file {os.path.relpath(name, folder)}"]
            before = texts.get(name) or read(name)
            if text == old:
                found.append(f"changes nothing: {old}")
            if before.count(old) != 1:
                found.append(f"stands {before.count(old)} times: {old}")
            found += [f"unknown: {it}" for it in sorted(unknown(text, before, crates))]
            texts[name] = before.replace(old, text)
        elif word != "tests":
            found.append(f"no line that is read: {line}")
    return found


def main():
    crates = names_of_crates()
    paths = [path for kind in ("edits", "test_edits") for path in glob.glob(f"{TOP}/check/{kind}/*/*.edit")]
    paths += glob.glob(f"{TOP}/crates/*/must-fail/*.edit")
    stale = 0
    for path in sorted(paths):
        where = os.path.relpath(path, TOP).split(os.sep)
        crate = where[1] if where[0] == "crates" else where[2]
        found = faults(path, os.path.join(TOP, "crates", crate), crates)
        for fault in found:
            print(f"{os.path.relpath(path, TOP)}: {fault}")
        stale += bool(found)
    print(f"{len(paths)} wrong bodies, {stale} don't fit")
    sys.exit(1 if stale else 0)


if __name__ == "__main__":
    main()
