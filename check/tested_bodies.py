#!/usr/bin/env python3
"""Tries the wrong bodies that clauses let through, check/test_edits/CRATE/*.edit: tests must refuse each.

    check/tested_bodies.py [--only WORD] [CRATE ..]

An edit's first line names the crates whose tests refuse it; the rest is as in check/edits. Each is tried on a copy, which
is compiled without the proof: 2 to 4 minutes each. With --only those are tried whose names have WORD in them.
Exit status 0 if every one is refused."""
import glob
import os
import re
import shutil
import subprocess
import sys
import tempfile

TOP = os.path.join(os.path.dirname(os.path.abspath(__file__)), "..")
EDITS = os.path.join(TOP, "check", "test_edits")


def read(path):
    """The crates of tests, and for each change its file, the text that goes and the one that comes."""
    tests, changes, name, old = [], [], None, None
    with open(path) as it:
        for line in it:
            word, text = line.rstrip("\n").split(": ", 1)
            if word == "tests":
                tests = text.split()
            elif word == "file":
                name = text
            elif word == "old":
                old = text
            else:
                changes.append((name, old, text))
    return tests, changes


def apply(changes, crate):
    for name, old, new in changes:
        path = os.path.join(crate, name)
        with open(path) as it:
            text = it.read()
        assert text.count(old) == 1, f"{name} has {text.count(old)} times: {old}"
        with open(path, "w") as it:
            it.write(text.replace(old, new))


def tried(tests, work):
    """What the tests of these crates come to, and the last lines that they say it with."""
    said = ""
    for name in tests:
        folder = os.path.join(work, "crates", name)
        ran = subprocess.run(["rt", "try", "--test"], cwd=folder, stdout=subprocess.PIPE, stderr=subprocess.STDOUT)
        said = ran.stdout.decode(errors="replace")
        failed = re.findall(r"^test (\S+) \.\.\. FAILED", said, re.MULTILINE)
        if failed:
            return "refused", f"{name}: {', '.join(failed)}"
        if ran.returncode != 0 and "run=ended" not in said:
            return "not compiled, or it doesn't end", said
    return "passes", said


def main(arguments):
    word = ""
    if arguments[:1] == ["--only"]:
        word, arguments = arguments[1], arguments[2:]
    wrong = 0
    for crate in arguments or sorted(os.listdir(EDITS)):
        for path in sorted(glob.glob(os.path.join(EDITS, crate, f"*{word}*.edit"))):
            tests, changes = read(path)
            with tempfile.TemporaryDirectory() as work:
                shutil.copy(os.path.join(TOP, "crates.txt"), work)
                shutil.copy(os.path.join(TOP, "HANDLES"), work)
                shutil.copytree(
                    os.path.join(TOP, "crates"), os.path.join(work, "crates"), ignore=shutil.ignore_patterns("out")
                )
                apply(changes, os.path.join(work, "crates", crate))
                result, said = tried(tests, work)
            print(f"{crate}/{os.path.basename(path)}: {result}: {said[-2000:]}", flush=True)
            wrong += result != "refused"
    sys.exit(1 if wrong else 0)


if __name__ == "__main__":
    main(sys.argv[1:])
