#!/usr/bin/env python3
"""Runs a program with each of its allocations refused in turn. The program does again what found no memory, and its
output has to be the same.

    check/allocation_sweep.py COMMAND ...

COMMAND is a program that takes its memory by malloc and realloc of the C library: crates/sweeps/out/sweeps, which plays
its rows at the line `rows` that it is given, or the built tests of a crate and the name of one, as
crates/tests_hub/out/tests_hub_tests rows::hub_sweep. It wants cc. Exit status 0 where every output is the same."""
import contextlib
import os
import subprocess
import sys
import tempfile

HERE = os.path.dirname(os.path.abspath(__file__))
ROWS = b"rows\n"


@contextlib.contextmanager
def refusals():
    """A function that runs a command with the allocation of this number refused, 0 for none."""
    with tempfile.TemporaryDirectory() as folder:
        library = os.path.join(folder, "refuse.so")
        subprocess.run(["cc", "-O2", "-shared", "-fPIC", "-o", library, os.path.join(HERE, "refuse.c")], check=True)

        def run(command, refused, **how):
            said = {**os.environ, "LD_PRELOAD": library, "REFUSE": str(refused), "TELL": "1"}
            return subprocess.run(command, capture_output=True, env=said, timeout=60, **how)

        yield run


def main(command):
    if not command:
        sys.exit(__doc__)
    with refusals() as run:
        whole = run(command, 0, input=ROWS, check=True).stdout
        for refused in range(1, 10_001):
            ran = run(command, refused, input=ROWS)
            assert (ran.returncode, ran.stdout) == (0, whole), f"allocation {refused}: status {ran.returncode}"
            if ran.stderr.endswith(b"fewer allocations\n"):
                break
    print(f"each of {refused - 1} allocations was refused in turn: the output is the same")


if __name__ == "__main__":
    main(sys.argv[1:])
