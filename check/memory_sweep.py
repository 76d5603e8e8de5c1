#!/usr/bin/env python3
"""Runs the worked rows of mux_replay with each of their allocations refused in turn.

    check/memory_sweep.py COMMAND ...

COMMAND is a built mux_replay, which takes its memory by malloc and realloc of the C library; it wants cc. Each
output has to be the first lines of the whole output, then `memory`, with status 3. Exit status 0 where it is."""
import sys

from allocation_sweep import refusals
from rows import read, table


def sweep(run, command, script):
    """How many allocations there were."""
    whole = run(command, 0, input=script.encode(), check=True).stdout.decode()
    refused = 1
    while True:
        ran = run(command, refused, input=script.encode())
        status, out = ran.returncode, ran.stdout.decode()
        if (status, out) == (0, whole):
            return refused - 1
        lines = out.splitlines(keepends=True)
        good = status == 3 and lines[-1:] == ["memory\n"] and whole.startswith("".join(lines[:-1]))
        assert good, f"allocation {refused}: status {status}\n{out}"
        refused += 1


def main(command):
    if not command:
        sys.exit(__doc__)
    counts = []
    with refusals() as run:
        for row, text in table("row_table.rt"):
            counts.append(sweep(run, command, read(text)[0]))
            print(f"{row}: each of {counts[-1]} allocations was refused in turn")
    print(f"{len(counts)} rows, {sum(counts)} refusals: all as it should be")


if __name__ == "__main__":
    sys.exit(main(sys.argv[1:]))
