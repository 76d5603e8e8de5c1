#!/usr/bin/env python3
"""Runs what stands in the manual, each example of docs/REPLAY.md and each row of docs/ROWS.md, and sums up its tables of memory.

    check/manual.py [--table] COMMAND ...

COMMAND is a built mux_replay. --table prints the examples of docs/REPLAY.md as the table that the tests read,
and runs nothing. Exit status 0 where each example and row prints what stands there, a table of the tests has it, and each figure
of memory in docs/CONFIG.md and docs/OPERATING.md is, as far as it is printed, the sum of what CONFIG says of one place."""
import os
import re
import subprocess
import sys

from rows import TOP, read, table, written


def text_of(*path):
    with open(os.path.join(TOP, *path)) as it:
        return it.read()


def manual():
    """Each example: the heading above it with a number, its script, and what it prints."""
    parts = re.split(r"^##+ (.*)$", text_of("docs", "REPLAY.md"), flags=re.MULTILINE)
    for heading, text in zip(["A ping", *parts[1::2]], parts[0::2]):
        examples = re.findall(r"```script\n(.*?)```\n\n```output\n(.*?)```", text, re.DOTALL)
        assert len(examples) == text.count("```script"), f"an example without its output under {heading}"
        for number, (script, output) in enumerate(examples, 1):
            yield f"{heading.replace('`', '')}, {number}", script, output


def examples():
    """Each example, as the tests have it."""
    return [f"== {name}\n{written(script, output)}" for name, script, output in manual()]


def rows():
    """Each row: its name, and its text as it stands there."""
    return re.findall(r"\*\*(.*?)\.\*\*.*?```row\n(.*?)```", text_of("docs", "ROWS.md"), re.DOTALL)


def numbers(cell):
    """The numbers of a cell, as they are printed."""
    return re.findall(r"\d[\d,.]*", cell)


def rows_under(heading, *path):
    """The cells of each row of figures in the first table behind these words."""
    table = text_of(*path).split(heading, 1)[1].split("\n|", 1)[1].split("\n\n", 1)[0]
    return [[cell.strip() for cell in line.strip("| ").split("|")] for line in table.split("\n")[2:]]


def wrong_sizes():
    """Each line of a table of memory whose figure isn't the sum of its places, rounded as it is printed."""
    # of each place in a window, in what is queued and in a history: of a client's session, of a server's, of a seat, of an epoch
    places = [[sum(int(it) for it in numbers(cell)) for cell in row[1:4]] for row in rows_under("## Memory", "docs", "CONFIG.md")[:4]]
    defaults = {key: int(value.replace(",", "")) for key, value in
                re.findall(r"^\| `(window|out|history)` \|.*?\| ([\d,]+) \|", text_of("docs", "CONFIG.md"), re.MULTILINE)}
    claims = [(row[0], [defaults[it] for it in ("window", "out", "history")], [place], row[4])
              for row, place in zip(rows_under("## Memory", "docs", "CONFIG.md"), places)]
    claims += [(f"a window of {row[1]}", [int(it.replace(",", "")) for it in row[1:4]], [places[0], places[2]], row[4])
               for row in rows_under("Sizes by peak load", "docs", "OPERATING.md")]
    for name, sizes, kinds, printed in claims:
        figure, = numbers(printed)
        sum_of = sum(size * one for kind in kinds for size, one in zip(sizes, kind)) / 1e6
        if abs(sum_of - float(figure)) > 0.5 / 10 ** len(figure.partition(".")[2]):
            yield f"memory of {name}: {printed} is printed, {sum_of:.3f} MB is the sum"


def main(command):
    if command[:1] == ["--table"]:
        sys.stdout.write("".join(examples()))
        return 0
    if not command:
        sys.exit(__doc__)
    run = wrong = 0
    for name, script, output in [*manual(), *((name, *read(row)) for name, row in rows())]:
        ran = subprocess.run(command, input=script.encode(), stdout=subprocess.PIPE, timeout=60)
        run += 1
        if (ran.stdout.decode(), ran.returncode) != (output, 2 if "bad line" in output else 0):
            wrong += 1
            print(f"{name}: status {ran.returncode}\n{ran.stdout.decode()}")
    tested = [f"== {name}\n{row}" for it in ("manual_table.rt", "row_table.rt") for name, row in table(it)]
    for wanted in [*examples(), *(row for _, row in rows())]:
        if not any(it.endswith(wanted) for it in tested):
            wrong += 1
            print(f"the tables of the tests lack this:\n{wanted}")
    for fault in wrong_sizes():
        wrong += 1
        print(fault)
    print(f"{run} run, {wrong} wrong")
    return 1 if wrong else 0


if __name__ == "__main__":
    sys.exit(main(sys.argv[1:]))
