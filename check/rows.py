"""The notation of docs/ROWS.md, in which the tables of crates/tests_replay are written: a script in which `;` stands
between lines, `gives`, and what it prints, with ` / ` between lines. A line may say how often it stands, as `(3 times)`,
and its last word may be the short name of a frame."""
import os
import re
import textwrap

TOP = os.path.dirname(os.path.dirname(os.path.abspath(__file__)))
TABLES = os.path.join(TOP, "crates", "tests_replay", "src", "scripts")
SHORT = {
    "T": "00000010020000{:02x}000000042f732f6100006869",
    "R": "00000009fe0000{:02x}000000796f",
    "N": "00000007fe0000{:02x}020000",
    "X": "00000008420000000000{:02x}78",
    "L": "0000000d43000000000000000000002710",
    "P": "0000000441000001",
    "Q": "00000004bf000001",
}
NAMES = {frame.format(tag): name + str(tag) * ("{" in frame) for name, frame in SHORT.items() for tag in range(256)}
FRAMES = {name: frame for frame, name in NAMES.items()}


def with_last(line, words):
    """A line whose last word may have another spelling."""
    front, space, last = line.rpartition(" ")
    return front + space + words.get(last, last)


def lines_of(text, mark):
    """The lines that stand in a part of a row, each with its frame in full."""
    for part in " ".join(text.split("\n")).split(mark) if text.strip() else ():
        often = re.fullmatch(r"(.*) \((\d+) times\)", part.strip())
        line, count = (often[1], int(often[2])) if often else (part.strip(), 1)
        yield from [with_last(line, FRAMES) + "\n"] * count


def read(row):
    """The script of a row, and what it prints."""
    script, output = row.split("gives\n")
    return "".join(lines_of(script, ";")), "".join(lines_of(output, " /"))


def part(text, mark):
    """The lines of a text as a part of a row."""
    lines = [with_last(line, NAMES) for line in text.splitlines()]
    starts = [k for k, line in enumerate(lines) if lines[k - 1 : k] != [line]]
    counts = [end - start for start, end in zip(starts, [*starts[1:], len(lines)])]
    return mark.join(lines[k] + f" ({count} times)" * (count > 1) for k, count in zip(starts, counts))


def written(script, output):
    """The row of a script and of what it prints."""
    wrap = lambda text: "".join(f"{it}\n" for it in textwrap.wrap(text, 112, break_long_words=False, break_on_hyphens=False))
    return wrap(part(script, "; ") + " gives") + wrap(part(output, " / "))


def table(name):
    """Each row of a table, as it stands there: its name and its text."""
    with open(os.path.join(TABLES, name)) as it:
        for row in it.read().rpartition('"')[0].split("\n== ")[1:]:
            name, text = row.split("\n", 1)
            yield name, text.rstrip("\n") + "\n"
