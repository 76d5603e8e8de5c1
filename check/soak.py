#!/usr/bin/env python3
"""Lets a built router run for a while, as it would for weeks: histories are looked at and thrown away, servers are ended and
started again every other second, and clients come and leave.

    check/soak.py COMMAND [MINUTES [THREADS]]

COMMAND is a built mux_router; one minute and one thread if they aren't given. Four clients stay, two at a time leave, more of
them than there are sessions. Prints a line every ten seconds. Exit status 0 if each dispatch was answered once, by its
server's reply, a nack, or `upstream lost` while a server was ended, no connection of a client ended or was drained, memory
stayed flat, and the router closed ok."""
import os
import random
import sys
import time

sys.dont_write_bytecode = True

from reading import Fault, need  # noqa: E402
from wire_mend import comes, goes  # noqa: E402
from wire_parts import PATIENCE, Echoes, Flight, Start, fly, tdispatch  # noqa: E402

KEYS = {"audit": "rolling", "history": 4_096, "window": 512, "out": 1_024, "reconnect_ms": 100, "tick_ms": 100, "sessions": 16,
        "clients": 64}
STAYING, ALL = 4, 6
FOR_EVER = 1 << 60
# In seconds: between two changes of a server, and between two lines.
PAUSE, LINES = 1.0, 10
# Above what it held in the first half, in MiB.
MORE = 4


class Figures:
    """What the clients saw, and how much memory there was."""

    def __init__(self):
        self.replies = self.nacks = self.lost = self.clients = 0
        # Of the first half of the time, and of the second.
        self.greatest = [0, 0]

    def take(self, flight):
        """A client that has sent all that it will."""
        need(not flight.is_ended and not flight.drains, f"{flight.link.who}: its connection ended, or it was drained")
        texts = {raw[8:] for raw in flight.others}
        need(texts <= {b"upstream lost"}, f"{flight.link.who}: answers of another kind: {texts}")
        self.nacks += flight.nacks
        self.lost += len(flight.others)
        self.replies += flight.answered - flight.nacks - len(flight.others)
        self.clients += 1

    def note(self, resident, is_late):
        self.greatest[is_late] = max(self.greatest[is_late], resident)

    def __str__(self):
        return f"{self.replies} replies, {self.nacks} nacks, {self.lost} lost with a server, {self.clients} clients"


def comes_in(it, number):
    return Flight(it.client(), FOR_EVER, random.choice((1, 8, 64)), number, size=random.choice((0, 100, 2_000)), first_tag=10)


def leaves(flights, figures):
    """These clients send no more, and what they have open is answered."""
    for flight in flights:
        flight.total = flight.sent
    need(fly(flights, PATIENCE), "a dispatch got no answer")
    for flight in flights:
        figures.take(flight)
        flight.link.close()


def hangs(it):
    """A client with a dispatch that is never answered."""
    link = it.client()
    link.send(tdispatch(2, b"hung"))
    return link


def plays(it, seconds, figures):
    began = told = time.monotonic()
    flights, hung, absent, number = [comes_in(it, k) for k in range(ALL)], hangs(it), None, ALL
    while (passed := time.monotonic() - began) < seconds:
        fly(flights, PAUSE)
        if absent:
            comes(it, absent, keeps=b"hung")
            absent = None
        else:
            absent = random.choice("ab")
            goes(it, absent)
        leaves([flights.pop(STAYING)], figures)
        flights.append(comes_in(it, number))
        number += 1
        hung.close()
        hung = hangs(it)
        it.links[:] = [link for link in it.links if link.sock.fileno() >= 0]
        figures.note(it.program.resident(), passed > seconds / 2)
        if time.monotonic() > told + LINES:
            told = time.monotonic()
            print(f"{passed:.0f} s: {figures}, {it.program.resident()} MiB", flush=True)
    if absent:
        comes(it, absent)
    leaves(flights, figures)
    hung.close()


def soaks(command, minutes, threads):
    figures = Figures()
    with Start(command)("a b", threads=threads, **KEYS) as it:
        for name in "ab":
            Echoes(it, name, keeps=b"hung")
        plays(it, 60 * minutes, figures)
        for name in "ab":
            it.comes_to(f"server {name}", "open")
    early, late = figures.greatest
    need(late <= early + MORE, f"memory grew from {early} to {late} MiB")
    print(f"{figures}, {late} MiB; closed ok")


def main(words):
    if not 1 <= len(words) <= 3 or words[0].startswith("-"):
        sys.exit(__doc__)
    minutes, threads = (words[1:] + ["1", "1"][len(words) - 1:])[:2]
    soaks(os.path.abspath(words[0]), float(minutes), int(threads))


if __name__ == "__main__":
    try:
        main(sys.argv[1:])
    except (Fault, OSError) as fault:
        sys.exit(f"soak.py: {fault!r}")
