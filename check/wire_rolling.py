"""Histories that are looked at and thrown away while dispatches pass: `audit = "rolling"`."""
import re
import threading
import time

from operators_parts import Asked, counted, grown
from reading import Fault, need
from wire_parts import (
    PATIENCE, Echo, Flight, client_gone, fly_to_the_end, is_answered, rdiscarded, rdispatch, reaches, scenario,
    tdispatch,
)
from wire_random import random_run


class Watch(threading.Thread):
    """Asks for the figures while dispatches pass. No counter falls."""

    def __init__(self, rig):
        super().__init__(daemon=True)
        self.rig, self.found, self.pages, self.fault = rig, None, 0, None
        self.stopped = threading.Event()
        self.start()

    def run(self):
        try:
            while not self.stopped.wait(0.05):
                self.found = grown(self.rig, self.found)
                self.pages += 1
        except Fault as fault:
            self.fault = fault

    def ends(self):
        self.stopped.set()
        self.join(PATIENCE)
        need(self.fault is None, f"while dispatches passed: {self.fault}")
        need(self.pages > 0, "nobody asked while dispatches passed")


def rolling(start, *words, **keys):
    """A router with histories as short as they may be without nacks, and a port for figures."""
    return Asked(start.program, *words, **{"audit": "rolling", "history": 256, "window": 16, "out": 32, **keys})


def epochs(it):
    """How many epochs of each session have ended."""
    found = [re.search(" epoch ([0-9]+) ", line) for line in it.asks("status full")]
    return [int(number[1]) for number in found if number]


def over_many_epochs(start, clients=4, each=1_500, **keys):
    with rolling(start, "a b", **keys) as it:
        for server in it.servers.values():
            Echo(server)
        watch = Watch(it)
        fly_to_the_end([Flight(it.client(), each, 16 // clients, number) for number in range(clients)], 20)
        watch.ends()
        total = clients * each
        counted(grown(it, watch.found), dispatches_total=total, server_sendings_total=total, server_replies_total=total,
                replies_total=total, nacks_total=0, client_read_frames_total=total, client_written_frames_total=total)
        ended = epochs(it)
        need(len(ended) == clients + 2 and min(ended) >= 10, f"so many epochs ended: {ended}")


@scenario
def rolling_over_many_epochs(start):
    """Every reply is right, the figures count what was given up too, and the end judges all of it."""
    over_many_epochs(start)


@scenario
def rolling_on_threads(start):
    over_many_epochs(start, clients=8, each=800, threads=4)


@scenario
def rolling_with_a_dispatch_that_hangs(start):
    """Its session goes on, epoch after epoch. One is answered at last, in another epoch; one never is."""
    with rolling(start, tick_ms=100) as it:
        echo = Echo(it.servers["a"], keeps=b"keep")
        client = it.client()
        client.send(tdispatch(100, b"keep 1"), tdispatch(101, b"keep 2"))
        fly_to_the_end([Flight(client, 2_000, 4, 1)], 15)
        ended = epochs(it)
        need(len(ended) == 2 and min(ended) >= 10, f"so many epochs ended: {ended}")
        echo.lets_go()
        client.gives(rdispatch(101, b"keep 2"))
        client.fence()


def leave(it, begins):
    """The sessions of clients that have left are taken out: no line of the report begins so any more."""
    until = time.monotonic() + PATIENCE
    while it.rows(begins):
        need(time.monotonic() < until, f"{begins} {it.rows(begins)} is still there")
        time.sleep(0.01)


@scenario
def rolling_sessions_that_end(start):
    """Clients that come and go, every second one with a dispatch that is discarded. Each leaves room for the next."""
    with rolling(start, window=8, out=16, history=128, sessions=2, tick_ms=50) as it:
        Echo(it.servers["a"], keeps=b"keep")
        watch = Watch(it)
        for number in range(60):
            client = it.client()
            fly_to_the_end([Flight(client, 40, 4, number)], PATIENCE)
            if number % 2:
                client.send(tdispatch(9, b"keep"))
                client.fence()
            (client.close, client.cut)[number % 3 == 0]()
            it.links.remove(client)
            leave(it, f"client {1 + 2 * number}")
        watch.ends()
        counted(grown(it, watch.found), dispatches_total=60 * 40 + 30, replies_total=60 * 40, nacks_total=0)


@scenario
def rolling_slots_are_used_again(start):
    """More clients come than there are sessions, beside one that stays. Each gets its own replies, and a number of its own."""
    with rolling(start, sessions=3, history=128, window=8, out=16) as it:
        Echo(it.servers["a"])
        stays = it.client()
        stays.fence()
        for turn in range(40):
            client = it.client()
            fly_to_the_end([Flight(client, 30, 4, turn), Flight(stays, 3, 1, 1_000 + turn)], PATIENCE)
            number = 2 + 3 * turn
            it.comes_to(f"client {number}", "open entries 0")
            (client.close, client.cut)[turn % 3 == 0]()
            it.links.remove(client)
            leave(it, f"client {number}")
        it.comes_to("client 1", "open entries 0")
        counted(grown(it, None), dispatches_total=40 * 33, replies_total=40 * 33, nacks_total=0)


@scenario
def rolling_slot_waits_for_its_server(start):
    """The session of a client that has left is another's only once its dispatch came back from the server."""
    with rolling(start, sessions=2, tick_ms=50) as it:
        server = it.servers["a"]
        first = it.client()
        first.fence()
        second = it.client()
        reaches(first, 5, server, 2)
        second.fence()
        first.close()
        server.gives(client_gone(2))
        it.comes_to("client 1", "closed entries 1")
        it.client().ends()
        server.send(rdiscarded(2))
        leave(it, "client 1")
        third = it.client()
        is_answered(third, 5, server, 2)
        it.comes_to("client 3", "open entries 0")
        second.is_silent()


@scenario
def rolling_slot_is_free_between_ticks(start):
    """A client that comes has the session of one that has left once nothing of it is under way, without a tick."""
    with rolling(start, sessions=2, tick_ms=60_000) as it:
        server = it.servers["a"]
        first = it.client()
        first.fence()
        second = it.client()
        reaches(first, 5, server, 2)
        second.fence()
        first.close()
        server.gives(client_gone(2))
        server.send(rdiscarded(2))
        it.comes_to("client 1", "closed entries 0")
        third = it.client()
        is_answered(third, 5, server, 2)
        it.comes_to("client 3", "open entries 0")
        second.is_silent()


@scenario
def rolling_random_traffic(start):
    """Losses, drains, discards, nacks that are sent again, retirements and orders over short histories."""
    random_run(start, 5, seconds=2, retries=2, window=8, out=16, history=128, tick_ms=50, audit="rolling")
