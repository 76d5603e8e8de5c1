"""Peers that are silent: clients with nothing open, servers that hold dispatches, and whoever begins a frame and doesn't
end it."""
import contextlib
import struct
import threading
import time

from reading import R, T, frame, need
from wire_parts import (
    PROBE, RDRAIN, TDRAIN, Echo, comes_back, is_answered, is_served, nack, rdispatch, reaches, scenario, tdispatch,
    upstream_lost,
)

# Seconds after which the router acts, and within which it has to.
TIME, LATE = 0.3, 0.6
KEYS = {"tick_ms": 10}
IDLE = {**KEYS, "client_idle_ms": 300}
FRAME = {**KEYS, "frame_ms": 300}
HALF = tdispatch(5, b"half")[:-2]
SERVER = {**KEYS, "server_silent_ms": 300}
TPING, RPING = frame(T["ping"], 1), frame(R["ping"], 1)


@contextlib.contextmanager
def in_time(what, since=None):
    """What is done within has to happen after TIME and before LATE, as seen from here."""
    began = since or time.monotonic()
    yield
    took = time.monotonic() - began
    need(TIME - 0.02 <= took <= LATE, f"{what} after {took:.2f} s")


class Beside(threading.Thread):
    """Sends something each tenth of a second, until it is told to stop."""

    def __init__(self, act):
        super().__init__(daemon=True)
        self.act, self.is_over, self.fault = act, threading.Event(), None
        self.start()

    def run(self):
        try:
            while not self.is_over.wait(0.1):
                self.act()
        except Exception as fault:
            self.fault = fault

    def stops(self):
        self.is_over.set()
        self.join()
        if self.fault:
            raise self.fault


def is_served_again(it, client):
    """The next connection to server a serves."""
    again = it.accepted("a")
    it.comes_to("server a", "open load 0")
    is_answered(client, 5, again, 2)


@scenario
def idle_client_is_drained(start):
    """One that answers is closed then, and one that doesn't after as long again."""
    for answers in (True, False):
        with start(**IDLE) as it:
            client = it.client()
            client.fence()
            with in_time("Tdrain"):
                client.gives(TDRAIN)
            if answers:
                began = time.monotonic()
                client.send(RDRAIN)
                client.ends()
                took = time.monotonic() - began
                need(took < TIME - 0.1, f"closed {took:.2f} s after its Rdrain")
            else:
                with in_time("closed"):
                    client.ends()
            it.comes_to("client 1", "closed entries 0")


@scenario
def client_at_work_is_never_idle(start):
    """One whose dispatch is open, though it sends nothing, and one that pings."""
    with start(**IDLE) as it:
        client, other, server = it.client(), it.client(), it.servers["a"]
        other.fence()
        reaches(client, 5, server, 2)
        pings = Beside(other.fence)
        client.is_silent(4 * TIME)
        comes_back(server, 2, client, 5)
        with in_time("Tdrain"):
            client.gives(TDRAIN)
        pings.stops()
        other.fence()


@scenario
def client_that_sent_nothing_is_closed(start):
    """It has no session, so it is told nothing; its place is another's then."""
    with start(clients=1, **IDLE) as it:
        client = it.client()
        with in_time("closed"):
            client.ends()
        other = it.client()
        other.fence()


@scenario
def drained_client_gets_its_reply(start):
    """It was drained for its silence, sent a dispatch before its Rdrain, and reads the reply late."""
    body = bytes(8 << 20)
    with start(max_frame=16_777_216, **IDLE) as it:
        client, server = it.client(), it.servers["a"]
        client.fence()
        client.gives(TDRAIN)
        client.send(tdispatch(5), RDRAIN)
        server.gives(tdispatch(2))
        it.comes_to("client 1", "drained entries 1")
        server.send(rdispatch(2, body))
        it.comes_to("server a", "open load 0")
        time.sleep(0.15)
        client.gives(rdispatch(5, body))
        client.ends()


@scenario
def client_that_works_on_after_its_tdrain(start):
    """It is closed once it has been silent for as long again, with nothing open."""
    with start(**IDLE) as it:
        client, server = it.client(), it.servers["a"]
        client.fence()
        client.gives(TDRAIN)
        Echo(server)
        for _ in range(12):
            time.sleep(0.05)
            is_served(client, 5)
        with in_time("closed"):
            client.ends()


@scenario
def client_drained_by_an_operator_is_closed(start):
    """Once it has been silent for so long."""
    with start(**IDLE) as it:
        client = it.client()
        client.fence()
        it.ask("drain client 1", "ok")
        client.gives(TDRAIN)
        client.send(RDRAIN)
        with in_time("closed"):
            client.ends()


@scenario
def nobody_is_idle_without_the_key(start):
    with start(**KEYS) as it:
        mute, client = it.client(), it.client()
        client.fence()
        client.is_silent(3 * TIME)
        mute.is_silent(0.05)
        mute.fence()
        client.fence()


@scenario
def half_a_frame_of_a_client(start):
    """Its first one, one behind whole ones, a head alone, one byte of a length: it is closed, and others are served."""
    with start(**FRAME) as it:
        Echo(it.servers["a"])
        other = it.client()
        others = Beside(lambda: is_served(other, 9))
        for begun in (frame(T["init"], 1, b"\x00\x01")[:-1], HALF, HALF[:8], b"\0"):
            for is_first in (True, False):
                client = it.client()
                if not is_first:
                    is_served(client, 5)
                client.send(begun)
                with in_time("closed"):
                    client.ends()
        others.stops()
        is_served(other, 9)


@scenario
def half_a_frame_again_and_again(start):
    """Each frame has its own time: one that sends each in two parts goes on."""
    with start(**FRAME) as it:
        Echo(it.servers["a"])
        client = it.client()
        whole = tdispatch(5, b"half")
        client.send(whole[:9])
        for _ in range(8):
            time.sleep(0.1)
            client.send(whole[9:] + whole[:9])
            client.gives(rdispatch(5, b"half"))
        # A byte at a time saves nobody.
        with in_time("closed"):
            drip = Beside(lambda: client.sock.send(b"h"))
            client.sock.settimeout(1)
            with contextlib.suppress(OSError):
                need(client.sock.recv(1) == b"", "the connection ends")
        drip.is_over.set()


@scenario
def half_a_frame_of_a_server(start):
    """It is lost, as any other that ends: its callers are told, and it is connected to again."""
    with start("a b", {"/s/a": ["a"], "/s/b": ["b"]}, reconnect_ms=10, **FRAME) as it:
        client, server = it.client(), it.servers["a"]
        Echo(it.servers["b"])
        client.send(tdispatch(5), tdispatch(6))
        server.gives(tdispatch(2), tdispatch(3))
        server.send(rdispatch(3) + rdispatch(2, b"half")[:-2])
        client.gives(rdispatch(6))
        with in_time("told"):
            client.gives(upstream_lost(5))
        is_served(client, 7, dst=b"/s/b")
        is_served_again(it, client)


@scenario
def half_an_opening_of_a_server(start):
    """A server that hangs in its answer to the probe is lost as well."""
    with start("a:probe", **FRAME) as it:
        server, client = it.servers["a"], it.client()
        server.gives(PROBE)
        server.send(frame(R["err"], 1, b"tinit check")[:-1])
        client.send(tdispatch(5))
        client.gives(nack(5))
        with in_time("lost", time.monotonic()):
            server.ends()


@scenario
def client_that_waits_has_begun_no_frame(start):
    """The router takes no frame of it, since its window is full: it isn't closed for the one that they end in."""
    with start(window=2, **FRAME) as it:
        client, server = it.client(), it.servers["a"]
        client.send(tdispatch(5), tdispatch(6), tdispatch(7), tdispatch(8)[:-1])
        server.gives(tdispatch(2), tdispatch(3))
        client.is_silent(3 * TIME)
        server.send(rdispatch(2), rdispatch(3))
        Echo(server)
        client.gives_all_of(rdispatch(5), rdispatch(6), rdispatch(7, b"hi"))
        client.send(tdispatch(8)[-1:])
        client.gives(rdispatch(8, b"hi"))


@scenario
def silent_server_is_lost(start):
    """It holds a dispatch: it gets a ping at half of the time, and its caller is told at its end. It is connected to again."""
    with start(reconnect_ms=10, **SERVER) as it:
        client, server = it.client(), it.servers["a"]
        began = time.monotonic()
        client.send(tdispatch(5))
        server.gives(tdispatch(2), TPING)
        took = time.monotonic() - began
        need(TIME / 2 - 0.02 <= took <= TIME - 0.02, f"pinged after {took:.2f} s")
        with in_time("told", began):
            client.gives(upstream_lost(5))
        server.ends()
        is_served_again(it, client)


@scenario
def server_that_answers_its_pings_goes_on(start):
    """For as long as a dispatch takes it, and each time it is silent for half of the time."""
    with start(**SERVER) as it:
        client, server = it.client(), it.servers["a"]
        reaches(client, 5, server, 2)
        for _ in range(6):
            server.gives(TPING)
            server.send(RPING)
        comes_back(server, 2, client, 5)
        server.is_silent(2 * TIME)


@scenario
def server_at_work_is_never_silent(start):
    """One that answers another dispatch in that time, and one that holds none."""
    with start("a b", {"/s/a": ["a"], "/s/b": ["b"]}, **SERVER) as it:
        client, other, server = it.client(), it.client(), it.servers["a"]
        reaches(client, 5, server, 2)
        for _ in range(12):
            is_answered(other, 9, server, 3)
            time.sleep(0.05)
        it.servers["b"].is_silent(0.05)
        comes_back(server, 2, client, 5)


@scenario
def no_server_is_pinged_without_the_key(start):
    with start(**KEYS) as it:
        client, server = it.client(), it.servers["a"]
        reaches(client, 5, server, 2)
        server.is_silent(3 * TIME)
        comes_back(server, 2, client, 5)


@scenario
def server_that_answers_no_opening(start):
    """It is as one that can't be connected to."""
    with start("a:probe", reconnect_ms=10, **SERVER) as it:
        for server in (it.servers["a"], None):
            server = server or it.accepted("a")
            with in_time("closed"):
                server.gives(PROBE)
                server.ends()
