"""A server that fails one dispatch after another is asked last for a time: the keys `eject_after`, `eject_ms`."""
import re
import threading
import time

from operators_parts import Asked
from reading import T, need
from wire_parts import (
    PROBE, TINIT, Echo, Flight, comes_back, fly, nack, rdispatch, rerr, scenario, tdispatch, whole_frames,
)

EJECT = {"eject_after": 3, "eject_ms": 600, "tick_ms": 50}
BROKEN = b"broken"


class Server:
    """A scripted server of one link, which answers each dispatch that is asked of it as it is told."""

    def __init__(self, link):
        self.link = link

    def answers(self, client, tag, how):
        """The client's next dispatch comes here, and its answer gets there."""
        client.send(tdispatch(tag))
        got = self.link.frame()
        need(got[4] == T["dispatch"], f"{self.link.who}: got {got[:40].hex()}")
        at = int.from_bytes(got[5:8], "big")
        self.link.send(how(at))
        client.gives(how(tag))


def fails(tag):
    return rerr(tag, BROKEN)


def serves(tag):
    return rdispatch(tag)


def says_no(tag):
    return nack(tag)


def app_error(tag):
    return rdispatch(tag, b"wrong", status=1)


def ejected(it, name):
    """For how many milliseconds more a server is asked last, as both pages show it."""
    lines = [line for line in it.asks("status full") if line.startswith(f"server {name} ")]
    left = int(re.search(r" lease \S+ ejected ([0-9]+) records ", lines[0])[1])
    flag = it.page()["voltgalley_server_ejected", f'server="{name}"']
    need(left == 0 or flag == 1, f"{name}: ejected {left}, the metric {flag}")
    return left


@scenario
def failing_server_is_asked_last(start):
    """After three failures in a row the other one is asked, for 0.6 s; then it's the first one's turn again. It fails on, and
    is asked last for twice as long; dispatches that it carries out bring that down again."""
    with Asked(start.program, "a b", {"/s/a": ["a", "b"]}, **EJECT) as it:
        client, a, b = it.client(), Server(it.servers["a"]), Server(it.servers["b"])
        for how in (fails, says_no, fails):
            need(ejected(it, "a") == 0, "asked last before it failed three times")
            a.answers(client, 5, how)
        began = time.monotonic()
        b.answers(client, 5, serves)
        need(0 < ejected(it, "a") <= 600 and ejected(it, "b") == 0, f"ejected {ejected(it, 'a')}")
        while time.monotonic() < began + 0.5:
            b.answers(client, 5, serves)
        time.sleep(max(0, began + 0.65 - time.monotonic()))
        need(ejected(it, "a") == 0, "still asked last")
        for _ in range(3):
            a.answers(client, 5, fails)
        b.answers(client, 5, serves)
        need(700 < ejected(it, "a") <= 1_200, f"the second time {ejected(it, 'a')}")
        time.sleep(1.25)
        a.answers(client, 5, serves)
        a.answers(client, 5, serves)
        for _ in range(3):
            a.answers(client, 5, fails)
        b.answers(client, 5, serves)
        need(300 < ejected(it, "a") <= 600, f"after two that were carried out {ejected(it, 'a')}")


@scenario
def one_ok_between_is_enough(start):
    """An Ok between two failures begins the count anew; an application's error neither counts nor begins it anew."""
    with Asked(start.program, "a b", {"/s/a": ["a", "b"]}, **EJECT) as it:
        client, a, b = it.client(), Server(it.servers["a"]), Server(it.servers["b"])
        for how in (fails, fails, serves, says_no, says_no, serves, fails, app_error, fails, app_error):
            a.answers(client, 5, how)
            need(ejected(it, "a") == 0, "asked last though an Ok came between")
        a.answers(client, 5, fails)
        b.answers(client, 5, serves)


@scenario
def an_opening_is_no_failure(start):
    """What a server answers to the probe and to the Tinit answers no dispatch, so it isn't asked last for that."""
    with Asked(start.program, "a:probe b", {"/s/a": ["a", "b"]}, **{**EJECT, "eject_after": 1}) as it:
        client, a, b = it.client(), Server(it.servers["a"]), Server(it.servers["b"])
        a.link.gives(PROBE)
        a.link.send(PROBE)
        a.link.gives(TINIT)
        a.link.send(fails(1))
        it.comes_to("server a", "open")
        a.answers(client, 5, serves)
        need(ejected(it, "a") == 0, "asked last for how it was opened")
        a.answers(client, 5, fails)
        b.answers(client, 5, serves)


@scenario
def last_one_left_is_asked(start):
    """One that is asked last serves where no other does: it is the only one, or the others are asked last too, or are lost."""
    with Asked(start.program, "a b", {"/s/a": ["a", "b"], "/s/b": ["a"]}, **EJECT) as it:
        client, a, b = it.client(), Server(it.servers["a"]), Server(it.servers["b"])
        for _ in range(3):
            a.answers(client, 5, fails)
        client.send(tdispatch(6, dst=b"/s/b"))
        got = a.link.frame()
        comes_back(a.link, int.from_bytes(got[5:8], "big"), client, 6)
        for _ in range(3):
            b.answers(client, 5, fails)
        need(ejected(it, "a") and ejected(it, "b"), "not both are asked last")
        a.answers(client, 5, serves)
        b.link.close()
        it.comes_to("server b", "closed")
        a.answers(client, 5, serves)


@scenario
def without_the_key_all_is_as_before(start):
    """Without `eject_after` no server is asked last."""
    with Asked(start.program, "a b", {"/s/a": ["a", "b"]}, tick_ms=50) as it:
        client, a = it.client(), Server(it.servers["a"])
        for _ in range(50):
            a.answers(client, 5, fails)
        need(ejected(it, "a") == 0, "asked last without the key")


class Hole(threading.Thread):
    """A server that fails each dispatch at once."""

    def __init__(self, link):
        super().__init__(daemon=True)
        self.link, self.count = link, 0
        self.start()

    def run(self):
        try:
            self.link.sock.settimeout(None)
            while True:
                asked = [it for it in whole_frames(self.link.held) if it[4] == T["dispatch"]]
                self.count += len(asked)
                if asked:
                    self.link.sock.sendall(b"".join(rerr(int.from_bytes(it[5:8], "big"), BROKEN) for it in asked))
                got = self.link.sock.recv(1 << 16)
                if not got:
                    return
                self.link.held += got
        except OSError:
            return


class Slow(Echo):
    """A server that takes some milliseconds for what came."""

    def answer(self, raw):
        time.sleep(0.001)
        return super().answer(raw)


@scenario
def no_black_hole(start):
    """A server that fails at once beside a sound one that takes its time: without the key it gets nearly all dispatches, with
    it some few."""
    for keys, is_bound in (({}, False), ({"eject_after": 5, "eject_ms": 60_000}, True)):
        with start("a b", {"/s/a": ["a", "b"]}, tick_ms=50, **keys) as it:
            hole, _ = Hole(it.servers["a"]), Slow(it.servers["b"])
            flights = [Flight(it.client(), 100, 1, number) for number in range(4)]
            need(fly(flights, 20), "not all were answered")
            failed = sum(len(flight.others) for flight in flights)
            need(failed == hole.count, f"{hole.count} were failed, {failed} told")
            need(failed <= 12 if is_bound else failed > 200, f"{failed} of 400 failed with {keys}")
