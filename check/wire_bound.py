"""Histories that are as small as CONFIG says that they may be, and smaller ones. At 4 x window x (2 + retries) no session is
lost for want of places, and at 16 x window nothing is nacked for it. And limits that servers' sessions have alone."""
import os
import random
import re
import select
import signal
import time

from operators_parts import Asked
from reading import R, T, frame, need
from wire_parts import (
    PATIENCE, Echo, Flight, client_gone, comes_back, fly, fly_to_the_end, is_served, nack, no_route, rdiscarded,
    rdispatch, scenario, tdiscarded, tdispatch, tlease, upstream_lost,
)

AUDITS = ("close", "rolling")
# History, window and retries at the bound of sessions, or just above it.
AT_THE_BOUND = ((16, 1, 1), (20, 1, 3), (64, 8, 0), (160, 8, 3), (1_024, 85, 1), (1_024, 64, 2))


def bound(history, window, retries):
    """The keys. Of one thread, so that what comes at once is handed in at once."""
    need(history >= 4 * window * (2 + retries), "it's below the bound")
    return {"history": history, "window": window, "retries": retries, "out": 4 * window + 64, "threads": 1}


def bursts(client, sizes, answer, dst=b"/s/a"):
    """Each burst comes in one write, and is answered whole."""
    for size in sizes:
        client.send(*(tdispatch(10 + k, b"x", dst) for k in range(size)))
        client.gives(*(answer(10 + k) for k in range(size)))


@scenario
def burst_at_the_bound(start):
    """Dispatches without a route, one by one and then many at once: each is answered, wherever the epoch stands."""
    for keys in AT_THE_BOUND:
        for audit in AUDITS:
            with start(audit=audit, **bound(*keys)) as it:
                client, window = it.client(), keys[1]
                bursts(client, (1,) * (keys[0] // 3), no_route, b"/none")
                for burst in range(max(1, window - 30), window + 1):
                    bursts(client, [1] * (burst % 7) + [burst], no_route, b"/none")
                client.fence()


@scenario
def nacks_at_the_bound(start):
    """The only server is lost, and a client goes on sending bursts."""
    one = random.Random(1)
    for keys in (*AT_THE_BOUND, (2_048, 102, 3), (2_048, 64, 1), (8_192, 1_024, 0)):
        with start(audit="rolling", **bound(*keys)) as it:
            it.servers["a"].close()
            it.comes_to("server a", "closed")
            bursts(it.client(), (one.randint(1, min(keys[1], 64)) for _ in range(200)), nack)


def records_of_server(it):
    return int(re.search(r"^server .* records ([0-9]+) ", "\n".join(it.asks("status full")), re.MULTILINE)[1])


@scenario
def server_burst_at_the_bound(start):
    """A server's pings, up to where its session has just more than a quarter of its places; then, while the router is stopped
    for a moment, dispatches for it and more pings. Each ping is answered, and each dispatch sent or nacked."""
    history, window = 64, 8
    for audit in AUDITS:
        with Asked(start.program, audit=audit, tick_ms=4_000, **bound(history, window, 0)) as it:
            server, client = it.servers["a"], it.client()
            client.fence()
            while history - 1 - records_of_server(it) > history // 4 + 1:
                server.fence()
            os.kill(it.program.ran.pid, signal.SIGSTOP)
            client.send(*(tdispatch(10 + k, b"%d" % k) for k in range(window)))
            server.send(*[frame(T["ping"], 9)] * 8)
            os.kill(it.program.ran.pid, signal.SIGCONT)
            pongs, sent = 0, []
            while pongs < 8:
                got = server.frame()
                pongs += got == frame(R["ping"], 9)
                sent += [got[5:8]] * (got[4] == T["dispatch"])
            server.fence()
            server.send(*(frame(R["dispatch"], int.from_bytes(tag, "big"), b"\x00\x00\x00yo") for tag in sent))
            answers = [client.frame() for _ in range(window)]
            need(sum(it[8:] == rdispatch(1)[8:] for it in answers) == len(sent), f"{len(sent)} were sent: {answers}")
            need({it[5:8] for it in answers} == {(10 + k).to_bytes(3, "big") for k in range(window)}, "doubled answers")
            client.fence()


class Chatty(Echo):
    """A server that sends pings, strays and leases beside its replies: each needs a place."""

    def answer(self, raw):
        out = super().answer(raw)
        if raw[4] != T["dispatch"]:
            return out
        return frame(T["ping"], 9) * (self.count % 4) + rdispatch(5_000_000) + tlease(60_000) + out


@scenario
def chatty_server_at_the_bound(start):
    """On several threads. It is never lost; a dispatch may be nacked."""
    for window, audit in ((2, "close"), (8, "rolling"), (16, "close")):
        with start(audit=audit, **{**bound(8 * window, window, 0), "threads": 4}) as it:
            Chatty(it.servers["a"])
            flights = [Flight(it.client(), 500, 1, number) for number in range(window)]
            need(fly(flights, 15), "a dispatch got no answer")
            need(not any(flight.is_ended or flight.others for flight in flights), "a session was lost")
            it.comes_to("server a", "open load 0")


@scenario
def nothing_is_nacked_at_sixteen_windows(start):
    """As many dispatches in flight as the server's window takes, over very many of its epochs."""
    for window, retries, threads in ((16, 0, 1), (16, 0, 3), (64, 1, 3)):
        keys = {**bound(max(16, 4 * (2 + retries)) * window, window, retries), "threads": threads}
        for audit in AUDITS:
            with start(audit=audit, **keys) as it:
                Echo(it.servers["a"])
                fly_to_the_end([Flight(it.client(), 1_000, window // 4, number) for number in range(4)], 20)


@scenario
def hung_dispatch_outlives_epochs(start):
    """Epochs of its client's session and of its server's end while it is open. It can be discarded, and a late answer comes."""
    with start(history=256, window=16, out=64, tick_ms=60_000) as it:
        echo = Echo(it.servers["a"], keeps=b"hung")
        client = it.client()
        client.send(tdispatch(2_000, b"hung 1"), tdispatch(2_001, b"hung 2"))
        fly_to_the_end([Flight(client, 1_000, 4, 1), Flight(it.client(), 1_000, 4, 2)], 20)
        it.comes_to("client 1", "open entries 2")
        client.send(tdiscarded(2_000))
        client.gives(rdiscarded(2_000))
        echo.lets_go()
        client.gives(rdispatch(2_001, b"hung 2"))
        it.comes_to("server a", "open load 0")


# So many open dispatches keep more than half of a history of 256, in a client's session and in a server's.
MANY = 43


@scenario
def client_that_holds_too_much(start):
    """Below the bound: its epoch can't end. It is served while there are places, and then its connection ends, without a
    Tdrain. Others go on."""
    with start("a b", {"/s/a": ["a"], "/s/b": ["b"]}, history=256, tick_ms=50) as it:
        hung, client, other = it.servers["a"], it.client(), it.client()
        Echo(it.servers["b"])
        client.send(*(tdispatch(tag, b"hung") for tag in range(2_000, 2_000 + MANY)))
        hung.gives_all_of(*(tdispatch(tag, b"hung") for tag in range(2, 2 + MANY)))
        served = 0
        client.send(tdispatch(5, dst=b"/s/b"))
        while (got := client.next_frame()) is not None:
            need(got == rdispatch(5, b"hi"), f"{client.who}: got {got[:60].hex()} after {served} replies")
            served += 1
            need(served < 256, "it has places for ever")
            client.send(tdispatch(5, dst=b"/s/b"))
        need(served > 10, f"it was served {served} times")
        hung.gives_all_of(*(client_gone(tag) for tag in range(2, 2 + MANY)))
        fly_to_the_end([Flight(other, 500, 4, dst=b"/s/b")], 8)


def server_holds_too_much(it):
    """Three clients whose dispatches together keep more than half of the server's history, and one that is served until it has
    no place left. Then it is nacked. The server's tags of those that hang, with the clients, and the last client."""
    server, hung = it.servers["a"], [it.client() for _ in range(3)]
    for client in hung:
        client.send(*(tdispatch(tag, b"hung") for tag in range(10, 25)))
    tags = [int.from_bytes(server.frame()[5:8], "big") for _ in range(45)]
    last, served = it.client(), 0
    while True:
        need(served < 256, "it has places for ever")
        last.send(tdispatch(5))
        if last.sock in select.select([server.sock, last.sock], [], [], PATIENCE)[0]:
            break
        server.gives(tdispatch(47))
        comes_back(server, 47, last, 5)
        served += 1
    last.gives(nack(5))
    need(served > 10, f"it was served {served} times")
    return tags, hung, last


@scenario
def server_that_holds_too_much(start):
    """Below the bound: once its places are used up it is sent nothing more. With replies to what hangs it goes on."""
    with start(history=256, tick_ms=60_000) as it:
        server = it.servers["a"]
        tags, hung, last = server_holds_too_much(it)
        server.send(*(rdispatch(tag) for tag in tags))
        for client in hung:
            client.gives_all_of(*(rdispatch(tag) for tag in range(10, 25)))
        Echo(server)
        fly_to_the_end([Flight(last, 500, 4)], 8)


@scenario
def server_that_holds_too_much_is_lost(start):
    """The same, and what it sends needs a place. With the key `reconnect_ms` it's back in no time."""
    with start(history=256, tick_ms=1_000, reconnect_ms=50) as it:
        server = it.servers["a"]
        _, hung, last = server_holds_too_much(it)
        server.send(*[frame(T["ping"], 9)] * 3)
        for client in hung:
            client.gives_all_of(*(upstream_lost(tag) for tag in range(10, 25)))
        server.drains_to_the_end()
        Echo(it.accepted("a"))
        it.comes_to("server a", "open load 0")
        is_served(last, 6)


def until_so_many_are_answered(links, count):
    """How many of these connections have an answer, once so many do, or after a while."""
    by_socket, till = [link.sock for link in links], time.monotonic() + PATIENCE
    answered = 0
    while answered < count and time.monotonic() < till:
        answered = len(select.select(by_socket, [], [], 0.05)[0])
        time.sleep(0.02)
    return answered


@scenario
def window_of_a_server(start):
    """A dispatch of each of 256 clients, which one server keeps for a while. What its session doesn't hold is nacked: none
    with a window of its own, else all but `window`."""
    for keys, held in (({"server_window": 512}, 256), ({}, 16)):
        with start(window=16, clients=256, **keys) as it:
            server, links = it.servers["a"], [it.client() for _ in range(256)]
            for link in links:
                link.send(tdispatch(10))
            tags = [int.from_bytes(server.frame()[5:8], "big") for _ in range(held)]
            it.comes_to("server a", f"open load {held}")
            nacked = until_so_many_are_answered(links, len(links) - held)
            need(nacked == len(links) - held, f"{nacked} were answered before the server did")
            server.send(*map(rdispatch, tags))
            got = [link.frame() for link in links]
            need(got.count(rdispatch(10)) == held, f"{held} were sent, {got.count(nack(10))} of {len(links)} were nacked")
            need(got.count(nack(10)) == len(links) - held, "another answer")


@scenario
def histories_of_each_side(start):
    """A server's history of its own: both sides go on from epoch to epoch."""
    for history, server_history in ((64, 1_024), (1_024, 64)):
        for audit in AUDITS:
            keys = {"history": history, "server_history": server_history, "window": 4, "server_window": 8}
            with Asked(start.program, audit=audit, tick_ms=4_000, **keys) as it:
                Echo(it.servers["a"])
                fly_to_the_end([Flight(it.client(), 1_000, 1, number) for number in range(2)], 10)
                lines = it.asks("status full")
                need(any(line.startswith("client 1 ") and f" of {history} " in line for line in lines), f"{lines}")
                need(any(line.startswith("server a ") and f" of {server_history} " in line for line in lines), f"{lines}")
