"""Drains, retiring, leases."""
import time

from reading import R, T, frame
from wire_parts import (
    PROBE, RDRAIN, TDRAIN, comes_back, is_answered, nack, need, rdispatch, reaches, rerr, scenario, tdiscarded,
    tdispatch, tlease, upstream_lost,
)


def is_served(client, server, tag, upstream=2):
    is_answered(client, tag, server, upstream)


def is_nacked(client, tag=9):
    client.send(tdispatch(tag))
    client.gives(nack(tag))


@scenario
def server_drains(start):
    """Rdrain comes back, what is open is answered, what comes later is nacked; nothing opens it again."""
    with start() as it:
        client, server = it.client(), it.servers["a"]
        client.send(tdispatch(5), tdispatch(6))
        server.gives(tdispatch(2), tdispatch(3))
        server.send(TDRAIN)
        server.gives(RDRAIN)
        is_nacked(client)
        it.comes_to("server a", "drained load 2")
        server.send(frame(T["drain"], 0), frame(T["drain"], 77), tlease(60_000))
        server.gives(frame(R["drain"], 0), frame(R["drain"], 77))
        is_nacked(client)
        client.send(tdiscarded(6))
        server.gives(tdiscarded(3))
        server.send(rdispatch(2), rdispatch(3))
        client.gives_all_of(rdispatch(5), frame(R["discarded"], 6))
        server.fence()
        client.fence()
        it.ask("retire a", "ok")
        it.comes_to("server a", "drained load 0")


@scenario
def one_of_two_drains(start):
    """The other one gets all that comes after."""
    with start("a b") as it:
        client, a, b = it.client(), it.servers["a"], it.servers["b"]
        reaches(client, 5, a, 2)
        a.send(frame(T["drain"], 9))
        a.gives(frame(R["drain"], 9))
        client.send(*(tdispatch(tag) for tag in range(10, 20)))
        b.gives(*(tdispatch(tag) for tag in range(2, 12)))
        comes_back(a, 2, client, 5)
        b.send(*(rdispatch(tag) for tag in range(2, 12)))
        client.gives_all_of(*(rdispatch(tag) for tag in range(10, 20)))
        a.close()
        it.comes_to("server a", "closed load 0")
        is_served(client, b, 5, 11)


@scenario
def client_drained(start):
    """Up to its Rdrain dispatches are taken, then they are nacked; what is open is still answered."""
    with start(tick_ms=60_000) as it:
        client, server, operator = it.client(), it.servers["a"], it.operator()
        client.fence()
        operator.ask("drain client 1", "ok")
        client.gives(TDRAIN)
        operator.ask("drain client 1", "error AlreadyDraining")
        client.send(tdispatch(5), tdispatch(6))
        server.gives(tdispatch(2), tdispatch(3))
        need("client 1 draining entries 2" in operator.status()[1], "the client is draining")
        client.send(frame(R["drain"], 2), tdispatch(7))
        server.gives(tdispatch(4))
        client.send(RDRAIN)
        is_nacked(client)
        need("client 1 drained entries 3" in operator.status()[1], "the client is drained")
        operator.ask("drain client 1", "error AlreadyDraining")
        server.fence()
        server.send(rdispatch(2), rdispatch(3), rdispatch(4))
        client.gives(rdispatch(5), rdispatch(6), rdispatch(7))
        is_nacked(client)
        client.fence()
        client.close()
        operator.close()
        it.comes_to("client 1", "closed entries 0")
        it.ask("drain client 1", "error Closed")
        other = it.client()
        is_served(other, server, 5, 4)


@scenario
def retired(start):
    """No message is sent; what comes after goes elsewhere, or is nacked."""
    with start("a b") as it:
        client, a, b = it.client(), it.servers["a"], it.servers["b"]
        reaches(client, 5, a, 2)
        it.ask("retire a", "ok")
        it.comes_to("server a", "retired load 1")
        client.send(tdispatch(6), tdispatch(7))
        b.gives(tdispatch(2), tdispatch(3))
        a.fence()
        it.ask("retire a", "ok")
        it.ask("retire b", "ok")
        is_nacked(client)
        b.send(rdispatch(2), rdispatch(3))
        client.gives(rdispatch(6), rdispatch(7))
        comes_back(a, 2, client, 5)
        b.send(TDRAIN)
        b.gives(RDRAIN)
        it.comes_to("server b", "drained")
        a.close()
        it.comes_to("server a", "closed load 0")
        it.ask("retire a", "error Closed")


@scenario
def retired_while_opening(start):
    """A server that is retired, or drains, before it is open stays so once it is."""
    with start("a:probe b:probe") as it:
        client = it.client()
        for server in it.servers.values():
            server.gives(PROBE)
            server.fence()
        it.ask("retire a", "ok")
        it.servers["b"].send(TDRAIN)
        it.servers["b"].gives(RDRAIN)
        for _ in range(2):
            it.comes_to("server a", "retired load 0")
            it.comes_to("server b", "drained load 0")
            is_nacked(client)
            for server in it.servers.values():
                server.send(rerr(1, b"what is this"))
                server.fence()


@scenario
def lease_lapses(start):
    """What is open is answered; nothing is sent until a new lease comes. The server hears nothing of it."""
    with start(tick_ms=50) as it:
        client, server = it.client(), it.servers["a"]
        is_served(client, server, 5)
        server.send(tlease(1_000))
        server.fence()
        reaches(client, 6, server, 2)
        time.sleep(1.1)
        is_nacked(client)
        comes_back(server, 2, client, 6)
        for lease in (tlease(0), tlease(-1), tlease(-(1 << 63)), tlease(60_000, unit=1)):
            server.send(lease)
            server.fence()
            is_nacked(client)
        server.send(tlease(60_000))
        server.fence()
        is_served(client, server, 5)
        server.send(tlease((1 << 63) - 1))
        server.fence()
        is_served(client, server, 5)
        server.send(tlease(0))
        server.fence()
        is_nacked(client)


@scenario
def lease_is_renewed(start):
    with start("a b", {"/s/a": ["a", "b"]}, tick_ms=50) as it:
        client, a, b = it.client(), it.servers["a"], it.servers["b"]
        until = time.monotonic() + 1.2
        while time.monotonic() < until:
            a.send(tlease(1_000))
            a.fence()
            is_served(client, a, 5)
            time.sleep(0.1)
        a.send(tlease(100))
        a.fence()
        time.sleep(0.2)
        is_served(client, b, 5)
        a.send(tlease(60_000))
        a.fence()
        is_served(client, a, 5)


@scenario
def lease_of_a_lost_server(start):
    """Nothing is left of a lease on a server that is gone."""
    with start() as it:
        client, server = it.client(), it.servers["a"]
        server.send(tlease(60_000))
        server.fence()
        reaches(client, 5, server, 2)
        server.close()
        client.gives(upstream_lost(5))
        is_nacked(client)
