"""Servers that are lost and come back, each into its own slot: by the key `reconnect_ms`, and by the line `rejoin`."""
import socket
import time

from operators_parts import Asked
from reading import Fault, need
from wire_parts import (
    PROBE, RDRAIN, RINIT, TDRAIN, TINIT, Echoes, Flight, fly, fly_to_the_end, is_served, listener, nack, rdiscarded, rdispatch,
    scenario, tdiscarded, tdispatch, upstream_lost,
)

TWO = {"/s/a": ["a"], "/s/b": ["b"]}
# What hands histories over when a server's slot is renewed, and what shares the servers out to threads.
KINDS = [{"audit": audit, "threads": threads} for audit in ("close", "rolling") for threads in (1, 3)]


def goes(it, name="a"):
    """The server closes its connections, and nobody listens at its port any more."""
    it.listeners[name].shutdown(socket.SHUT_RDWR)
    it.listeners[name].close()
    for link in it.links:
        if link.who.startswith(f"server {name}"):
            link.close_both()


def comes(it, name="a", keeps=None):
    """The server listens at its port, and answers on each connection."""
    it.listeners[name] = listener(it.ports[name])
    return Echoes(it, name, keeps)


def nobody_comes(it, name="a", seconds=0.6):
    it.listeners[name].settimeout(seconds)
    try:
        it.listeners[name].accept()
    except TimeoutError:
        return
    raise Fault(f"the router connected to server {name}")


def is_lost(it, name="a"):
    it.servers[name].close()
    it.comes_to(f"server {name}", "closed load 0")


def names(it):
    return [row.split(" ")[:2] for row in it.status() if row.startswith(("client ", "server "))]


@scenario
def lost_server_is_back(start):
    """Nothing that is open elsewhere is touched: the client keeps its connection, and each session its row."""
    for keys in KINDS:
        with start("a b", TWO, reconnect_ms=100, tick_ms=50, **keys) as it:
            other, client = it.servers["b"], it.client()
            client.send(tdispatch(5), tdispatch(6), tdispatch(7, dst=b"/s/b"))
            it.servers["a"].gives(tdispatch(2), tdispatch(3))
            other.gives(tdispatch(2, dst=b"/s/b"))
            rows = names(it)
            for turn in range(3):
                it.servers["a"].close()
                if turn == 0:
                    client.gives_all_of(upstream_lost(5), upstream_lost(6))
                server = it.servers["a"] = it.accepted("a")
                server.fence()
                it.comes_to("server a", "open load 0")
                need(names(it) == rows, f"status has {names(it)}, not {rows}")
                client.send(tdispatch(5))
                server.gives(tdispatch(2))
                server.send(rdispatch(2))
                client.gives(rdispatch(5))
            other.send(rdispatch(2))
            client.gives(rdispatch(7))
            client.fence()


@scenario
def nothing_old_reaches_a_server_that_is_back(start):
    """A discard of what was lost, and a client that goes with it, ask nothing of the next session."""
    with start(reconnect_ms=50, tick_ms=50) as it:
        client, gone = it.client(), it.client()
        client.send(tdispatch(5), tdispatch(6))
        it.servers["a"].gives_all_of(tdispatch(2), tdispatch(3))
        gone.send(tdispatch(5))
        it.servers["a"].gives(tdispatch(4))
        client.send(tdiscarded(6))
        client.gives(rdiscarded(6))
        it.servers["a"].gives_all_of(tdiscarded(3))
        it.servers["a"].close()
        client.gives(upstream_lost(5))
        gone.close()
        server = it.accepted("a")
        server.fence()
        client.send(tdiscarded(5), tdispatch(6))
        server.gives(tdispatch(2))
        server.send(rdispatch(3, b"stray"), rdispatch(2))
        client.gives(rdispatch(6))
        client.fence()
        server.fence()


@scenario
def server_begins_after_the_router(start):
    """A client that came first is served once the server is there, over its connection, though the server before it never is."""
    with start("b:absent a:absent", {"/s/a": ["b", "a"]}, reconnect_ms=50, tick_ms=50) as it:
        client = it.client()
        client.send(tdispatch(5))
        client.gives(nack(5))
        comes(it)
        it.comes_to("server a", "open")
        is_served(client, 6)
        it.comes_to("server b", "closed load 0")


@scenario
def probed_server_is_back(start):
    """The next connection begins as the first did."""
    with start("a:probe", reconnect_ms=50, tick_ms=50) as it:
        client, server = it.client(), it.servers["a"]
        for _ in range(3):
            server.gives(PROBE)
            it.comes_to("server a", "opening load 0")
            server.send(PROBE)
            server.gives(TINIT)
            server.send(RINIT)
            it.comes_to("server a", "open load 0")
            client.send(tdispatch(5))
            server.gives(tdispatch(2))
            server.cut()
            client.gives(upstream_lost(5))
            server = it.accepted("a")


@scenario
def server_that_restarts_often(start):
    """Each dispatch is answered, nacked or lost, and the router serves with both servers at the end."""
    for keys in KINDS:
        with start("a b", {"/s/a": ["a", "b"], "/s/b": ["a"]}, reconnect_ms=20, tick_ms=20, **keys) as it:
            Echoes(it, "b")
            Echoes(it, "a")
            flights = [Flight(it.client(), 1 << 40, 4, k, dst=(b"/s/a", b"/s/b")[k % 2]) for k in range(4)]
            for _ in range(6):
                fly(flights, 0.12)
                goes(it)
                fly(flights, 0.06)
                comes(it)
            it.comes_to("server a", "open")
            for flight in flights:
                flight.total = flight.sent
            need(fly(flights, 5), "a dispatch got no answer")
            for flight in flights:
                need(not flight.is_ended and not flight.drains, "a client's connection ended, or it was drained")
                texts = {raw[8:] for raw in flight.others}
                need(texts <= {b"upstream lost"}, f"answers of another kind: {texts}")
                replies = flight.answered - flight.nacks - len(flight.others)
                need(replies > 20, f"only {replies} of {flight.answered} answers are replies")
            is_served(it.client(), 5, dst=b"/s/b")


@scenario
def server_that_comes_and_goes(start):
    """One that closes each connection at once is connected to ever more seldom; one that stayed for more than a tick is not."""
    with start("a b", TWO, reconnect_ms=50, tick_ms=100) as it:
        Echoes(it, "b")
        it.servers["a"].close()
        it.listeners["a"].settimeout(0.1)
        came, until = 0, time.monotonic() + 3
        while time.monotonic() < until:
            try:
                it.listeners["a"].accept()[0].close()
                came += 1
            except TimeoutError:
                pass
        need(3 <= came <= 7, f"it was connected to {came} times in 3 s")
        goes(it, "b")
        comes(it, "b")
        it.comes_to("server b", "open load 0", 1)
        # The time up to the next try is at most 64 times the first.
        it.accepted("a").fence()
        time.sleep(0.2)
        it.links[-1].close()
        began = time.monotonic()
        it.accepted("a").fence()
        need(time.monotonic() < began + 0.6, "it waits as if the last connection had failed")


@scenario
def retired_server_is_left_alone(start):
    """It isn't connected to, whoever closed its connection, until an operator says so. Then it is as any other."""
    with Asked(start.program, "a b", TWO, reconnect_ms=20, tick_ms=50) as it:
        Echoes(it, "b")
        client = it.client()
        it.ask("retire a", "ok")
        is_lost(it)
        nobody_comes(it)
        is_served(client, 5, dst=b"/s/b")
        need(it.asks("rejoin a") == ["ok"], "it can't rejoin")
        for _ in range(2):
            server = it.accepted("a")
            server.fence()
            it.comes_to("server a", "open load 0")
            server.close()
        Echoes(it)
        it.comes_to("server a", "open load 0")
        is_served(client, 6)


@scenario
def server_that_is_done_with_is_closed(start):
    """Once one that drains holds nothing it is closed and connected to anew. One that is retired is closed, and left alone."""
    for keys in KINDS:
        with Asked(start.program, "a b", TWO, reconnect_ms=20, tick_ms=20, **keys) as it:
            client, a, b = it.client(), it.servers["a"], it.servers["b"]
            client.send(tdispatch(5), tdispatch(6, dst=b"/s/b"))
            a.gives(tdispatch(2))
            b.gives(tdispatch(2, dst=b"/s/b"))
            a.send(TDRAIN)
            a.gives(RDRAIN)
            it.ask("retire b", "ok")
            a.is_silent()
            b.is_silent()
            a.send(rdispatch(2))
            b.send(rdispatch(2))
            client.gives_all_of(rdispatch(5), rdispatch(6))
            a.ends()
            b.ends()
            it.accepted("a").fence()
            Echoes(it)
            it.comes_to("server a", "open load 0")
            it.comes_to("server b", "closed load 0")
            nobody_comes(it, "b", 0.3)
            need(it.asks("rejoin b") == ["ok"], "it can't rejoin")
            it.accepted("b").fence()


@scenario
def drained_server_stays_without_the_key(start):
    with start(tick_ms=20) as it:
        it.servers["a"].send(TDRAIN)
        it.servers["a"].gives(RDRAIN)
        it.servers["a"].is_silent()
        it.comes_to("server a", "drained load 0")


@scenario
def lost_server_stays_lost_without_the_key(start):
    """Until an operator says so; and it stays lost behind that too."""
    for keys in KINDS:
        with Asked(start.program, "a b", TWO, tick_ms=50, **keys) as it:
            Echoes(it, "b")
            client = it.client()
            is_lost(it)
            nobody_comes(it, seconds=0.3)
            client.send(tdispatch(5))
            client.gives(nack(5))
            need(it.asks("rejoin a") == ["ok"], "it can't rejoin")
            server = it.servers["a"] = it.accepted("a")
            server.fence()
            it.comes_to("server a", "open load 0")
            client.send(tdispatch(6))
            server.gives(tdispatch(2))
            server.send(rdispatch(2))
            client.gives(rdispatch(6))
            is_served(client, 7, dst=b"/s/b")
            is_lost(it)
            nobody_comes(it, seconds=0.3)


@scenario
def rejoin_of_an_absent_server(start):
    """One that isn't there yet is tried once for each line."""
    with Asked(start.program, "a:absent b", TWO, tick_ms=50) as it:
        Echoes(it, "b")
        need(it.asks("rejoin a") == ["ok"], "it can't rejoin")
        it.comes_to("server a", "closed load 0")
        time.sleep(0.2)
        it.listeners["a"] = listener(it.ports["a"])
        nobody_comes(it, seconds=0.3)
        need(it.asks("rejoin a") == ["ok"], "it can't rejoin")
        it.accepted("a").fence()
        it.comes_to("server a", "open load 0")


@scenario
def rejoin_answers(start):
    """Each answer there is. A session that takes no more dispatches and holds none is closed for its next connection."""
    with Asked(start.program, "a b c:probe", TWO) as it:
        client, a, b = it.client(), it.servers["a"], it.servers["b"]
        it.servers["c"].gives(PROBE)
        for name in ("d", "A", "a.b", "\u00e4", "x" * 65):
            need(it.asks(f"rejoin {name}") == ["error UnknownServer"], f"rejoin {name[:9]}")
        for line in ("rejoin", "rejoin ", "rejoin a b", "rejoin  a", "rejoin a,b", "rejoin a ", "Rejoin a"):
            need(it.asks(line) == ["error BadCommand"], line)
        it.ask("rejoin a", "error BadCommand")
        for name in "abc":
            need(it.asks(f"rejoin {name}") == ["error Open"], f"rejoin {name}")
        client.send(tdispatch(5), tdispatch(6, dst=b"/s/b"))
        a.gives(tdispatch(2))
        b.gives(tdispatch(2, dst=b"/s/b"))
        it.ask("retire a", "ok")
        b.send(TDRAIN)
        b.gives(RDRAIN)
        for name in "ab":
            need(it.asks(f"rejoin {name}") == ["error Open"], f"rejoin {name}, which holds a dispatch")
        a.send(rdispatch(2))
        b.send(rdispatch(2))
        client.gives_all_of(rdispatch(5), rdispatch(6))
        it.comes_to("server a", "retired load 0")
        it.comes_to("server b", "drained load 0")
        for name, old in (("a", a), ("b", b)):
            need(it.asks(f"rejoin {name}") == ["ok"], f"rejoin {name}, which holds none")
            old.ends()
            server = it.servers[name] = it.accepted(name)
            server.fence()
            it.comes_to(f"server {name}", "open load 0")
        client.send(tdispatch(5))
        it.servers["a"].gives(tdispatch(2))
        it.servers["a"].send(rdispatch(2))
        client.gives(rdispatch(5))


@scenario
def server_that_drains_and_closes(start):
    """What it had open is answered before; then it is connected to again, and takes dispatches."""
    for keys in KINDS:
        with start(reconnect_ms=50, tick_ms=50, **keys) as it:
            client, server = it.client(), it.servers["a"]
            for _ in range(3):
                client.send(tdispatch(5))
                server.gives(tdispatch(2))
                server.send(TDRAIN)
                server.gives(RDRAIN)
                client.send(tdispatch(6))
                client.gives(nack(6))
                server.send(rdispatch(2))
                client.gives(rdispatch(5))
                server.close()
                server = it.accepted("a")
                server.fence()
            client.fence()


@scenario
def traffic_beside_a_lost_server(start):
    """64 clients: each dispatch to the other server has its own reply, and the lost one takes traffic again in time."""
    reconnect, tick = 0.5, 0.25
    for keys in KINDS:
        with start("a b", TWO, reconnect_ms=500, tick_ms=250, **keys) as it:
            Echoes(it, "a")
            Echoes(it, "b")
            flights = [Flight(it.client(), 1 << 40, 4, k, 100, (b"/s/a", b"/s/b")[k % 2]) for k in range(64)]
            fly(flights, 0.4)
            goes(it)
            lost = time.monotonic()
            echoes = comes(it).echoes
            while not echoes or not echoes[0].count:
                fly(flights, 0.02)
                need(time.monotonic() < lost + 5, "the server takes no traffic")
            took = time.monotonic() - lost
            fly(flights, 0.4)
            for flight in flights:
                flight.total = flight.sent
            need(fly(flights, 10), "a dispatch got no answer")
            for number, flight in enumerate(flights):
                need(not flight.is_ended and not flight.drains, "a client's connection ended, or it was drained")
                texts = {raw[8:] for raw in flight.others}
                need(texts <= {b"upstream lost"}, f"answers of another kind: {texts}")
                need(number % 2 == 0 or not (flight.nacks or texts), f"{flight.nacks} nacks of the other server, {texts}")
            need(took <= reconnect + 2 * tick, f"the server took traffic {took:.2f} s after its loss")


@scenario
def servers_rejoin_in_turn(start):
    """An operator retires one, and has it rejoin once it holds nothing, again and again: no dispatch is nacked or lost."""
    for keys in KINDS:
        with Asked(start.program, "a b", {"/s/a": ["a", "b"]}, tick_ms=50, **keys) as it:
            Echoes(it, "a")
            Echoes(it, "b")
            flights = [Flight(it.client(), 1 << 40, 8, k, 100) for k in range(4)]
            for name in "abababab":
                fly(flights, 0.05)
                it.ask(f"retire {name}", "ok")
                while (got := it.asks(f"rejoin {name}")) != ["ok"]:
                    need(got == ["error Open"], f"rejoin {name}: {got}")
                    fly(flights, 0.01)
                it.comes_to(f"server {name}", "open")
            for flight in flights:
                flight.total = flight.sent
            fly_to_the_end(flights, 5)
