"""Connections that end: a server that an operator cuts, and what is shown of each end: its cause, and what was open."""
import re
import time

from operators_parts import Asked
from reading import R, T, frame, need
from wire_parts import (
    GARBAGE, HOST, PATIENCE, RDRAIN, TDRAIN, client_gone, comes_back, is_answered, rdispatch, reaches, scenario,
    tdispatch, upstream_lost,
)


@scenario
def server_is_cut(start):
    """A server that never answers is cut: its callers are told at once, and it is connected to again as after any loss."""
    with Asked(start.program, "a b", {"/s/a": ["a"]}, reconnect_ms=100, tick_ms=50) as it:
        client, server = it.client(), it.servers["a"]
        client.send(tdispatch(5), tdispatch(6))
        server.gives(tdispatch(2), tdispatch(3))
        began = time.monotonic()
        need(it.asks("cut a") == ["ok"], "a server that is there isn't cut")
        client.gives(upstream_lost(5), upstream_lost(6))
        need(time.monotonic() - began < 1, "the callers were told late")
        server.ends()
        again = it.accepted("a")
        again.fence()
        it.comes_to("server a", "open load 0")
        is_answered(client, 5, again, 2)
        it.ask("retire a", "ok")
        it.comes_to("server a", "closed load 0")
        need(it.asks("cut a") == ["error Closed"], "a server that was retired and closed is cut")
        need(it.asks("cut b") == ["ok"], "a server without a dispatch isn't cut")
        it.servers["b"].ends()
        it.accepted("b").fence()


@scenario
def server_stays_cut(start):
    """Without `reconnect_ms` a server that was cut stays away until it rejoins. One is cut too that was retired, holds
    dispatches, and doesn't read."""
    with Asked(start.program, "a b:absent", {"/s/a": ["a"]}, tick_ms=100, max_frame=2_000_000) as it:
        for line, want in (("cut c", "UnknownServer"), ("cut b", "Closed"), ("cut A", "UnknownServer")):
            need(it.asks(line) == [f"error {want}"], f"{line}: {it.asks(line)}")
        client = it.client()
        for tag in range(2, 12):
            client.send(tdispatch(tag, bytes(1_500_000)))
        it.comes_to("server a", "open load 10")
        it.ask("retire a", "ok")
        need(it.asks("cut a") == ["ok"], "a server that doesn't read isn't cut")
        client.gives(*map(upstream_lost, range(2, 12)))
        need(it.asks("cut a") == ["error Closed"], "a server is cut that was cut before")
        need(it.asks("rejoin a") == ["ok"], "a server that was cut can't rejoin")
        again = it.accepted("a")
        again.fence()
        it.comes_to("server a", "open load 0")


def ended(it, kind, **wanted):
    """Waits until so many connections of a kind are counted for each cause, and none for another."""
    family, until = f"voltgalley_{kind}_total", time.monotonic() + PATIENCE
    while True:
        found = {labels[7:-1]: value for (name, labels), value in it.page().items() if name == family and value}
        if found == wanted:
            return
        need(time.monotonic() < until, f"{kind} for {found}, not {wanted}")
        time.sleep(0.02)


@scenario
def why_clients_ended(start):
    """The end of a client's connection is counted for its cause, once, and apart from those that got no session."""
    with Asked(start.program, "a", max_frame=1024, sessions=16, clients=16, tick_ms=50) as it:
        server, ends = it.servers["a"], {}

        def counts(cause, kind="clients_ended"):
            ends[kind, cause] = ends.get((kind, cause), 0) + 1
            ended(it, kind, **{cause: count for (own, cause), count in ends.items() if own == kind})

        def client():
            one = it.client()
            one.fence()
            return one

        client().close()
        counts("closed")
        client().cut()
        counts("read")
        one = client()
        one.send(GARBAGE)
        one.ends()
        counts("stream")
        one = client()
        one.send(frame(T["ping"], 9)[:6])
        one.close()
        counts("stream")
        one = client()
        one.send(tdispatch(0))
        one.ends()
        counts("protocol")
        one, left = client(), client()
        reaches(one, 5, server, 2)
        need(it.asks("drain all") == ["drained 2 left 0"], "not both are drained")
        for link in (one, left):
            link.gives(TDRAIN)
            link.send(RDRAIN)
        it.comes_to("client 7", "drained")
        left.close()
        counts("drained")
        it.comes_to("client 6", "drained")
        one.close()
        counts("closed")
        it.client().close()
        counts("closed", "clients_turned_away")
        one = it.client()
        one.send(GARBAGE)
        one.ends()
        counts("stream", "clients_turned_away")
        for _ in range(9):
            client()
        one = it.client()
        one.ends()
        counts("refused", "clients_turned_away")
        ended(it, "servers_ended")


@scenario
def silent_clients_are_counted(start):
    """One that was idle, and one that began a frame and didn't end it."""
    with Asked(start.program, tick_ms=10, client_idle_ms=300, frame_ms=300) as it:
        client = it.client()
        client.fence()
        client.gives(TDRAIN)
        client.send(RDRAIN)
        client.ends()
        ended(it, "clients_ended", silent=1)
        client = it.client()
        client.send(tdispatch(5)[:-1])
        client.ends()
        ended(it, "clients_turned_away", silent=1)


@scenario
def why_servers_ended(start):
    """The end of a server's connection is counted for its cause, once; one that can't be connected to isn't counted."""
    with Asked(start.program, "a b:absent", {"/s/a": ["a"]}, tick_ms=20, reconnect_ms=20, max_frame=1024) as it:
        server, client, counts = it.servers["a"], it.client(), {}

        def goes(cause):
            counts[cause] = counts.get(cause, 0) + 1
            ended(it, "servers_ended", **counts)
            again = it.accepted("a")
            again.fence()
            it.comes_to("server a", "open")
            return again

        for cause, end in (
            ("closed", lambda link: link.close()), ("read", lambda link: link.cut()), ("stream", lambda link: link.send(GARBAGE)),
            ("protocol", lambda link: link.send(frame(R["dispatch"], 2))), ("cut", lambda link: it.asks("cut a")),
            ("drained", lambda link: link.send(TDRAIN)),
        ):
            reaches(client, 5, server, 2)
            if cause == "drained":
                comes_back(server, 2, client, 5)
            end(server)
            if cause != "drained":
                client.gives(upstream_lost(5))
            server = goes(cause)
        it.ask("retire a", "ok")
        server.ends()
        counts["retired"] = 1
        ended(it, "servers_ended", **counts)
        ended(it, "clients_ended")


EVENT = re.compile(r"([0-9]+) (client|server) ([0-9]+) (\S+) ([a-z]+) open ([0-9]+)")


def events_of(it):
    """What `events` shows of each end but its moment, which rises."""
    *lines, last = it.asks("events")
    found = [EVENT.fullmatch(line) for line in lines]
    need(last == "end" and all(found), f"events: {lines}")
    moments = [int(one[1]) for one in found]
    need(moments == sorted(moments) and moments[-1:] <= [60_000], f"events at {moments}")
    return [(one[2], int(one[3]), one[4], one[5], int(one[6])) for one in found]


def shows(it, *wanted):
    until = time.monotonic() + PATIENCE
    while (found := events_of(it)) != list(wanted):
        need(time.monotonic() < until, f"events shows {found}, not {wanted}")
        time.sleep(0.02)


@scenario
def ends_are_shown(start):
    """Ends of different causes are shown in their order, with who was at the other end and what was open; the last 100."""
    with Asked(start.program, "a b", {"/s/a": ["a"]}, tick_ms=20, reconnect_ms=20, clients=256, sessions=256) as it:
        address, server, ends = {name: f"{HOST}:{port}" for name, port in it.ports.items()}, it.servers["a"], []
        shows(it)

        def client():
            one = it.client()
            one.fence()
            return one, "{}:{}".format(*one.sock.getsockname())

        def goes(*end):
            ends.append(end)
            shows(it, *ends[-100:])

        one, home = client()
        one.send(tdispatch(5), tdispatch(6))
        server.gives(tdispatch(2), tdispatch(3))
        one.close()
        goes("client", 1, home, "closed", 2)
        server.gives(client_gone(2), client_gone(3))
        server.send(rdispatch(2), rdispatch(3))
        server.fence()
        two, home = client()
        two.send(tdispatch(5))
        server.frame()
        need(it.asks("cut a") == ["ok"], "a isn't cut")
        goes("server", 0, address["a"], "cut", 1)
        two.gives(upstream_lost(5))
        two.send(GARBAGE)
        goes("client", 2, home, "stream", 0)
        it.client().close()
        it.accepted("a").cut()
        goes("server", 2, address["a"], "read", 0)
        for number in range(3, 103):
            three, home = client()
            three.close()
            goes("client", number, home, "closed", 0)
        need(len(events_of(it)) == 100, "not 100 are shown")
