"""Servers that get an address, move and go while the router runs, by the lines `server`, `forget` and `servers`."""
import tempfile

from operators_parts import Asked
from reading import need
from wire_admin import comes_to_routes, kept_in, router_of
from wire_mend import KINDS, goes, nobody_comes
from wire_parts import (
    HOST, PROBE, RINIT, TINIT, Echoes, Flight, fly, fly_to_the_end, free_port, is_served, listener, nack, rdispatch, scenario,
    tdispatch,
)

ONE = {"/s/a": ["a"], "/s/b": ["b"], "/s/c": ["a", "b"]}


def lines_of(it):
    got = it.asks("servers")
    need(got[-1:] == ["end"], f"servers: {got}")
    return got[:-1]


def says(it, line, *want):
    got = it.asks(line)
    need(got == list(want), f"{line}: {got}")


def moves(it, name, plain=True):
    """The server listens at another port, and the router is told so."""
    it.ports[name] = free_port()
    it.listeners[name] = listener(it.ports[name])
    says(it, place_of(it, name, plain), "ok")


def place_of(it, name, plain=True):
    return f"server {name} {HOST}:{it.ports[name]}{' plain' * plain}"


@scenario
def spare_gets_an_address(start):
    """It is as a server that isn't there until it has one, and takes dispatches then, beside others and without a loss."""
    for keys in KINDS:
        with Asked(start.program, "a b:spare", ONE, tick_ms=50, **keys) as it:
            Echoes(it, "a")
            client = it.client()
            need(lines_of(it) == [place_of(it, "a")], f"servers: {lines_of(it)}")
            client.send(tdispatch(5, dst=b"/s/b"))
            client.gives(nack(5))
            is_served(client, 6, dst=b"/s/c")
            says(it, "health", "ok")
            pages = it.asks("status full") + it.asks("metrics")
            need(not [row for row in pages if row.startswith("server b ") or '"b"' in row], f"it shows: {pages}")
            flights = [Flight(it.client(), 1 << 40, 8, k, 100, dst=b"/s/a") for k in range(4)]
            fly(flights, 0.2)
            moves(it, "b")
            server = it.accepted("b")
            fly(flights, 0.2)
            server.fence()
            it.comes_to("server b", "open load 0")
            client.send(tdispatch(5, dst=b"/s/b"))
            server.gives(tdispatch(2, dst=b"/s/b"))
            server.send(rdispatch(2))
            client.gives(rdispatch(5))
            need(lines_of(it) == [place_of(it, "a"), place_of(it, "b")], f"servers: {lines_of(it)}")
            need([row for row in it.asks("metrics") if '"b"' in row], "no figures of it")
            for flight in flights:
                flight.total = flight.sent
            fly_to_the_end(flights, 5)


@scenario
def server_moves_under_load(start):
    """One that is retired and holds nothing moves, is forgotten, and comes back elsewhere: no dispatch is nacked or lost."""
    for keys in KINDS:
        with Asked(start.program, "a b", {"/s/a": ["a", "b"]}, tick_ms=50, reconnect_ms=50, **keys) as it:
            Echoes(it, "a")
            Echoes(it, "b")
            flights = [Flight(it.client(), 1 << 40, 8, k, 100) for k in range(4)]
            for turn in range(3):
                fly(flights, 0.1)
                it.ask("retire b", "ok")
                if turn < 2:
                    while (got := it.asks("forget b")) != ["ok"]:
                        need(got == ["error Open"], f"forget b: {got}")
                        fly(flights, 0.01)
                    need(lines_of(it) == [place_of(it, "a")], f"servers: {lines_of(it)}")
                    says(it, "rejoin b", "error NoAddress")
                    it.comes_to("server b", "closed load 0")
                    fly(flights, 0.2)
                while " load 0 " not in it.row("server b"):
                    fly(flights, 0.01)
                goes(it, "b")
                it.ports["b"] = free_port()
                it.listeners["b"] = listener(it.ports["b"])
                Echoes(it, "b")
                while (got := it.asks(place_of(it, "b"))) != ["ok"]:
                    need(got == ["error Open"], f"server b: {got}")
                    fly(flights, 0.01)
                it.comes_to("server b", "open")
            fly(flights, 0.2)
            for flight in flights:
                flight.total = flight.sent
            fly_to_the_end(flights, 5)
            it.listeners["b"].close()


@scenario
def forgotten_server_is_left_alone(start):
    """Nobody connects to it, with the key `reconnect_ms` neither, until it is given an address: the one that it had, too."""
    for keys in KINDS:
        with Asked(start.program, "a b", ONE, reconnect_ms=20, tick_ms=20, **keys) as it:
            Echoes(it, "a")
            says(it, "forget b", "error Open")
            it.ask("retire b", "ok")
            says(it, "forget b", "ok")
            for _ in range(2):
                nobody_comes(it, "b", 0.2)
                says(it, "forget b", "ok")
                says(it, "cut b", "error Closed")
                says(it, place_of(it, "b"), "ok")
                it.accepted("b").fence()
                it.comes_to("server b", "open load 0")
                goes(it, "b")
                it.comes_to("server b", "closed load 0")
                says(it, "forget b", "ok")
                it.listeners["b"] = listener(it.ports["b"])
            is_served(it.client(), 5)


@scenario
def server_answers(start):
    """Each answer there is."""
    with Asked(start.program, "a b:probe c:spare-probe", {"/s/a": ["a"]}, tick_ms=50) as it:
        client, a = it.client(), it.servers["a"]
        it.servers["b"].gives(PROBE)
        place = f"{HOST}:{free_port()}"
        for name in ("d", "A", "a.b", "\u00e4", "x" * 65):
            says(it, f"server {name} {place}", "error UnknownServer")
            says(it, f"forget {name}", "error UnknownServer")
        for rest in ("", " ", " a", " a ", f" {place}", f" a  {place}", f" a {place} ", f" a {place} probe", f" a {place} plain ",
                     f" a {place}  plain", f" a,b {place}", " a localhost:80", " a 127.0.0.1", " a 127.0.0.1:65536", " a none",
                     " a [::1:80", " a 127.0.0.1:80plain", f" a {place} Plain", f" a plain {place}"):
            says(it, f"server{rest}", "error BadCommand")
        for line in ("forget", "forget ", "forget a b", "forget a,b", "forget a ", "Forget a", "servers ", "server"):
            says(it, line, "error BadCommand")
        it.ask("servers", "error BadCommand")
        says(it, f"server a {place} plain", "error Open")
        says(it, f"server a {place}", "error OtherInit")
        says(it, f"server b {place}", "error Open")
        says(it, f"server b {place} plain", "error OtherInit")
        says(it, f"server c {place} plain", "error OtherInit")
        says(it, place_of(it, "a"), "ok")
        says(it, place_of(it, "b", plain=False), "ok")
        says(it, "rejoin c", "error NoAddress")
        says(it, "cut c", "error Closed")
        says(it, "forget c", "ok")
        need(lines_of(it) == [place_of(it, "a"), place_of(it, "b", plain=False)], f"servers: {lines_of(it)}")
        client.send(tdispatch(5))
        a.gives(tdispatch(2))
        it.ask("retire a", "ok")
        for line in (f"server a {place} plain", place_of(it, "a"), "forget a"):
            says(it, line, "error Open")
        a.send(rdispatch(2))
        client.gives(rdispatch(5))
        it.comes_to("server a", "retired load 0")
        says(it, place_of(it, "a"), "ok")
        a.ends()
        it.accepted("a").fence()
        is_at = f"server c [::1]:{free_port()}"
        says(it, is_at, "ok")
        need(lines_of(it)[2:] == [is_at], f"servers: {lines_of(it)}")


@scenario
def spare_begins_with_the_probe(start):
    """Its session begins as its `init` says, at each address."""
    with Asked(start.program, "a:spare-probe", {"/s/a": ["a"]}, tick_ms=50, reconnect_ms=50) as it:
        for _ in range(2):
            moves(it, "a", plain=False)
            server = it.accepted("a")
            server.gives(PROBE)
            server.send(PROBE)
            server.gives(TINIT)
            server.send(RINIT)
            it.comes_to("server a", "open load 0")
            client = it.client()
            client.send(tdispatch(5))
            server.gives(tdispatch(2))
            server.send(rdispatch(2))
            client.gives(rdispatch(5))
            it.listeners["a"].close()
            it.ask("retire a", "ok")
            server.close()
            it.comes_to("server a", "closed load 0")


@scenario
def servers_outlive_a_restart(start):
    """What `servers` and `routes` printed, kept as orders_file, has the next router serve as this one was ordered to."""
    with Asked(start.program, "a b:spare-probe c:spare", {"/s/a": ["a"]}, tick_ms=50) as it:
        it.ports["b"] = it.ports["a"]
        says(it, place_of(it, "b", plain=False), "ok")
        it.servers["b"] = it.accepted("a")
        it.servers["b"].gives(PROBE)
        it.ask("route /s/b b", "ok")
        routes = it.asks("routes")
        kept = it.asks("servers") + routes
        plain = place_of(it, "a")
    kept = [line for line in kept if line != plain]
    with tempfile.TemporaryDirectory(prefix="orders-") as room:
        operator = free_port()
        start_here = router_of(room, start.program)
        orders = kept_in(room, [f"server d {HOST}:{free_port()}", "forget c", *kept])
        with start_here("a b:spare-probe c:spare", {"/s/a": ["a"]}, operator=f"{HOST}:{operator}", orders_file=orders,
                        reconnect_ms=50, tick_ms=50) as it:
            comes_to_routes(operator, routes)
            it.listeners["b"] = listener(int(kept[0].rpartition(":")[2]))
            server = it.accepted("b")
            server.gives(PROBE)
            server.send(PROBE)
            server.gives(TINIT)
            server.send(RINIT)
            it.comes_to("server b", "open load 0")
            client = it.client()
            client.send(tdispatch(5, dst=b"/s/b"))
            server.gives(tdispatch(2, dst=b"/s/b"))
            server.send(rdispatch(2))
            client.gives(rdispatch(5))
        with open(f"{room}/said", encoding="utf-8") as file:
            said = file.read()
        need(said == "orders_file: line 1: error UnknownServer\n", f"said: {said}")
