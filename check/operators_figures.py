"""Figures: what a page of metrics and `status full` show."""
import math
import re
from decimal import Decimal

from operators_parts import Asked, counted, grown, scenario
from reading import NACK, R, T, frame, need
from wire_parts import (
    PATIENCE, PROBE, RDRAIN, TDRAIN, TINIT, Echo, Echoes, Flight, fly, is_served, nack, no_route, rdiscarded,
    rdispatch, rerr, tdiscarded, tdispatch, tlease, upstream_lost,
)


@scenario
def figures(program):
    """What is open shows in every figure of it."""
    with Asked(program, "a b", {"/s/a": ["a"]}, history=64) as it:
        client = it.client()
        client.send(tdispatch(1), tdispatch(2), tdispatch(3))
        for _ in range(3):
            it.servers["a"].frame()
        row = [line for line in it.asks("status full") if line.startswith("client 1 ")]
        peer = "%s:%d" % client.sock.getsockname()
        need(row == [f"client 1 open entries 3 records 6 of 64 epoch 0 queued 0 peer {peer}"], f"status full: {row}")
        found = it.page()
        need(found["voltgalley_open_dispatches", None] == 3, "other dispatches are open")
        need(found["voltgalley_server_load", 'server="a"'] == 3, "server a has another load")
        need(found["voltgalley_server_load", 'server="b"'] == 0, "server b has a load")
        need(found["voltgalley_client_records", None] == 6, "other records")
        client.close()
        it.comes_to("client 1", "closed")
        row = [line for line in it.asks("status full") if line.startswith("client 1 ")]
        need(len(row) == 1 and row[0].endswith(" peer unknown"), f"once it has left: {row}")


def leases_shown(lines):
    """What the line of each server shows of its lease."""
    found = [re.match(r"server (\S+) \S+ load [0-9]+ lease (\S+) ejected [0-9]+ records ", it) for it in lines]
    return dict(it.groups() for it in found if it)


@scenario
def leases(program):
    """What is left of a lease is shown, and 0 once it has lapsed; without a lease there is no end."""
    with Asked(program, "a b c") as it:
        for name, milliseconds in (("a", 60_000), ("b", 0)):
            it.servers[name].send(tlease(milliseconds))
            it.servers[name].fence()
        found, shown = it.page(), leases_shown(it.asks("status full"))
        left, *others = [found["voltgalley_server_lease_seconds", f'server="{name}"'] for name in "abc"]
        need(others == [0, math.inf], f"metrics: {others}")
        need(shown.keys() == set("abc") and (shown["b"], shown["c"]) == ("0", "none"), f"status full: {shown}")
        need(0 < int(shown["a"]) <= left * 1_000 <= 60_000, f"{shown['a']} ms are left, and {left} s before")
        it.servers["a"].send(tlease(0))
        it.servers["a"].fence()
        need(leases_shown(it.asks("status full"))["a"] == "0", "a lease of no time doesn't replace another")


@scenario
def counters(program):
    """What was carried is counted, frame by frame and byte by byte, and a dispatch is timed."""
    with Asked(program) as it:
        client, server = it.client(), it.servers["a"]
        before = it.page()
        asked = (tdispatch(5), tdispatch(6), frame(T["ping"], 9))
        client.send(*asked)
        sent = (tdispatch(2), tdispatch(3))
        server.gives(*sent)
        replies = (rdispatch(2), frame(R["dispatch"], 3, NACK))
        server.send(*replies)
        answers = (frame(R["ping"], 9), rdispatch(5), frame(R["dispatch"], 6, NACK))
        client.gives(*answers)
        lost = tdispatch(7, dst=b"/nowhere")
        client.send(lost)
        last = client.frame()
        found = {key: value - before[key] for key, value in it.page().items()}
        counted(found, dispatches_total=3, discards_total=0, replies_total=2, nacks_total=0, no_route_total=1,
                server_sendings_total=2, server_replies_total=1, server_nacks_total=1, retries_total=0,
                client_read_frames_total=4, client_written_frames_total=4,
                client_read_bytes_total=sum(map(len, (*asked, lost))),
                client_written_bytes_total=sum(map(len, (*answers, last))),
                server_read_frames_total=2, server_written_frames_total=2,
                server_read_bytes_total=sum(map(len, replies)), server_written_bytes_total=sum(map(len, sent)),
                dispatch_seconds_count=1)
        family = "voltgalley_server_dispatch_seconds"
        of_server = [f'server="a",outcome="{outcome}"' for outcome in ("reply", "nack")]
        need([found[f"{family}_count", of] for of in of_server] == [1, 1], "each dispatch of the server is timed")
        for family, of in (("voltgalley_dispatch_seconds", None), *((family, of) for of in of_server)):
            took, before = found[f"{family}_sum", of], f"{of}," if of else ""
            for (name, labels), count in found.items():
                if name == f"{family}_bucket" and labels.startswith(before) and not labels.endswith('le="+Inf"'):
                    bound = Decimal(labels.rpartition('le="')[2][:-1])
                    need(count == (took <= bound), f"{count} took at most {bound} of {took}")


@scenario
def causes(program):
    """Why a dispatch ended otherwise than with its server's reply is counted, each cause apart."""
    with Asked(program, "a b", {"/s/a": ["a"], "/s/b": ["b"], "/s/ab": ["a", "b"]}, retries=1) as it:
        client, a, b = it.client(), it.servers["a"], it.servers["b"]
        client.fence()
        before = it.page()
        client.send(tdispatch(5, dst=b"/s/ab"))
        a.gives(tdispatch(2, dst=b"/s/ab"))
        a.send(frame(R["dispatch"], 2, NACK))
        b.gives(tdispatch(2, dst=b"/s/ab"))
        b.send(rdispatch(2))
        client.gives(rdispatch(5))
        client.send(tdispatch(5), tdiscarded(5))
        client.gives(rdiscarded(5))
        a.gives(tdispatch(2), tdiscarded(2))
        a.send(rdispatch(2))
        client.send(tdispatch(6, dst=b"/nowhere"))
        client.gives(no_route(6))
        client.send(tdispatch(6, dst=b"/s/b"))
        b.gives(tdispatch(2, dst=b"/s/b"))
        b.cut()
        client.gives(upstream_lost(6))
        client.send(tdispatch(6, dst=b"/s/b"))
        client.gives(nack(6))
        it.ask("drain client 1", "ok")
        client.gives(TDRAIN)
        client.send(RDRAIN, tdispatch(6))
        client.gives(nack(6))
        a.fence()
        found = {key: value - before[key] for key, value in it.page().items()}
        counted(found, dispatches_total=6, discards_total=1, replies_total=1, nacks_total=1, drained_nacks_total=1,
                no_route_total=1, upstream_lost_total=1, retries_total=1, late_answers_total=1, server_sendings_total=4,
                server_replies_total=2, server_nacks_total=1, server_lost_sendings_total=1)
        at = [found["voltgalley_server_sendings_total", f'server="{name}"'] for name in "ab"]
        need(at == [2, 2], f"a and b were sent {at}")
        by_name = {name: counts for name, *counts in by_destination(it.page())}
        need(by_name == {"/s/a": [1, 0], "/s/b": [2, 1], "/s/ab": [1, 0], "other": [0, 0]}, f"by destination: {by_name}")


def by_destination(found):
    """How many dispatches to each destination were counted, and how many nacks, as they stand on a page. Together they are
    all those that had a route, and all nacks of the router's own but for those of drained clients."""
    rows = {}
    for (name, labels), count in found.items():
        if name.startswith("voltgalley_destination_"):
            rows.setdefault(labels.removeprefix('destination="')[:-1], []).append(count)
    dispatches, drained, unrouted, nacks = (
        found[f"voltgalley_{name}_total", None] for name in ("dispatches", "drained_nacks", "no_route", "nacks"))
    both = [sum(counts) for counts in zip(*rows.values(), strict=True)]
    need(both == [dispatches - drained - unrouted, nacks], f"{both} are counted by destination")
    return [(name, *counts) for name, counts in rows.items()]


@scenario
def destinations(program):
    """A dispatch that has a route counts once for its destination, however often it is sent, and so does a nack of the
    router's own. The counts go on where the route is taken away and given again. A destination may be called other."""
    routes = {"/s/a": ["a"], "/s/b": ["b"], "/s/ab": ["a", "b"], "other": ["a"], "50% é": ["a"]}
    with Asked(program, "a b", routes, retries=1) as it:
        client, a, b = it.client(), it.servers["a"], it.servers["b"]
        names = ["/s/a", "/s/b", "/s/ab", "%6fther", "50%25 %c3%a9", "other"]
        need(by_destination(it.page()) == [(name, 0, 0) for name in names], "dispatches that nobody sent are counted")
        client.send(tdispatch(1), tdispatch(2), tdispatch(3, dst=b"other"), tdispatch(4, dst=b"/nowhere"), tdispatch(5))
        a.gives(tdispatch(2), tdispatch(3), tdispatch(4, dst=b"other"), tdispatch(5))
        client.gives(no_route(4))
        a.send(rdispatch(5), rdispatch(4), rdispatch(3), rdispatch(2))
        client.gives(rdispatch(5), rdispatch(3), rdispatch(2), rdispatch(1))
        # Sent twice, and then the nack of a server.
        client.send(tdispatch(6, dst=b"/s/ab"))
        for server in (a, b):
            server.gives(tdispatch(2, dst=b"/s/ab"))
            server.send(nack(2))
        client.gives(nack(6))
        # Nacked by the one server, so that no other can take it.
        client.send(tdispatch(6))
        a.gives(tdispatch(2))
        a.send(nack(2))
        client.gives(nack(6))
        b.send(tlease(0))
        b.fence()
        client.send(tdispatch(6, dst=b"/s/b"))
        client.gives(nack(6))
        it.ask("unroute /s/b", "ok")
        client.send(tdispatch(6, dst=b"/s/b"))
        client.gives(no_route(6))
        it.ask("route /s/c a", "ok")
        it.ask("route /s/b a", "ok")
        client.send(tdispatch(6, dst=b"/s/b"))
        a.gives(tdispatch(2, dst=b"/s/b"))
        a.send(rdispatch(2))
        client.gives(rdispatch(6))
        want = [("/s/a", 4, 1), ("/s/b", 2, 1), ("/s/ab", 1, 0), ("%6fther", 1, 0), ("50%25 %c3%a9", 0, 0), ("/s/c", 0, 0),
                ("other", 0, 0)]
        found = by_destination(it.page())
        need(found == want, f"by destination: {found}")


@scenario
def destinations_beyond_256(program):
    """The first 256 destinations have their counts, all others share one."""
    with Asked(program, "a", {f"/s/{k}": ["a"] for k in range(300)}) as it:
        Echo(it.servers["a"])
        client = it.client()
        for k in range(300):
            is_served(client, 1, dst=f"/s/{k}".encode())
        it.ask("unroute /s/0", "ok")
        it.ask("route /s/300 a", "ok")
        is_served(client, 1, dst=b"/s/300")
        want = [(f"/s/{k}", 1, 0) for k in range(256)] + [("other", 45, 0)]
        found = by_destination(it.page())
        need(found == want, f"by destination: {found}")


@scenario
def errors_of_servers(program):
    """How many dispatches each server answered by an error of the application's or by an Rerr: a nack is none, and what opens
    a session is none. A server that comes back goes on from there."""
    with Asked(program, "a b:probe", {"/s/a": ["a"], "/s/b": ["b"]}, reconnect_ms=20, tick_ms=20) as it:
        client, b, want = it.client(), it.servers["b"], {"a": 0, "b": 0}
        b.gives(PROBE)
        b.send(PROBE)
        b.gives(TINIT)
        b.send(rerr(1, b"tinit refused"))
        replies = ((rdispatch(2), 0), (rdispatch(2, b"wrong", status=1), 1), (rerr(2, b"broken"), 1), (nack(2), 0),
                   (rerr(2, b""), 1))
        for name, often in (("a", 3), ("b", 1), ("a", 2)):
            for reply, more in replies * often:
                client.send(tdispatch(5, dst=b"/s/" + name.encode()))
                it.servers[name].gives(tdispatch(2, dst=b"/s/" + name.encode()))
                it.servers[name].send(reply)
                client.gives(reply[:5] + (5).to_bytes(3, "big") + reply[8:])
                want[name] += more
                found = {of: it.page()["voltgalley_server_errors_total", f'server="{of}"'] for of in want}
                need(found == want, f"errors {found}, not {want}")
            if name == "b":
                it.servers["a"].close()
                it.servers["a"] = it.accepted("a")
                it.servers["a"].fence()


@scenario
def counters_over_lost_servers(program):
    """A server is lost again and again: no counter falls, and what its sessions did is counted still."""
    for audit in ("close", "rolling"):
        with Asked(program, "a b", reconnect_ms=20, tick_ms=20, history=256, window=16, out=32, audit=audit) as it:
            echoes = Echoes(it, "a")
            Echoes(it, "b")
            flights, found = [Flight(it.client(), 1 << 40, 4, k) for k in range(3)], None
            for _ in range(8):
                fly(flights, 0.1)
                echoes.echoes[-1].link.close_both()
                found = grown(it, found)
            for flight in flights:
                flight.total = flight.sent
            need(fly(flights, PATIENCE), "a dispatch got no answer")
            found = grown(it, found)
            sent, nacks, lost = (sum(map(figure, flights)) for figure in (
                lambda it: it.sent, lambda it: it.nacks, lambda it: len(it.others)))
            counted(found, dispatches_total=sent, nacks_total=nacks, upstream_lost_total=lost,
                    server_lost_sendings_total=lost, replies_total=sent - nacks - lost, server_sendings_total=sent - nacks)
            need(by_destination(found) == [("/s/a", sent, nacks), ("other", 0, 0)], f"by destination: {by_destination(found)}")
            need(0 < found["voltgalley_dispatch_seconds_count", None] <= sent, "dispatches weren't timed")
            timed = {key: value for key, value in found.items() if key[0] == "voltgalley_server_dispatch_seconds_count"}
            need(sum(timed.values()) == sent - nacks - lost, f"timed of {sent - nacks - lost} that servers answered: {timed}")
