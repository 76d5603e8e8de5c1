"""Dispatches there and back: frames, discards, choice of a server, routes, initiation, how bytes are cut."""
import random

from reading import R, T, frame
from wire_parts import (
    GARBAGE, PROBE, RINIT, TINIT, Echo, Flight, client_gone, comes_back, fly_to_the_end, is_answered, nack, need,
    no_route, payload, rdiscarded, rdispatch, reaches, rerr, scenario, tdiscarded, tdispatch, tlease, upstream_lost,
)

PING = frame(T["ping"], 1)
PONG = frame(R["ping"], 1)


@scenario
def loopback_row_4(start):
    """One dispatch there and back, byte by byte as it is written down."""
    with start() as it:
        client, server = it.client(), it.servers["a"]
        client.send(bytes.fromhex("0000001002000005000000042f732f6100006869"))
        server.gives(bytes.fromhex("0000001002000002000000042f732f6100006869"))
        server.send(bytes.fromhex("00000009fe000002000000796f"))
        client.gives(bytes.fromhex("00000009fe000005000000796f"))
        client.fence()
        server.fence()


@scenario
def status_row(start):
    with start(is_fenced=False, tick_ms=60_000) as it:
        it.comes_to("server a", "open")
        client = it.client()
        client.send(PING)
        client.gives(PONG)
        operator = it.operator()
        operator.ask("status", "boot 1", "client 1 open entries 0 records 1", "server a open load 0 records 0", "end")


@scenario
def status_counts(start):
    """Entries, loads and records of a dispatch that is under way, and of one that is answered."""
    with start("a b", is_fenced=False, tick_ms=60_000, boot=7) as it:
        client, a = it.client(), it.servers["a"]
        reaches(client, 5, a, 2)
        operator = it.operator()
        rest = ["server b open load 0 records 0"]
        want = ["boot 7", "client 1 open entries 1 records 2", "server a open load 1 records 1"]
        need(operator.status() == want + rest, "status of a dispatch under way")
        comes_back(a, 2, client, 5)
        want = ["boot 7", "client 1 open entries 0 records 3", "server a open load 0 records 2"]
        need(operator.status() == want + rest, "status of an answered dispatch")
        client.close()
        operator.close()
        it.comes_to("client 1", "closed entries 0 records 4")


@scenario
def small_frames(start):
    """Pings, initiation of a client, and what the router doesn't do."""
    with start() as it:
        client = it.client()
        client.send(PING, frame(T["ping"], 0), frame(T["ping"], 8_388_607))
        client.gives(PONG, frame(R["ping"], 0), frame(R["ping"], 8_388_607))
        old_probe = frame(R["old_err"], 1, b"tinit check")
        client.send(PROBE, old_probe)
        client.gives(PROBE, old_probe)
        client.send(TINIT)
        client.gives(RINIT)
        client.send(PROBE, frame(T["init"], 9, b"\x00\x07\x00\x00\x00\x01k\x00\x00\x00\x01v"))
        client.gives(rerr(9, b"tinit out of place"))
        client.send(frame(T["req"], 0, b"zero"), frame(T["req"], 3, b"three"))
        client.gives(rerr(3, b"unsupported"))
        client.send(frame(T["drain"], 4), frame(T["lease"], 6, b"\x00" * 9), frame(5, 7, b"an unknown T"))
        client.gives(rerr(4, b"unsupported"), rerr(6, b"unsupported"), rerr(7, b"unsupported"))
        client.send(frame(0, 9, b"an unknown R"), rdispatch(9), rdiscarded(9), rerr(9, b"no"), frame(R["drain"], 1))
        client.send(tdiscarded(77), tlease(10), frame(R["init"], 9, b"\x00\x01"))
        client.fence()
        it.servers["a"].fence()


@scenario
def tinit_comes_late(start):
    """A dispatch ends the time for a Tinit."""
    with start() as it:
        client, server = it.client(), it.servers["a"]
        reaches(client, 5, server, 2)
        client.send(TINIT, PROBE)
        client.gives(rerr(1, b"tinit out of place"))
        client.fence()


@scenario
def probing_server(start):
    with start("a:probe") as it:
        client, server = it.client(), it.servers["a"]
        server.gives(PROBE)
        server.fence()
        it.comes_to("server a", "opening")
        client.send(tdispatch(5))
        client.gives(nack(5))
        server.send(PROBE)
        server.gives(TINIT)
        it.comes_to("server a", "opening")
        client.send(tdispatch(6))
        client.gives(nack(6))
        server.send(RINIT)
        server.fence()
        it.comes_to("server a", "open")
        is_answered(client, 7, server, 2)


@scenario
def probe_is_not_known(start):
    """A server that answers the probe, or the Tinit, by another Rerr is open; an old number is as good."""
    with start("a:probe b:probe c:probe", {"/a": ["a"], "/b": ["b"], "/c": ["c"]}) as it:
        client = it.client()
        for server in it.servers.values():
            server.gives(PROBE)
        it.servers["a"].send(rerr(1, b"what is this"))
        it.servers["b"].send(frame(R["old_err"], 1, b"tinit check"))
        it.servers["b"].gives(TINIT)
        it.servers["b"].send(rerr(1, b"tinit check"))
        it.servers["c"].send(frame(R["old_err"], 1, b""))
        for name, server in it.servers.items():
            server.fence()
            it.comes_to(f"server {name}", "open")
            reaches(client, 5, server, 2, dst=b"/" + name.encode())
            comes_back(server, 2, client, 5)


@scenario
def passes_unchanged(start):
    """Contexts, destination, dtab, status, body; replies of every final kind."""
    with start(routes={"/s/\u00e4 b": ["a"], "": ["a"]}) as it:
        client, server = it.client(), it.servers["a"]
        contexts = [(b"k", b"\x00\xff"), (b"", b"")]
        raw = dict(dst="/s/\u00e4 b".encode(), contexts=contexts, dtab=[(b"/from", b"/to"), (b"", b"/x")])
        client.send(tdispatch(8_388_607, bytes(range(256)), **raw))
        server.gives(tdispatch(2, bytes(range(256)), **raw))
        comes_back(server, 2, client, 8_388_607, b"\x00" * 9, 1, contexts)
        for status, kept in ((0, b""), (2, b"busy"), (7, b"?"), (255, b"")):
            reaches(client, 1, server, 2, b"", b"")
            comes_back(server, 2, client, 1, kept, status, contexts)
        for came, goes in ((rerr(2, b"no"), rerr(9, b"no")), (frame(R["old_err"], 2, b"no"), rerr(9, b"no")),
                           (rdiscarded(2), rdiscarded(9))):
            reaches(client, 9, server, 2, b"", b"")
            server.send(came)
            client.gives(goes)
        client.fence()


@scenario
def discard_after_note(start):
    """The client's tag is free at once, the server's with its reply, which goes nowhere."""
    with start() as it:
        client, server = it.client(), it.servers["a"]
        reaches(client, 5, server, 2)
        client.send(tdiscarded(5))
        client.gives(rdiscarded(5))
        server.gives(tdiscarded(2))
        reaches(client, 5, server, 3)
        server.send(rdispatch(2, b"late"), rdispatch(3))
        client.gives(rdispatch(5))
        client.send(tdispatch(6), tdispatch(7))
        server.gives(tdispatch(3), tdispatch(2))
        client.send(tdiscarded(7, b"old number", 0xC2), tdiscarded(7), tdiscarded(8))
        client.gives(rdiscarded(7))
        server.gives(tdiscarded(2, b"old number"))
        server.send(rdiscarded(2))
        server.fence()
        client.fence()
        comes_back(server, 3, client, 6)
        server.send(rdispatch(3, b"a stray"))
        server.fence()
        client.fence()


@scenario
def discard_at_once(start):
    """Dispatch and discard in one piece: one answer, and the server hears of both."""
    with start() as it:
        client, server = it.client(), it.servers["a"]
        for _ in range(50):
            client.send(tdispatch(5) + tdiscarded(5, b"at once"))
            client.gives(rdiscarded(5))
            server.gives(tdispatch(2), tdiscarded(2, b"at once"))
            server.send(rdispatch(2, b"late"))
            server.fence()
            client.fence()


@scenario
def discard_of_what_has_no_route(start):
    """One answer, whichever came first."""
    with start() as it:
        client = it.client()
        for _ in range(50):
            client.send(tdispatch(5, dst=b"/nowhere") + tdiscarded(5))
            got = client.frame()
            need(got in (rdiscarded(5), no_route(5)), f"the answer is {got.hex()}")
            client.fence()
        it.servers["a"].fence()


@scenario
def reply_and_discard_cross(start):
    """However a reply and a discard meet, there is one answer on the tag."""
    with start() as it:
        client, server = it.client(), it.servers["a"]
        for _ in range(100):
            client.send(tdispatch(5))
            raw = server.frame()
            while raw[4] == T["discarded"]:
                raw = server.frame()
            server.send(rdispatch(int.from_bytes(raw[5:8], "big")))
            client.send(tdiscarded(5))
            got = client.frame()
            need(got in (rdiscarded(5), rdispatch(5)), f"the answer is {got.hex()}")
            client.fence()


@scenario
def routes(start):
    """No route, one that comes, is replaced, and goes."""
    with start("a b", {"/s/a": ["a"]}) as it:
        client, operator = it.client(), it.operator()
        client.send(tdispatch(5, dst=b"/s/b"))
        client.gives(no_route(5))
        for name in ("b", "a", "b"):
            operator.ask(f"route /s/b {name}", "ok")
            reaches(client, 5, it.servers[name], 2, dst=b"/s/b")
            comes_back(it.servers[name], 2, client, 5)
        reaches(client, 5, it.servers["b"], 2, dst=b"/s/b")
        operator.ask("unroute /s/b", "ok")
        client.send(tdispatch(6, dst=b"/s/b"), tdispatch(7, dst=b"/s/"), tdispatch(8, dst=b"/S/A"))
        client.gives_all_of(no_route(6), no_route(7), no_route(8))
        comes_back(it.servers["b"], 2, client, 5)
        operator.ask("unroute /s/b", "error NoRoute")
        operator.ask("route  a", "ok")
        reaches(client, 5, it.servers["a"], 2, dst=b"")
        comes_back(it.servers["a"], 2, client, 5)
        operator.ask("unroute ", "ok")
        client.send(tdispatch(5, dst=b""))
        client.gives(no_route(5))


@scenario
def routes_in_turn(start):
    """An order that was answered holds for each dispatch that comes after it."""
    with start("a b", {}) as it:
        client, operator = it.client(), it.operator()
        for turn in range(100):
            name = "ab"[turn % 2]
            operator.ask(f"route /s/a {name}", "ok")
            is_answered(client, 5, it.servers[name], 2)
        operator.ask("unroute /s/a", "ok")
        client.send(tdispatch(5))
        client.gives(no_route(5))


@scenario
def least_load(start):
    """Least load first, and at equal loads the one that stands first in the route."""
    with start("a b c", {"/s/a": ["b", "c", "a"]}) as it:
        client = it.client()
        a, b, c = (it.servers[name] for name in "abc")
        for tag, server in enumerate((b, c, a, b, c, a), 1):
            client.send(tdispatch(tag))
            need(server.frame()[8:] == tdispatch(1)[8:], "another dispatch")
        c.send(rdispatch(2), rdispatch(3))
        client.gives_all_of(rdispatch(2), rdispatch(5))
        for tag, server in zip((2, 5, 7, 8), (c, c, b, c)):
            client.send(tdispatch(tag))
            server.frame()
        for server in (a, b, c):
            server.fence()


@scenario
def least_load_in_one_piece(start):
    with start("a b c") as it:
        client = it.client()
        client.send(*(tdispatch(tag) for tag in range(1, 31)))
        for server in it.servers.values():
            server.gives(*(tdispatch(2 + k) for k in range(10)))
            server.fence()


@scenario
def sixty_four_servers(start):
    """As many as a route may have."""
    names = [f"s{k}" for k in range(64)]
    with start(" ".join(names)) as it:
        client = it.client()
        client.send(*(tdispatch(tag) for tag in range(1, 129)))
        for number, name in enumerate(names, 1):
            it.servers[name].gives(tdispatch(2), tdispatch(3))
            it.servers[name].send(rdispatch(3), rdispatch(2))
            client.gives(rdispatch(number + 64), rdispatch(number))
        need(len(it.status()) == 66, "a row for each server and client")


@scenario
def retry(start):
    """A nack by one server goes to another, once; the last nack is passed on as it came."""
    why = [(b"k", b"v")]
    with start("a b", retries=1) as it:
        client, a, b = it.client(), it.servers["a"], it.servers["b"]
        reaches(client, 5, a, 2)
        a.send(rdispatch(2, b"", 2, why))
        b.gives(tdispatch(2))
        comes_back(b, 2, client, 5)
        reaches(client, 6, a, 2)
        a.send(rdispatch(2, b"first", 2, why))
        b.gives(tdispatch(2))
        comes_back(b, 2, client, 6, b"second", 2, why)
        reaches(client, 7, a, 2)
        client.send(tdiscarded(7))
        client.gives(rdiscarded(7))
        a.gives(tdiscarded(2))
        a.send(rdispatch(2, b"late", 2, why))
        a.fence()
        b.fence()
        client.fence()


@scenario
def retry_finds_no_other(start):
    """Where no other server takes it, the router nacks; a loss isn't tried again."""
    with start("a b", {"/s/a": ["a"], "/s/b": ["b", "a"]}, retries=3) as it:
        client, a, b = it.client(), it.servers["a"], it.servers["b"]
        reaches(client, 5, a, 2)
        a.send(rdispatch(2, b"with a body", 2, [(b"k", b"v")]))
        client.gives(nack(5))
        reaches(client, 6, b, 2, dst=b"/s/b")
        b.send(rdispatch(2, b"", 2))
        a.gives(tdispatch(2, dst=b"/s/b"))
        a.close()
        client.gives(upstream_lost(6))
        reaches(client, 7, b, 2, dst=b"/s/b")
        b.send(rdispatch(2, b"", 2))
        client.gives(nack(7))
        b.fence()


@scenario
def retry_three_times(start):
    """Each nack goes to the least load without the one that nacked."""
    with start("a b", retries=3) as it:
        client, a, b = it.client(), it.servers["a"], it.servers["b"]
        client.send(tdispatch(5))
        for server in (a, b, a, b):
            server.gives(tdispatch(2))
            server.send(rdispatch(2, b"no", 2))
        client.gives(rdispatch(5, b"no", 2))
        client.fence()


@scenario
def equal_tags(start):
    """64 clients use one tag at the same time."""
    with start() as it:
        clients, server = [it.client() for _ in range(64)], it.servers["a"]
        for number, client in enumerate(clients):
            client.send(tdispatch(5, b"client %d" % number))
        tags = {}
        for _ in clients:
            raw = server.frame()
            tags[payload(raw[8:])] = int.from_bytes(raw[5:8], "big")
        need(len(tags) == 64 and len(set(tags.values())) == 64, "64 dispatches on 64 tags")
        for body in sorted(tags, reverse=True):
            server.send(rdispatch(tags[body], b"for " + body))
        for number, client in enumerate(clients):
            client.gives(rdispatch(5, b"for client %d" % number))
            client.fence()


@scenario
def byte_by_byte(start):
    with start() as it:
        client, server = it.client(), it.servers["a"]
        client.bytes_one_by_one(PING, tdispatch(5), tdiscarded(5), tdispatch(6))
        client.gives(PONG, rdiscarded(5))
        # A discard may stand behind the dispatch that came after it.
        server.gives(tdispatch(2))
        server.gives_all_of(tdiscarded(2), tdispatch(3))
        server.bytes_one_by_one(frame(T["ping"], 9), rdispatch(2), rdispatch(3))
        server.gives(frame(R["ping"], 9))
        client.gives(rdispatch(6))


def in_pieces(link, raw, seed):
    one, place = random.Random(seed), 0
    while place < len(raw):
        count = one.choice((1, 2, 3, 7, 8, 9, 20, 64, 500, 4096))
        link.send(raw[place:place + count])
        place += count


@scenario
def random_cuts(start):
    """Frames of many sizes, cut anywhere in both directions."""
    with start() as it:
        client, server = it.client(), it.servers["a"]
        one = random.Random(7)
        bodies = [bytes([k % 256]) * one.choice((0, 1, 5, 40, 300, 3_000)) for k in range(300)]
        in_pieces(client, b"".join(tdispatch(k + 1, body) for k, body in enumerate(bodies)), 1)
        tags = []
        for body in bodies:
            raw = server.frame()
            need(payload(raw[8:]) == body, "the bodies come in order, unchanged")
            tags.append(int.from_bytes(raw[5:8], "big"))
        in_pieces(server, b"".join(rdispatch(tag, body) for tag, body in zip(tags, bodies)), 2)
        client.gives(*(rdispatch(k + 1, body) for k, body in enumerate(bodies)))


@scenario
def large_bodies(start):
    """Frames up to the greatest size, many at once, both ways."""
    with start() as it:
        client, server = it.client(), it.servers["a"]
        Echo(server)
        rest = len(tdispatch(1, b"")) - 4
        largest = b"m" * (1_048_576 - rest)
        client.send(tdispatch(5, largest))
        client.gives(rdispatch(5, largest))
        flights = [Flight(it.client(), 40, 8, number, 65_536) for number in range(4)]
        fly_to_the_end(flights, 8)


@scenario
def too_large(start):
    """A frame above the limit ends its own connection alone."""
    with start("a b", {"/s/a": ["a"], "/s/b": ["b"]}, max_frame=64) as it:
        client, other, bad = it.client(), it.client(), it.client()
        a, b = it.servers["a"], it.servers["b"]
        rest = len(tdispatch(1, b"")) - 4
        reaches(client, 5, a, 2, b"m" * (64 - rest))
        reaches(bad, 6, a, 3)
        bad.send(b"\x00\x00\x00\x41")
        bad.ends()
        a.gives(client_gone(3))
        comes_back(a, 2, client, 5, b"r" * 57)
        reaches(other, 5, b, 2, dst=b"/s/b")
        b.send(rdispatch(2, b"r" * 58))
        other.gives(upstream_lost(5))
        b.ends()
        client.send(tdispatch(5))
        # Tag 3 is still held: its reply hasn't come.
        a.gives(tdispatch(2))
        other.fence()


@scenario
def least_frames(start):
    """With the least limit on frames all of the router's own messages still go out."""
    with start("a:probe", max_frame=32, window=1, out=5, history=16) as it:
        server = it.servers["a"]
        server.gives(PROBE)
        server.send(PROBE)
        server.gives(TINIT)
        server.send(RINIT)
        server.fence()
        client = it.client()
        reaches(client, 5, server, 2, b"m" * 18)
        client.send(TINIT)
        client.gives(rerr(1, b"tinit out of place"))
        client.close()
        server.gives(client_gone(2))
        server.close()
        it.comes_to("server a", "closed load 0")
        client = it.client()
        client.send(tdispatch(5))
        client.gives(nack(5))


CLIENTS_FAULTS = {
    "Fragment": "0000000441800001",
    "a fragment of a dispatch": "00000010028000060000" "00042f732f6100006869",
    "BadBody 2, a context's key": "00000009020000050001000561",
    "BadBody 0, a ping with a body": "000000054100000100",
    "BadBody 2, the destination": "0000000a02000005000000042f73",
    "BadBody 8, the dtab": "0000000c020000050000000000010000",
    "BadBody 0, Tinit": "000000054400000100",
    "BadBody 2, a header": "0000000a44000001000100000005",
    "BadBody 0, Tdiscarded": "00000006420000000000",
    "TooShort 0": "00000000",
    "TooShort 3": "00000003410000",
    "TooLarge": "00100001",
    "TooLarge, the greatest": "ffffffff",
    "TagZero": tdispatch(0).hex(),
    "TagInUse, a dispatch": tdispatch(5).hex(),
    "TagInUse, Tinit": frame(T["init"], 5, b"\x00\x01").hex(),
    "TagInUse, Treq": frame(T["req"], 5).hex(),
    "TagInUse, Tdrain": frame(T["drain"], 5).hex(),
    "TagInUse, Tlease": frame(T["lease"], 5, b"\x00" * 9).hex(),
    "TagInUse, an unknown T": frame(5, 5).hex(),
}


@scenario
def clients_malformed(start):
    """Each fault ends its own connection alone, and its dispatch is recalled."""
    with start() as it:
        good, server = it.client(), it.servers["a"]
        reaches(good, 5, server, 2, b"good")
        for name, raw in CLIENTS_FAULTS.items():
            bad = it.client()
            bad.who = name
            reaches(bad, 5, server, 3)
            bad.send(bytes.fromhex(raw), tdispatch(7))
            bad.ends()
            server.gives(client_gone(3))
            server.send(rdispatch(3, b"late"))
            server.fence()
            good.fence()
        bad = it.client()
        bad.send(tdispatch(5), tdispatch(6)[:9])
        server.gives(tdispatch(3))
        bad.close()
        server.gives(client_gone(3))
        comes_back(server, 2, good, 5)


SERVERS_FAULTS = {
    "Fragment": "00000004bf800001",
    "BadBody 0, Rdispatch": "00000004fe000002",
    "BadBody 1, Tlease": "0000000c430000000000000000000027",
    "BadBody 9, Tlease": "0000000e4300000000000000000000271000",
    "BadBody 0, a ping with a body": "000000054100000100",
    "BadBody 0, Rdiscarded with a body": "00000005be00000200",
    "TooShort": GARBAGE.hex(),
    "TooLarge": "7fffffff",
}


@scenario
def servers_malformed(start):
    """Each fault ends that server's connection alone, and its dispatch is answered."""
    names = [f"s{k}" for k in range(len(SERVERS_FAULTS))]
    with start(" ".join(["good", *names]), {"/good": ["good"], **{f"/{name}": [name] for name in names}}) as it:
        client, good = it.client(), it.servers["good"]
        reaches(client, 5, good, 2, dst=b"/good")
        for name, (fault, raw) in zip(names, SERVERS_FAULTS.items()):
            bad = it.servers[name]
            bad.who = f"server that sends {fault}"
            dst = b"/" + name.encode()
            client.send(tdispatch(6, dst=dst), tdispatch(7, dst=dst))
            bad.gives(tdispatch(2, dst=dst), tdispatch(3, dst=dst))
            bad.send(bytes.fromhex(raw), rdispatch(3))
            client.gives_all_of(upstream_lost(6), upstream_lost(7))
            bad.ends()
            it.comes_to(f"server {name}", "closed load 0")
            client.send(tdispatch(6, dst=dst))
            client.gives(nack(6))
            good.fence()
        comes_back(good, 2, client, 5)


@scenario
def server_asks(start):
    """What a server asks is answered, and what has no meaning is dropped."""
    with start() as it:
        client, server = it.client(), it.servers["a"]
        server.send(PING, frame(T["ping"], 0), frame(T["req"], 0), frame(T["req"], 3, b"?"))
        server.gives(PONG, frame(R["ping"], 0), rerr(3, b"unsupported"))
        server.send(tdispatch(4), tdispatch(0), frame(T["init"], 6, b"\x00\x01"), frame(5, 7, b"an unknown T"))
        server.gives(rerr(4, b"unsupported"), rerr(6, b"unsupported"), rerr(7, b"unsupported"))
        server.send(tdiscarded(2), rdispatch(2), rdiscarded(3), rerr(2, b"stray"), rerr(1, b"tinit check"), RINIT, PONG)
        server.send(frame(R["drain"], 1), frame(0, 3), frame(-3 & 255, 3))
        server.fence()
        reaches(client, 5, server, 2)
        server.send(rdispatch(3, b"stray"), rdispatch(2))
        client.gives(rdispatch(5))
        client.fence()
