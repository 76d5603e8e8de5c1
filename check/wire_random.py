"""Random traffic over sockets. Clients and servers do what they may at random, and at times go away; each frame that
they get is held against what all ends have sent, by no rule of the router's own. At the end everything is answered."""
import random
import select
import sys
import time

from reading import FINAL, NACK, R, T, Fault, frame
from wire_parts import (
    GARBAGE,
    PATIENCE,
    Link,
    client_gone,
    need,
    payload,
    rdiscarded,
    rdispatch,
    rerr,
    scenario,
    tdiscarded,
    tdispatch,
    tlease,
    whole_frames,
)

DESTINATIONS = (b"/s/a", b"/s/b", b"/s/none")
SOME = ((), ((b"k", b"v"),))


class Dispatch:
    """What a client sent; `sendings` has the server of each sending and its reply."""

    def __init__(self, client, body, is_late):
        self.client, self.body, self.is_late = client, body, is_late
        self.is_discarded = False
        self.sendings = []

    def all_nacked(self):
        return all(it.reply and it.reply[0] == R["dispatch"] and it.reply[1][0] == 2 for it in self.sendings)


class Sending:
    def __init__(self, server):
        self.server, self.reply = server, None


class Peer:
    def __init__(self, link, name):
        self.link, self.name = link, name
        self.is_alive = True
        self.waits, self.pings = {}, []
        # A client was asked to drain; either side has sent its Rdrain, or got it.
        self.is_asked = self.is_drained = False
        self.lease_ends = None
        # The number of the first dispatch that was made after it was retired.
        self.retired_at = None
        # A server doesn't hear of what it was told to end twice.
        self.discarded = set()


class Chaos:
    def __init__(self, rig, seed, seconds, retries, may_end=False, comes=False):
        self.rig, self.one, self.retries, self.may_end = rig, random.Random(seed), retries, may_end
        # Whether servers that went are connected to again.
        self.comes = comes
        self.dispatches, self.counts = [], {}
        self.clients = []
        self.servers = [Peer(link, name) for name, link in rig.servers.items()]
        self.ends_at = time.monotonic() + seconds

    def count(self, what):
        self.counts[what] = self.counts.get(what, 0) + 1

    def alive(self, peers):
        return [it for it in peers if it.is_alive]

    def send(self, peer, *frames):
        raw = b"".join(frames)
        cut = self.one.randrange(1, len(raw)) if self.one.random() < 0.1 else len(raw)
        try:
            peer.link.send(raw[:cut])
            if cut < len(raw):
                peer.link.send(raw[cut:])
        except Fault:
            if not self.may_close(peer):
                raise
            self.is_ended(peer)

    def may_close(self, peer):
        """Whether the router may have closed it: as it does with a server that takes no dispatch, and holds none."""
        is_done = self.comes and peer in self.servers and not peer.waits
        return self.may_end or is_done and (peer.is_asked or peer.is_drained or peer.retired_at is not None)

    def is_ended(self, peer):
        need(self.may_close(peer), f"the router closed the connection of {peer.link.who}")
        self.count(f"the router ended {'a client' if peer in self.clients else 'a server'}")
        peer.is_alive = False

    # What clients do.

    def connects(self):
        if len(self.alive(self.clients)) < 6:
            self.clients.append(Peer(self.rig.client(), len(self.clients) + 1))

    def a_client(self):
        some = self.alive(self.clients)
        return self.one.choice(some) if some else None

    def dispatches_some(self):
        client = self.a_client()
        frames = []
        for tag in self.one.sample(range(1, 40), self.one.choice((1, 1, 2, 8)) if client else 0):
            if tag in client.waits:
                continue
            number = len(self.dispatches)
            raw = tdispatch(tag, number.to_bytes(4, "big") + b"b" * self.one.choice((0, 3, 300)),
                            self.one.choices(DESTINATIONS, (10, 10, 1))[0], self.one.choice(SOME), self.one.choice(SOME))
            self.dispatches.append(Dispatch(client, raw[8:], client.is_drained))
            client.waits[tag] = number
            frames.append(raw)
        if frames:
            self.send(client, *frames)

    def discards(self):
        client = self.a_client()
        if client and client.waits:
            tag = self.one.choice(sorted(client.waits))
            self.dispatches[client.waits[tag]].is_discarded = True
            self.send(client, tdiscarded(tag, b"why", self.one.choice((0x42, 0xC2))))

    def pings(self):
        peer = self.one.choice(self.alive(self.clients + self.servers))
        tag = self.one.randrange(100, 200)
        peer.pings.append(tag)
        self.send(peer, frame(T["ping"], tag))

    def drained(self):
        client = self.a_client()
        if client and client.is_asked and not client.is_drained:
            client.is_drained = True
            self.send(client, frame(R["drain"], 1))

    def goes(self):
        client = self.a_client()
        if client:
            client.is_alive = False
            self.ends(client)

    # What servers do.

    def a_server(self):
        some = [it for it in self.alive(self.servers) if it.waits]
        return self.one.choice(some) if some else None

    def reply_to(self, server, tag, is_plain=False):
        sending = server.waits.pop(tag)
        number = sending[0]
        status, kind = 0, R["dispatch"]
        if not is_plain:
            status = self.one.choices((0, 1, 2, 9), (60, 5, 30, 5))[0]
            kind = self.one.choices((R["dispatch"], R["err"], R["old_err"], R["discarded"]), (90, 4, 2, 4))[0]
        text = number.to_bytes(4, "big") + b"r" * self.one.choice((0, 5, 500))
        if kind == R["dispatch"]:
            raw = rdispatch(tag, text, status, self.one.choice(SOME))
        else:
            raw = rdiscarded(tag) if kind == R["discarded"] else frame(kind, tag, b"no " + text)
        sending[1].reply = (raw[4], raw[8:])
        return raw

    def replies(self):
        server = self.a_server()
        if server:
            tags = self.one.sample(sorted(server.waits), min(len(server.waits), self.one.choice((1, 2, 9))))
            self.send(server, *(self.reply_to(server, tag) for tag in tags))

    def replies_to_nothing(self):
        server = self.one.choice(self.alive(self.servers))
        self.send(server, rdispatch(7_000_000), rerr(7_000_001, b"stray"), tdiscarded(2), frame(R["ping"], 5))

    def grants(self):
        server = self.one.choice(self.alive(self.servers))
        if self.one.random() < 0.5:
            lease = self.one.choice((50, 300, 60_000, 60_000))
            # The router may have granted it as late as now.
            server.lease_ends = time.monotonic() + lease / 1000 + 2
            self.send(server, tlease(lease))

    def drains(self):
        if self.one.random() < 0.1 and self.serving() > 3:
            server = self.one.choice(self.alive(self.servers))
            server.is_asked = True
            self.send(server, frame(T["drain"], self.one.choice((0, 1, 99))))

    def retires(self):
        if self.one.random() < 0.1 and self.serving() > 3:
            server = self.one.choice(self.alive(self.servers))
            # A session whose places are used up can't be retired, nor one that isn't open again yet.
            others = ["error Spent"] * self.may_end + ["error Closed"] * self.comes
            if self.is_told(f"retire {server.name}", ("ok", *others)):
                server.retired_at = server.retired_at or len(self.dispatches)

    def is_told(self, order, replies):
        """Whether an order gets the first of these replies; it gets one of them."""
        operator = self.rig.operator()
        operator.send(order + "\n")
        got = operator.line()
        need(got in replies, f"{order}: {got}")
        operator.close()
        self.rig.operators.remove(operator)
        return got == replies[0]

    def serving(self):
        return sum(it.is_alive and not it.is_drained and it.retired_at is None for it in self.servers)

    def server_goes(self):
        if self.one.random() < (0.5 if self.comes else 0.1) and self.serving() > 3:
            server = self.one.choice(self.alive(self.servers))
            server.is_alive = False
            self.ends(server)

    def server_is_back(self):
        """Takes the connection that the router made to a server that went."""
        gone = {it.name for it in self.servers} - {it.name for it in self.alive(self.servers)}
        for name in sorted(gone) if self.comes else ():
            self.rig.listeners[name].settimeout(0)
            try:
                sock, _ = self.rig.listeners[name].accept()
            except BlockingIOError:
                continue
            self.count("a server is back")
            need(all(it.retired_at is None for it in self.servers if it.name == name), f"{name} is back, and was retired")
            self.servers.append(Peer(self.rig.kept(Link(sock, f"server {name}")), name))

    def ends(self, peer):
        self.count(f"an end of {'a client' if peer in self.clients else 'a server'}")
        if self.one.random() < 0.3:
            self.send(peer, self.one.choice((GARBAGE, frame(T["ping"], 0x800001), tdispatch(0), b"\x00\x00\x00")))
        self.one.choice((peer.link.close, peer.link.cut))()

    def orders(self):
        names = [it.name for it in self.servers]
        some = ",".join(self.one.sample(names, self.one.randint(1, len(names))))
        line = self.one.choice((
            "status", "status", f"route /s/b {some}", f"route /s/b {some}", "unroute /s/b", "nonsense", "retire zz",
            f"drain client {self.one.randint(1, len(self.clients) + 1)}",
        ))
        operator = self.rig.operator()
        operator.send(line + "\n")
        if line == "status":
            operator.report()
        else:
            got = operator.line()
            need(got == "ok" or got.startswith("error "), f"{line}: {got}")
            self.count(f"{line.split(' ')[0]}: {got}")
        operator.close()
        self.rig.operators.remove(operator)

    # What they get.

    def take_all(self, wait=0.0):
        by_socket = {it.link.sock: it for it in self.alive(self.clients + self.servers)}
        ready, _, _ = select.select(list(by_socket), [], [], wait)
        for sock in ready:
            peer = by_socket[sock]
            is_open = peer.link.read_some(time.monotonic() + 0.001)
            taker = self.client_takes if peer in self.clients else self.server_takes
            for raw in whole_frames(peer.link.held):
                taker(peer, raw, raw[4], int.from_bytes(raw[5:8], "big"))
            if is_open is False:
                self.is_ended(peer)

    def client_takes(self, client, raw, kind, tag):
        who = client.link.who
        if kind == R["ping"]:
            need(tag in client.pings, f"{who}: an answer to no ping")
            client.pings.remove(tag)
        elif kind == T["drain"]:
            need(tag == 1 and not client.is_asked, f"{who}: a second Tdrain")
            client.is_asked = True
        else:
            need(kind in FINAL and tag in client.waits, f"{who}: {raw[:60].hex()} on a tag that isn't open")
            self.answers(self.dispatches[client.waits.pop(tag)], kind, raw[8:], f"{who}: {raw[:60].hex()}")

    def answers(self, dispatch, kind, body, what):
        last = dispatch.sendings[-1] if dispatch.sendings else None
        if last and last.reply and body == last.reply[1] and (
                kind == last.reply[0] or (kind, last.reply[0]) == (R["err"], R["old_err"])):
            self.count(f"passed on: {kind:#x}{f', status {body[0]}' if kind == R['dispatch'] else ''}")
        elif kind == R["discarded"]:
            need(dispatch.is_discarded, f"{what}: nobody discarded it")
            self.count("discarded")
        elif kind == R["dispatch"]:
            need(body == NACK, f"{what}: not its server's reply")
            need(dispatch.all_nacked(), f"{what}: a nack of what was not nacked")
            self.count("nacked, drained" if dispatch.is_late else "nacked")
        elif body == b"no route":
            need(dispatch.all_nacked(), f"{what}: no route for what was sent")
            self.count("no route")
        else:
            need(body == b"upstream lost", f"{what}: another error")
            # A server that went away may not have read what it was sent, nor its last reply have got through.
            is_lost = not last.server.is_alive if last else False
            is_lost = is_lost or not all(it.is_alive for it in self.servers) and dispatch.all_nacked()
            need(is_lost or self.may_end, f"{what}: its server isn't lost")
            self.count("upstream lost")

    def server_takes(self, server, raw, kind, tag):
        who = server.link.who
        if kind == R["ping"]:
            need(tag in server.pings, f"{who}: an answer to no ping")
            server.pings.remove(tag)
        elif kind == R["drain"]:
            server.is_drained = True
        elif kind == T["discarded"]:
            self.is_recalled(server, int.from_bytes(raw[8:11], "big"), raw, f"{who}: {raw[:60].hex()}")
        else:
            need(kind == T["dispatch"], f"{who}: {raw[:60].hex()}")
            self.is_sent(server, tag, raw, f"{who}: {raw[:60].hex()}")

    def is_recalled(self, server, tag, raw, what):
        if tag not in server.waits:
            return
        number, sending = server.waits[tag]
        dispatch = self.dispatches[number]
        need(raw in (tdiscarded(tag, b"why"), client_gone(tag)), f"{what}: another reason")
        # The end of a client that the router closed may still be on its way.
        is_gone = not dispatch.client.is_alive or self.may_end
        need(dispatch.is_discarded or is_gone, f"{what}: nobody discarded it")
        need(is_gone or raw == tdiscarded(tag, b"why"), f"{what}: the client isn't gone")
        need(sending not in server.discarded, f"{what}: recalled twice")
        server.discarded.add(sending)
        self.count("recalled, gone" if raw == client_gone(tag) else "recalled")

    def is_sent(self, server, tag, raw, what):
        number = int.from_bytes(payload(raw[8:])[:4], "big")
        need(number < len(self.dispatches), f"{what}: nobody sent this")
        dispatch = self.dispatches[number]
        need(raw[8:] == dispatch.body, f"{what}: changed on its way")
        need(tag >= 2 and tag not in server.waits, f"{what}: on a tag that is open")
        need(not server.is_drained, f"{what}: sent after Rdrain")
        need(server.retired_at is None or number < server.retired_at, f"{what}: sent to a retired server")
        need(server.lease_ends is None or time.monotonic() < server.lease_ends, f"{what}: sent on a lapsed lease")
        need(not dispatch.is_late, f"{what}: its client had sent Rdrain")
        need(dispatch.all_nacked() and len(dispatch.sendings) <= self.retries, f"{what}: sent again")
        sending = Sending(server)
        dispatch.sendings.append(sending)
        server.waits[tag] = (number, sending)
        self.count(f"sent, {len(dispatch.sendings)}")

    def runs(self):
        ways = ((self.connects, 6), (self.dispatches_some, 40), (self.discards, 8), (self.pings, 3), (self.drained, 2),
                (self.goes, 0.7), (self.replies, 40), (self.replies_to_nothing, 1), (self.grants, 1), (self.drains, 1),
                (self.server_goes, 1), (self.server_is_back, 10), (self.retires, 0.5), (self.orders, 3))
        while time.monotonic() < self.ends_at:
            way, = self.one.choices([it for it, _ in ways], [weight for _, weight in ways])
            way()
            self.take_all()
        self.comes_to_rest()

    def comes_to_rest(self):
        """Each server answers what it has; then nobody waits for anything."""
        until = time.monotonic() + 8
        while time.monotonic() < until:
            self.take_all(0.02)
            self.server_is_back()
            for server in self.alive(self.servers):
                if server.waits:
                    self.send(server, *(self.reply_to(server, tag, True) for tag in sorted(server.waits)))
            if not any(it.waits or it.pings for it in self.alive(self.clients + self.servers)):
                return
        waiting = [f"{it.link.who}: {len(it.waits)} dispatches, {len(it.pings)} pings"
                   for it in self.alive(self.clients + self.servers) if it.waits or it.pings]
        need(False, f"still waiting: {waiting}")


def held_in(status):
    """The rows of a report that have open dispatches, but for those of clients that are gone."""
    rows = [row.split(" ") for row in status if row.startswith(("client ", "server "))]
    return [row for row in rows if row[4] != "0" and (row[2] != "closed" or row[0] == "server")]


def random_run(start, seed, seconds=1, may_end=False, **keys):
    with start("a b c d e f", {"/s/a": ["a", "b", "c", "d", "e", "f"], "/s/b": ["d", "c"]}, **keys) as it:
        chaos = Chaos(it, seed, seconds, keys.get("retries", 0), may_end, "reconnect_ms" in keys)
        try:
            chaos.runs()
        except BaseException:
            print(f"seed {seed}: {chaos.counts}", file=sys.stderr)
            raise
        # A thread may still have to note where a dispatch went that was answered meanwhile, or to send one of a
        # client that left.
        until = time.monotonic() + PATIENCE
        while held := held_in(it.status()):
            need(time.monotonic() < until, f"status at rest: {held}")
            chaos.comes_to_rest()


@scenario
def random_traffic(start):
    random_run(start, 1)


@scenario
def random_traffic_sent_again(start):
    random_run(start, 2, retries=2)


@scenario
def random_traffic_of_small_windows(start):
    random_run(start, 3, retries=1, window=8, out=16)


@scenario
def random_traffic_of_short_histories(start):
    random_run(start, 4, retries=1, window=8, out=16, history=96, tick_ms=50)


@scenario
def random_traffic_of_too_short_histories(start):
    """Below the bound that CONFIG states: sessions may be lost, and no answer is wrong for it."""
    random_run(start, 6, may_end=True, retries=3, window=8, out=16, history=48, tick_ms=50)


@scenario
def random_traffic_to_servers_that_come_back(start):
    for seed, audit, threads in ((7, "close", 1), (8, "rolling", 1), (9, "close", 3), (10, "rolling", 3)):
        keys = {"audit": audit, "threads": threads, "window": 8, "out": 16, "history": 128}
        random_run(start, seed, retries=1, tick_ms=20, reconnect_ms=20, **keys)


@scenario
def random_traffic_with_all_keys(start):
    for seed, audit, threads in ((11, "close", 1), (12, "rolling", 3)):
        keys = {"audit": audit, "threads": threads, "window": 8, "out": 16, "history": 192, "server_window": 32,
                "server_out": 64, "server_history": 768, "eject_after": 2, "eject_ms": 100, "client_idle_ms": 10_000,
                "frame_ms": 5_000, "server_silent_ms": 10_000, "admin_idle_ms": 10_000, "max_frame": 65_536,
                "out_bytes": 1_048_576}
        random_run(start, seed, retries=1, tick_ms=20, reconnect_ms=20, **keys)
