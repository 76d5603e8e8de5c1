"""Connections that end: clients, servers, the router itself by `quit`."""
import resource
import threading
import time

from reading import frame
from wire_parts import (
    A_WHILE, GARBAGE, PATIENCE, Echo, Flight, client_gone, comes_back, fly, is_answered, is_served, nack, need,
    rdiscarded, rdispatch, reaches, scenario, tdiscarded, tdispatch, upstream_lost,
)


@scenario
def client_goes(start):
    """Its dispatches are recalled, oldest first; late replies go nowhere."""
    with start() as it:
        gone, server = it.client(), it.servers["a"]
        # With several threads the other one might get the first number.
        gone.fence()
        other = it.client()
        gone.send(tdispatch(7), tdispatch(5), tdispatch(6))
        server.gives(tdispatch(2), tdispatch(3), tdispatch(4))
        gone.send(tdiscarded(5))
        gone.gives(rdiscarded(5))
        server.gives(tdiscarded(3))
        gone.close()
        server.gives(client_gone(2), client_gone(4))
        it.comes_to("client 1", "closed entries 3")
        reaches(other, 5, server, 5)
        server.send(rdispatch(4, b"late"), rdispatch(3, b"late"), rdispatch(2, b"late"), rdispatch(5))
        other.gives(rdispatch(5))
        other.fence()
        it.comes_to("client 1", "closed entries 0")
        it.comes_to("server a", "open load 0")


@scenario
def client_resets(start):
    """A reset is an end like any other; so is the end of what the client sends."""
    with start() as it:
        server = it.servers["a"]
        for end in (lambda link: link.cut(), lambda link: link.sock.shutdown(1)):
            client = it.client()
            reaches(client, 5, server, 2)
            end(client)
            server.gives(client_gone(2))
            server.send(rdispatch(2))
            server.fence()
        client.ends()


@scenario
def server_is_lost(start):
    with start("a b", {"/s/a": ["a"], "/s/b": ["b"]}) as it:
        client, other, a, b = it.client(), it.client(), it.servers["a"], it.servers["b"]
        client.send(tdispatch(5), tdispatch(6), tdispatch(7), tdispatch(8, dst=b"/s/b"))
        a.gives(tdispatch(2), tdispatch(3), tdispatch(4))
        b.gives(tdispatch(2, dst=b"/s/b"))
        reaches(other, 6, a, 5)
        client.send(tdiscarded(6))
        client.gives(rdiscarded(6))
        a.gives(tdiscarded(3))
        comes_back(a, 2, client, 5)
        a.close()
        client.gives(upstream_lost(7))
        other.gives(upstream_lost(6))
        it.comes_to("server a", "closed load 0")
        client.send(tdispatch(5))
        client.gives(nack(5))
        comes_back(b, 2, client, 8)
        other.fence()


@scenario
def server_ends_inside_a_frame(start):
    with start("a b") as it:
        client, a, b = it.client(), it.servers["a"], it.servers["b"]
        client.send(tdispatch(5), tdispatch(6))
        a.gives(tdispatch(2))
        b.gives(tdispatch(2))
        a.send(rdispatch(2)[:-1])
        a.cut()
        client.gives(upstream_lost(5))
        comes_back(b, 2, client, 6)
        reaches(client, 5, b, 2)


@scenario
def server_is_absent(start):
    """It counts as lost; others go on."""
    with start("a b:absent c", {"/s/a": ["b", "a"], "/s/b": ["b"], "/s/c": ["c"]}) as it:
        client, a = it.client(), it.servers["a"]
        it.comes_to("server b", "closed load 0")
        client.send(tdispatch(5, dst=b"/s/b"))
        client.gives(nack(5))
        is_answered(client, 5, a, 2)
        it.ask("retire b", "error Closed")


@scenario
def no_server_at_all(start):
    with start("") as it:
        client = it.client()
        client.send(tdispatch(5))
        client.gives(frame(0x80, 5, b"no route"))
        client.fence()


@scenario
def server_sends_garbage(start):
    with start("a b") as it:
        client, a, b = it.client(), it.servers["a"], it.servers["b"]
        client.send(tdispatch(5), tdispatch(6))
        a.gives(tdispatch(2))
        b.gives(tdispatch(2))
        a.send(GARBAGE, b"HTTP/1.1 400 Bad Request\r\n\r\n")
        client.gives(upstream_lost(5))
        a.ends()
        comes_back(b, 2, client, 6)
        b.fence()


@scenario
def server_never_reads(start):
    """Clients are held back; once the server is gone each dispatch has its answer."""
    with start("a b", {"/s/a": ["a"], "/s/b": ["b"]}, window=16, out=32) as it:
        stuck, other = it.client(), it.client()
        Echo(it.servers["b"])
        flights = [Flight(stuck, 400, 32, 1, 65_536), Flight(other, 400, 8, 2, 100, b"/s/b")]
        fly(flights, 1.5)
        need(flights[1].is_done() and not flights[1].nacks and not flights[1].others, "the other client goes on")
        need(not flights[0].is_done(), "a server that reads nothing held nobody back")
        need(it.program.resident() < 400, f"the router holds {it.program.resident()} MiB")
        it.servers["a"].cut()
        need(fly(flights[:1], 5) and not flights[0].is_ended, "not every dispatch was answered")
        answers = flights[0].nacks + len(flights[0].others)
        need(answers == 400, f"{answers} of 400 were nacked or lost")
        need(all(raw[8:] == b"upstream lost" for raw in flights[0].others), "an answer of another kind")


class Story:
    """A client and a server whose calls go on after one of them is lost."""

    def __init__(self, rig):
        self.rig, self.client, self.server = rig, rig.client(), rig.servers["a"]
        self.client.fence()
        self.open, self.upstream = None, 2

    def dispatch(self, tag):
        if self.client is None:
            return
        self.client.send(tdispatch(tag))
        if self.server is None:
            self.client.gives(nack(tag))
        else:
            self.server.gives(tdispatch(self.upstream))
            self.open = tag

    def discard(self, tag):
        if self.client is None:
            return
        self.client.send(tdiscarded(tag))
        if self.open == tag:
            self.client.gives(rdiscarded(tag))
            self.server.gives(tdiscarded(self.upstream))
            self.open = None
        self.client.fence()

    def reply(self):
        if self.server is None:
            return
        self.server.send(rdispatch(self.upstream))
        if self.open is not None:
            self.client.gives(rdispatch(self.open))
            self.open = None
        self.server.fence()

    def lose_client(self, close):
        close(self.client)
        self.client = None
        if self.open is not None:
            self.server.gives(client_gone(self.upstream))
            self.open = None
        self.rig.comes_to("client 1", "closed")

    def lose_server(self, close):
        close(self.server)
        self.server = None
        if self.open is not None:
            self.client.gives(upstream_lost(self.open))
            self.open = None
        self.rig.comes_to("server a", "closed load 0")
        self.client.fence()


CALLS = (
    lambda story: story.dispatch(5),
    lambda story: story.reply(),
    lambda story: story.discard(5),
    lambda story: story.dispatch(6),
    lambda story: story.discard(6),
    lambda story: story.reply(),
    lambda story: story.dispatch(7),
    lambda story: story.reply(),
)


def lost_after_each_call(start, lose):
    for place in range(len(CALLS) + 1):
        for close in (lambda link: link.close(), lambda link: link.cut()):
            with start() as it:
                story = Story(it)
                for call in CALLS[:place]:
                    call(story)
                lose(story, close)
                for call in CALLS[place:]:
                    call(story)


@scenario
def client_lost_after_each_call(start):
    lost_after_each_call(start, Story.lose_client)


@scenario
def server_lost_after_each_call(start):
    lost_after_each_call(start, Story.lose_server)


@scenario
def quit_at_rest(start):
    """The far ends see the end of their connections."""
    with start("a b:probe") as it:
        client = it.client()
        client.fence()
        it.servers["b"].frame()
        it.quit()
        client.ends()
        it.servers["a"].ends()
        it.servers["b"].ends()


@scenario
def quit_with_dispatches_open(start):
    with start() as it:
        clients, server = [it.client() for _ in range(8)], it.servers["a"]
        for client in clients:
            client.send(*(tdispatch(tag) for tag in range(1, 51)))
        tags = [int.from_bytes(server.frame()[5:8], "big") for _ in range(400)]
        server.send(*(rdispatch(tag) for tag in tags[::4]))
        it.quit()
        for link in (*clients, server):
            link.drains_to_the_end()


@scenario
def loopback_quit(start):
    """A client that never reads, with megabytes of replies under way."""
    with start() as it:
        client, server = it.client(receives=4096), it.servers["a"]
        Echo(server)
        client.sock.setblocking(False)
        flight = Flight(client, 400, 400, 1, 65_536)
        until = time.monotonic() + 1
        while time.monotonic() < until:
            flight.write()
            time.sleep(0.01)
        it.quit()


@scenario
def quit_with_a_server_that_never_reads(start):
    with start() as it:
        fly([Flight(it.client(), 400, 400, 1, 65_536)], 1)
        it.quit()


@scenario
def quit_with_an_operator_who_never_reads(start):
    """He gets no more than his connection holds, and is in nobody's way for long."""
    with start(admin_idle_ms=300) as it:
        stuck = it.operator(receives=4096)
        stuck.link.sock.settimeout(0.5)
        try:
            for _ in range(100):
                stuck.link.sock.sendall(b"status\n" * 5_000)
        except OSError:
            pass
        other = it.operator()
        other.send("quit\n")
        need(other.line(8) == "bye", "the next operator is served")
        it.closes()


@scenario
def quit_and_go(start):
    """An operator who sends `quit` and reads nothing, or is gone before the answer."""
    with start() as it:
        it.operator().send("quit\n")
        it.closes()
    with start() as it:
        operator = it.operator()
        operator.send("quit\n")
        operator.close()
        it.closes()


@scenario
def quit_in_traffic(start):
    with start("a b") as it:
        for server in it.servers.values():
            Echo(server)
        flights = [Flight(it.client(), 1_000_000, 16, number, 100) for number in range(8)]
        until = time.monotonic() + 8
        while not all(one.answered for one in flights) and time.monotonic() < until:
            fly(flights, 0.05)
        need(all(one.answered for one in flights), "the traffic runs")
        need(not any(one.nacks or one.others for one in flights), "a nack or an error in traffic")
        operator = it.operator()
        operator.send("quit\n")
        fly(flights, 1)
        operator.gives("bye")
        need(all(one.is_ended for one in flights), "the clients see the end")
        others = {raw[8:] for one in flights for raw in one.others}
        need(others <= {b"upstream lost"}, f"answers at the end: {others}")
        it.closes()


def has_room(it, more):
    """The router may have so many more bytes than it has; None: as many as it wants."""
    with open(f"/proc/{it.program.ran.pid}/statm") as pages:
        size = int(pages.read().split()[0]) * resource.getpagesize()
    most = resource.RLIM_INFINITY if more is None else size + more
    resource.prlimit(it.program.ran.pid, resource.RLIMIT_AS, (most, resource.RLIM_INFINITY))


@scenario
def server_whose_reader_finds_no_memory(start):
    """A reply for which there is no memory waits until there is some, and so do those behind it. The server isn't lost."""
    body = bytes(range(256)) * 40_000
    with start("a b", {"/s/a": ["a"], "/s/b": ["b"]}, max_frame=16_000_000, tick_ms=50) as it:
        client, server = it.client(), it.servers["a"]
        Echo(it.servers["b"])
        client.fence()
        client.send(tdispatch(5), tdispatch(6))
        server.gives(tdispatch(2), tdispatch(3))
        has_room(it, 1_000_000)
        sending = threading.Thread(target=server.send, args=(rdispatch(2, body), rdispatch(3)), daemon=True)
        sending.start()
        time.sleep(2 * A_WHILE)
        need(it.row("server a").startswith("open load 2"), f"server a is {it.row('server a')}")
        need(sending.is_alive(), "the router has read all of the reply")
        is_served(client, 7, b"meanwhile", b"/s/b")
        has_room(it, None)
        sending.join(PATIENCE)
        need(not sending.is_alive(), "the router doesn't read on")
        need(client.frame() == rdispatch(5, body), "another reply")
        client.gives(rdispatch(6))
        is_answered(client, 5, server, 3)


def send_in_vain(link, frame):
    """The router may end the connection before all of it was sent."""
    try:
        link.sock.sendall(frame)
    except OSError:
        pass


@scenario
def client_whose_reader_finds_no_memory(start):
    """It is lost, and nobody else."""
    with start(max_frame=16_000_000, tick_ms=50, threads=1) as it:
        greedy, other = it.client(), it.client()
        Echo(it.servers["a"])
        greedy.fence()
        is_served(other, 5)
        has_room(it, 1_000_000)
        whole = tdispatch(5, bytes(12_000_000))
        threading.Thread(target=send_in_vain, args=(greedy, whole), daemon=True).start()
        greedy.ends()
        is_served(other, 5)
        has_room(it, None)
