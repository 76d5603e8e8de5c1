"""The order `stop`: nobody comes in any more, and the router ends once its clients have their answers."""
import socket
import time

from reading import R, T, frame
from wire_parts import (
    HOST, RDRAIN, TDRAIN, Echo, Fault, Flight, Operator, connected, fly, free_port, is_served, need, rdispatch, reaches,
    scenario, tdispatch,
)

SIZE = 16 * 1024


def started(start, servers="a", **keys):
    """A router with the operator's second port, and that port."""
    port = free_port()
    return start(servers, operator=f"{HOST}:{port}", **keys), port


def told(it, port, line, answer):
    """The connection on which the order was given. It ends with the router."""
    operator = Operator(port)
    it.operators.append(operator)
    operator.ask(line, answer)
    return operator


class Leaver(Flight):
    """A client that keeps dispatches of 16 KiB on their way until it is drained, and closes once all are answered; or `waits`
    for the router to close; or connects `anew` when it is drained."""

    def __init__(self, rig, flights, number, how):
        super().__init__(rig.client(), 1_000_000, 16, number=number, size=SIZE)
        self.rig, self.flights, self.how = rig, flights, how
        self.refused, self.last = 0, time.monotonic()

    def is_done(self):
        return self.is_ended

    def take(self, raw):
        super().take(raw)
        self.last = time.monotonic()
        if raw == TDRAIN:
            self.total = self.sent
            self.out += RDRAIN
            if self.how == "anew":
                self.connect_anew()

    def connect_anew(self):
        try:
            self.flights.append(Leaver(self.rig, self.flights, len(self.flights), "leaves"))
        except ConnectionRefusedError:
            self.refused += 1

    def write(self):
        super().write()
        if self.drains and self.how != "waits" and not self.open and not self.out and not self.is_ended:
            self.is_ended = True
            self.link.close()


@scenario
def stop_loses_nothing(start):
    """Of 64 clients at work, that stop sending at their Tdrain, no dispatch stays without its reply."""
    it, port = started(start, "a b", clients=100, tick_ms=200)
    with it:
        for server in it.servers.values():
            Echo(server)
        flights = []
        for number in range(64):
            flights.append(Leaver(it, flights, number, ("leaves", "waits", "anew")[number % 3]))
        fly(flights, 1.5)
        need(not any(one.is_ended for one in flights), "a client ended before the order")
        told(it, port, "stop 20", "stopping 64 open")
        need(fly(flights, 15), "not all clients have left")
        last = max(one.last for one in flights)
        it.closes()
        took = time.monotonic() - last
        lost = sum(len(one.open) for one in flights)
        need(lost == 0, f"{lost} of {sum(one.sent for one in flights)} dispatches have no answer")
        need(all(one.drains == 1 for one in flights), "a client was not asked, or more than once")
        need(not any(one.nacks or one.others for one in flights), "a dispatch was answered otherwise")
        need(sum(one.refused for one in flights) == 21 and len(flights) == 64, "a client came in after its Tdrain")
        need(sum(one.answered for one in flights) > 2 * 64 * 16, "there was no load")
        need(took < 3, f"it ended {took:.1f} s after the last answer")


@scenario
def stop_in_turns(start):
    """Of many clients a hundred are asked at a time, with 50 ms between, whenever the ticks are."""
    it, port = started(start, clients=300, tick_ms=60_000)
    with it:
        clients = [it.client() for _ in range(250)]
        for client in clients:
            client.fence()
        begun = time.monotonic()
        told(it, port, "stop 20", "stopping 250 open")
        for client in clients:
            client.gives(TDRAIN)
        took = time.monotonic() - begun
        need(0.095 < took < 2, f"the last one was asked after {took:.3f} s")
        for client in clients:
            client.send(RDRAIN)
            client.ends()
        it.closes()


@scenario
def stop_in_time(start):
    """A client that passes its Tdrain over, and whose dispatch is never answered, is closed after the time that was given."""
    it, port = started(start, tick_ms=100)
    with it:
        client, server = it.client(), it.servers["a"]
        reaches(client, 5, server, 2)
        begun = time.monotonic()
        operator = told(it, port, "stop 1", "stopping 1 open")
        client.gives(TDRAIN)
        client.is_silent(0.7)
        # (perhaps `upstream lost`, with several threads)
        client.drains_to_the_end()
        operator.ends()
        it.closes()
        took = time.monotonic() - begun
        need(0.95 < took < 3, f"it ended after {took:.2f} s")


@scenario
def stop_writes_what_it_has(start):
    """Replies that the router has come to a client that reads late, over many ticks."""
    it, port = started(start, tick_ms=20)
    with it:
        client, server = it.client(receives=4_096), it.servers["a"]
        body = b"x" * SIZE
        client.send(*(tdispatch(tag) for tag in range(10, 210)))
        server.gives(*(tdispatch(tag) for tag in range(2, 202)))
        told(it, port, "stop", "stopping 1 open")
        client.gives(TDRAIN)
        client.send(RDRAIN)
        it.comes_to("client 1", "drained")
        server.send(*(rdispatch(tag, body) for tag in range(2, 202)))
        it.comes_to("client 1", "drained entries 0")
        time.sleep(1)
        client.gives(*(rdispatch(tag, body) for tag in range(10, 210)))
        client.ends()
        it.closes()


@scenario
def stop_hears_a_client_out(start):
    """A client that sends something before it has read its last replies gets them all, and no reset."""
    it, port = started(start, tick_ms=60_000)
    with it:
        client, server = it.client(receives=4_096), it.servers["a"]
        body = b"x" * SIZE
        client.send(*(tdispatch(tag) for tag in range(10, 30)))
        server.gives(*(tdispatch(tag) for tag in range(2, 22)))
        told(it, port, "stop", "stopping 1 open")
        client.gives(TDRAIN)
        client.send(RDRAIN)
        it.comes_to("client 1", "drained")
        server.send(*(rdispatch(tag, body) for tag in range(2, 22)))
        time.sleep(0.3)
        for tag in range(20):
            time.sleep(0.02)
            client.send(frame(T["ping"], 90 + tag))
        client.gives(*(rdispatch(tag, body) for tag in range(10, 30)))
        client.drains_to_the_end()
        it.closes()


@scenario
def stop_lets_nobody_in(start):
    """The port is closed at once; who came before is served once more, and one that sends nothing is closed."""
    it, port = started(start, tick_ms=500)
    with it:
        Echo(it.servers["a"])
        first, silent, late = it.client(), it.client(), it.client()
        is_served(first, 5)
        told(it, port, "stop 20", "stopping 3 open")
        late.send(tdispatch(6))
        late.gives_all_of(TDRAIN, rdispatch(6, b"hi"))
        first.gives(TDRAIN)
        try:
            connected(it.listen, "client that came too late").close()
        except ConnectionRefusedError:
            pass
        else:
            raise Fault("a client comes in")
        is_served(first, 7)
        late.send(RDRAIN)
        late.ends()
        silent.ends()
        first.send(RDRAIN)
        first.ends()
        it.closes()


@scenario
def stop_goes_on(start):
    """The last order counts. A server's drain, a lost server and a client that leaves don't hold it up."""
    it, port = started(start, "a b", tick_ms=50)
    with it:
        client, other, a, b = it.client(), it.client(), it.servers["a"], it.servers["b"]
        reaches(client, 5, a, 2)
        reaches(other, 6, b, 2)
        told(it, port, "stop 3600", "stopping 2 open")
        client.gives(TDRAIN)
        other.gives(TDRAIN)
        b.send(TDRAIN)
        b.gives(frame(R["drain"], 1))
        other.send(RDRAIN)
        other.cut()
        a.close()
        client.frame()
        client.is_silent(0.5)
        told(it, port, "stop 0", "stopping 1 open")
        client.ends()
        it.closes()


@scenario
def stop_without_clients(start):
    """It ends at once."""
    it, port = started(start, tick_ms=60_000)
    with it:
        operator = told(it, port, "stop", "stopping 0 open")
        operator.ends()
        it.closes()
        with socket.socket() as link:
            need(link.connect_ex((HOST, it.listen)) != 0, "somebody listens")
    with start() as it:
        it.ask("stop", "error BadCommand")
