"""Much at once: full windows, slow readers, many connections, long runs."""
import socket
import time

from reading import R, T, frame, need
from wire_parts import (
    A_WHILE, HOST, PATIENCE, Echo, Flight, comes_back, fly_to_the_end, is_answered, is_served, nack, rdiscarded,
    rdispatch, reaches, scenario, tdiscarded, tdispatch,
)

PING, PONG = frame(T["ping"], 1), frame(R["ping"], 1)


@scenario
def full_window(start):
    """A client that sends more than its window is held back: nothing is lost, nothing nacked."""
    with start(window=4, out=16) as it:
        client, server = it.client(), it.servers["a"]
        client.send(*(tdispatch(tag, b"%d" % tag) for tag in range(1, 101)))
        for first in range(1, 101, 4):
            tags = []
            for tag in range(first, first + 4):
                raw = server.frame()
                need(raw[8:] == tdispatch(1, b"%d" % tag)[8:], f"dispatch {tag} comes in its turn")
                tags.append(int.from_bytes(raw[5:8], "big"))
            if first == 1:
                server.is_silent()
            server.send(*(rdispatch(tag, b"r") for tag in tags))
            client.gives(*(rdispatch(tag, b"r") for tag in range(first, first + 4)))
        client.fence()
        server.fence()


@scenario
def full_window_of_one(start):
    """The least window and the least queue."""
    with start(window=1, out=5, history=4096) as it:
        Echo(it.servers["a"])
        client = it.client()
        fly_to_the_end([Flight(client, 500, 20)], 8)


@scenario
def discard_in_a_full_window(start):
    """What came before the window was full can be discarded at once; what is held back comes after it."""
    with start(window=2, out=8) as it:
        client, server = it.client(), it.servers["a"]
        client.send(tdispatch(5), tdispatch(6))
        server.gives(tdispatch(2), tdispatch(3))
        client.send(tdiscarded(5), tdispatch(7))
        client.gives(rdiscarded(5))
        server.gives(tdiscarded(2))
        server.send(rdispatch(2, b"late"))
        server.gives(tdispatch(2))
        server.send(rdispatch(3), rdispatch(2))
        client.gives(rdispatch(6), rdispatch(7))


@scenario
def client_that_never_reads(start):
    """What is kept for it is bounded, others go on, and when it reads nothing was lost."""
    with start("a b", window=16, out=32) as it:
        echoes = [Echo(server) for server in it.servers.values()]
        stuck, other = it.client(receives=4096), it.client()
        flight = Flight(stuck, 1_000, 1_000, 1, 20_000)
        until = time.monotonic() + 1
        while time.monotonic() < until:
            flight.write()
            time.sleep(0.005)
        done = sum(one.count for one in echoes)
        need(done < 1_000, "everything was answered into a connection that nobody reads")
        need(it.program.resident() < 300, f"the router holds {it.program.resident()} MiB")
        fly_to_the_end([Flight(other, 1_000, 8, 2)], 5)
        fly_to_the_end([flight], 8)


@scenario
def client_that_reads_slowly(start):
    with start() as it:
        Echo(it.servers["a"])
        client = it.client(receives=4096)
        flight = Flight(client, 60, 60, 1, 50_000)
        for _ in range(50):
            flight.write()
            flight.read()
            time.sleep(0.01)
        fly_to_the_end([flight], 8)


@scenario
def more_clients_than_slots(start):
    """The third is served once one leaves."""
    with start(clients=2) as it:
        first, second, third, fourth = (it.client() for _ in range(4))
        for client in (first, second, third, fourth):
            client.send(PING)
        first.gives(PONG)
        second.gives(PONG)
        third.is_silent()
        need(len([row for row in it.status() if row.startswith("client ")]) == 2, "two sessions")
        first.close()
        third.gives(PONG)
        fourth.is_silent()
        second.send(b"\x00\x00\x00\x00")
        second.ends()
        fourth.gives(PONG)
        third.cut()
        for _ in range(20):
            client = it.client()
            client.send(PING)
            client.gives(PONG)
            client.close()
        fourth.fence()


@scenario
def more_threads_than_clients(start):
    """Threads that have no place for a client leave each to one that has."""
    with start(clients=3, threads=16) as it:
        server = it.servers["a"]
        for _ in range(4):
            clients = [it.client() for _ in range(3)]
            waits = it.client()
            waits.send(PING)
            for client in clients:
                client.fence()
            waits.is_silent()
            is_answered(clients[0], 5, server, 2)
            clients[1].close()
            waits.gives(PONG)
            for link in (clients[0], clients[2], waits):
                link.close()
            it.links = [link for link in it.links if link not in (*clients, waits)]


@scenario
def threads_that_come_and_go(start):
    """As many clients as there are places for, again and again: they are shared out anew, and each is served."""
    with start(clients=8, sessions=1_024, threads=5) as it:
        Echo(it.servers["a"])
        for size in (8, 1, 8, 3, 8, 5, 8, 8):
            clients = [it.client() for _ in range(size)]
            for number, client in enumerate(clients):
                client.send(*(tdispatch(tag, b"%d" % number) for tag in range(2, 34)))
            for number, client in enumerate(clients):
                client.gives_all_of(*(rdispatch(tag, b"%d" % number) for tag in range(2, 34)))
                client.close()
            it.links = [link for link in it.links if link not in clients]


@scenario
def churn(start):
    """1,000 connections, one after another, each with a dispatch at times."""
    with start(sessions=65_536, clients=8, window=4, out=8, history=1024) as it:
        server = it.servers["a"]
        for number in range(1_000):
            client = it.client()
            client.send(PING)
            client.gives(PONG)
            if number % 10 == 0:
                reaches(client, 5, server, 2)
                if number % 20 == 0:
                    comes_back(server, 2, client, 5)
                    client.close()
                else:
                    client.close()
                    server.gives(tdiscarded(2, b"client gone"))
                    server.send(rdispatch(2))
                    server.fence()
            else:
                (client.close, client.cut)[number % 2]()
            it.links.remove(client)
        server.fence()
        last = it.client()
        last.fence()
        rows = it.status()
        need(rows[-2].startswith("client 1001 open entries 0"), f"the last client's row is {rows[-2]}")
        need(rows[-1].startswith("server a open load 0"), f"the server's row is {rows[-1]}")


@scenario
def connections_that_say_nothing(start):
    with start(sessions=65_536, clients=4, window=4, out=8, history=64) as it:
        for number in range(300):
            client = it.client()
            (client.close, client.cut)[number % 2]()
            it.links.remove(client)
        client = it.client()
        is_answered(client, 5, it.servers["a"], 2)


@scenario
def connections_without_a_frame_take_no_session(start):
    """Many come and go, with nothing or with half a frame. Those with a frame have all three sessions, and their numbers."""
    with start(sessions=3, clients=4) as it:
        Echo(it.servers["a"])
        for number in range(400):
            client = it.client()
            if number % 3 == 0:
                client.send(PING[:7])
            (client.close, client.cut)[number % 2]()
            it.links.remove(client)
        silent, clients = it.client(), []
        for number in range(1, 4):
            clients.append(it.client())
            is_served(clients[-1], 5, b"%d" % number)
            it.comes_to(f"client {number}", "open entries 0")
        rows = [row for row in it.status() if row.startswith("client ")]
        need(len(rows) == 3, f"{len(rows)} clients: {rows[:5]}")
        silent.ends()


@scenario
def health_checks_by_default(start):
    """1,100 checks of a balancer that connect and close, at a router as it is by default: clients are served then."""
    with start() as it:
        Echo(it.servers["a"])
        for _ in range(1_100):
            socket.create_connection((HOST, it.listen)).close()
        is_served(it.client(), 5)


@scenario
def begun_frames_take_little(start):
    """A client that announces a frame of 1 MiB takes memory only for what it sends; and a frame that comes goes on whole."""
    with start(clients=64, window=64, out=128, history=1_024) as it:
        client, server = it.client(), it.servers["a"]
        client.fence()
        body = bytes(range(256)) * 4_000
        begun = [it.client() for _ in range(60)]
        before = it.program.resident()
        for other in begun:
            other.send(tdispatch(5, body)[:8])
        client.fence()
        time.sleep(A_WHILE)
        taken = it.program.resident() - before
        need(taken <= 30, f"60 clients that sent 8 bytes each take {taken} MiB")
        begun[0].send(tdispatch(5, body)[8:])
        server.gives(tdispatch(2, body))
        comes_back(server, 2, begun[0], 5, body)


def come_and_go(it, total, at_once, stay=0):
    """So many connections, each of which sends a frame and closes. Then none but those that stay has an open session."""
    for _ in range(0, total, at_once):
        links = [socket.create_connection((HOST, it.listen)) for _ in range(at_once)]
        for link in links:
            link.sendall(tdiscarded(9))
            link.close()
        # The system keeps few that aren't accepted yet, and has the next one try again a second later.
        time.sleep(0.005)
    until = time.monotonic() + PATIENCE
    while len(left := [row for row in it.status() if row.startswith("client ") and " open " in row]) > stay:
        need(time.monotonic() < until, f"{len(left)} of {total} keep their places: {left[:3]}")
        time.sleep(0.1)


@scenario
def clients_that_send_and_close(start):
    """300 at once leave nothing, though nothing came over these places before."""
    with start(sessions=65_536, clients=300, window=4, out=8, history=64, tick_ms=50) as it:
        Echo(it.servers["a"])
        come_and_go(it, 300, 100)
        is_served(it.client(), 5)


@scenario
def many_clients_that_send_and_close(start):
    """10,000 leave nothing, beside one that is served."""
    with start(sessions=1_024, clients=128, window=4, out=8, history=64, tick_ms=50, audit="rolling") as it:
        Echo(it.servers["a"])
        stays = it.client()
        for _ in range(10):
            is_served(stays, 5)
            come_and_go(it, 1_000, 25, stay=1)
        is_served(stays, 5)


@scenario
def sessions_are_used_up(start):
    """One more is closed at once; those that are there go on, and no place comes back."""
    with start(sessions=3, clients=2) as it:
        first, second = it.client(), it.client()
        first.fence()
        second.fence()
        first.close()
        third = it.client()
        third.fence()
        second.close()
        for _ in range(3):
            late = it.client()
            late.ends()
        reaches(third, 5, it.servers["a"], 2)
        third.fence()
        third.close()
        it.client().ends()


@scenario
def nacks_of_a_full_server(start):
    """A server's window is shared: what it can't take is nacked at once."""
    with start(window=4, out=16) as it:
        one, two, server = it.client(), it.client(), it.servers["a"]
        one.send(*(tdispatch(tag) for tag in range(1, 4)))
        server.gives(*(tdispatch(tag) for tag in range(2, 5)))
        reaches(two, 1, server, 5)
        two.send(tdispatch(2))
        two.gives(nack(2))
        comes_back(server, 3, one, 2)
        reaches(two, 2, server, 3)


@scenario
def many_clients_in_flight(start):
    """64 clients over four servers, with equal tags."""
    with start("a b c d") as it:
        echoes = [Echo(server) for server in it.servers.values()]
        flights = [Flight(it.client(), 60, 10, number) for number in range(64)]
        fly_to_the_end(flights, 9)
        counts = [one.count for one in echoes]
        need(sum(counts) == 3_840 and min(counts) > 0, f"the servers had {counts}")


def long_run(start, clients=1, total=3_000, at_once=16, servers="a", is_audited=True, **keys):
    with start(servers, **keys) as it:
        it.is_audited = is_audited
        for server in it.servers.values():
            Echo(server)
        flights = [Flight(it.client(), total // clients, at_once, number) for number in range(clients)]
        fly_to_the_end(flights, 20)


@scenario
def many_frames_at_once(start):
    """More frames in the first piece than are handed in at once."""
    with start(window=1_024, out=2_048) as it:
        Echo(it.servers["a"])
        for count in (64, 65, 200, 1_000):
            client = it.client()
            client.send(b"".join(tdispatch(tag) for tag in range(1, count + 1)))
            client.gives_all_of(*(rdispatch(tag, b"hi") for tag in range(1, count + 1)))


@scenario
def long_run_history_256(start):
    """More dispatches than a history holds: nothing is nacked or lost."""
    long_run(start, history=256, total=1_000, tick_ms=1_000)


@scenario
def long_run_history_512_64_in_flight(start):
    """Half of them wait for the window."""
    long_run(start, at_once=64, history=512, window=32, out=64, total=1_000)


@scenario
def long_run_history_4096(start):
    long_run(start, at_once=64, history=4096)


@scenario
def long_run_window_64(start):
    long_run(start, at_once=64, history=4096, window=64, out=128)


@scenario
def long_run_four_clients(start):
    long_run(start, clients=4, at_once=16, history=1024, servers="a b")


@scenario
def long_run_defaults(start):
    """A server's session holds 32,768 dispatches by default. The audit of so many takes too long to wait for."""
    long_run(start, clients=2, at_once=32, total=40_000, is_audited=False)


@scenario
def long_run_slow_ticks(start):
    """Nobody waits for a tick."""
    long_run(start, at_once=16, history=256, total=2_000, tick_ms=60_000)


@scenario
def retries_in_traffic(start):
    """A server that nacks each dispatch, beside one that answers: no client sees a nack."""
    with start("a b", retries=1) as it:
        Echo(it.servers["b"])
        Echo(it.servers["a"]).answer = lambda raw: nack(int.from_bytes(raw[5:8], "big"))
        fly_to_the_end([Flight(it.client(), 1_000, 8, number) for number in range(4)], 8)


@scenario
def pings_in_traffic(start):
    """Pings from both sides beside dispatches are answered."""
    with start() as it:
        client, server = it.client(), it.servers["a"]
        for turn in range(200):
            client.send(tdispatch(5), PING)
            client.gives(PONG)
            server.gives(tdispatch(2))
            server.send(PING, rdispatch(2))
            server.gives(PONG)
            client.gives(rdispatch(5))


@scenario
def waits_without_work(start):
    """A router whose clients, servers and operators all wait computes nothing."""
    with start("a b:absent c:probe", {"/s/a": ["a"]}, window=2, out=6, clients=3, tick_ms=100) as it:
        held_back, half, silent, waiting = (it.client() for _ in range(4))
        held_back.send(*(tdispatch(tag) for tag in range(1, 9)))
        it.servers["a"].gives(tdispatch(2), tdispatch(3))
        half.send(tdispatch(9)[:11])
        silent.fence()
        first, second = it.operator(), it.operator()
        first.ask("unroute /x", "error NoRoute")
        first.send("sta")
        second.send("status\n")
        waiting.send(PING)
        time.sleep(0.2)
        before = it.program.processor_time()
        time.sleep(1.5)
        took = it.program.processor_time() - before
        need(took < 0.3, f"it computed for {took:.2f} s of 1.5 s")
