"""The admin port: orders and their answers, lines that are too long, not whole or not text, several operators, orders of a
file."""
import os
import shutil
import subprocess
import tempfile
import time

from reading import R, T, frame
from wire_parts import (
    A_WHILE, HOST, PATIENCE, Echo, Flight, Operator, Start, client_gone, comes_back, fly, free_port, need, no_route,
    reaches, scenario, tdispatch, upstream_lost,
)

TOP = os.path.dirname(os.path.dirname(os.path.abspath(__file__)))

BAD_COMMANDS = (
    "", " ", "STATUS", "Status", "status ", " status", "status status", "status\t", "stat", "help", "\x00",
    "drain", "drain client", "drain client ", "drain client a", "drain client -1", "drain client +1", "drain client 1 ",
    "drain client  1", "drain client 1 2", "drain client 0x1", "drain client 1.0", "drain  client 1", "drain server a",
    "drain client 18446744073709551616", "drain client \u0661", "DRAIN CLIENT 1", "drain client 1a",
    "retire", "retire ", "retire a b", "retire  a", "retire a ", "retire a,b",
    "route", "route ", "route /x", "route /x ", "route /x ,", "route /x a,", "route /x ,a", "route /x a,,b",
    "route /x a,a", "route /x b,a,b", "route /x a b", "route /x a, b", "route /x  a", "route /x a ", "route /x a,b c",
    "unroute", "unroute /x y", "unroute /x ", "unroute  /x", "un route /x",
    "quit now", "quit ", " quit", "quit!", "QUIT", "quit\t", "exit",
)


@scenario
def bad_commands(start):
    """Each is answered, carries out nothing, and the connection goes on."""
    with start("a b", is_fenced=False, tick_ms=60_000) as it:
        it.comes_to("server b", "open")
        operator = it.operator()
        for order in BAD_COMMANDS:
            operator.ask(order, "error BadCommand")
        names = ",".join(f"n{k}" for k in range(65))
        operator.ask(f"route /x {names}", "error BadCommand")
        operator.ask("status", "boot 1", "server a open load 0 records 0", "server b open load 0 records 0", "end")
        operator.ask("unroute /x", "error NoRoute")


@scenario
def orders(start):
    """Every order with every answer that a few connections can lead to."""
    with start("a b c", {"/s/a": ["a"]}, boot=1_000_000_000) as it:
        client, gone, operator = it.client(), it.client(), it.operator()
        client.fence()
        gone.fence()
        gone.close()
        for number in ("3", "0", "007", "18446744073709551615", "00000000000000000000000000000099"):
            operator.ask(f"drain client {number}", "error NoSuchSession")
        operator.ask("drain client 1", "ok")
        operator.ask("drain client 001", "error AlreadyDraining")
        for _ in range(100):
            operator.send("drain client 2\n")
            got = operator.line()
            if got != "ok":
                break
            time.sleep(0.02)
        need(got in ("error Closed", "error AlreadyDraining"), f"drain client 2: {got}")
        for name in ("d", "A", "a.b", "\u00e4", "x" * 65):
            operator.ask(f"retire {name}", "error UnknownServer")
            operator.ask(f"route /x a,{name}", "error UnknownServer")
        operator.ask("route /x d", "error UnknownServer")
        operator.ask("unroute /x", "error NoRoute")
        operator.ask("route /x a", "ok")
        operator.ask("route /x b,a,c", "ok")
        operator.ask("unroute /x", "ok")
        operator.ask("unroute /x", "error NoRoute")
        operator.ask("unroute /s", "error NoRoute")
        operator.ask("unroute /s/a", "ok")
        operator.ask("unroute ", "error NoRoute")
        operator.ask("retire a", "ok")
        operator.ask("retire a", "ok")
        it.servers["b"].close()
        time.sleep(A_WHILE)
        operator.ask("retire b", "error Closed")
        operator.send("status\n")
        report = operator.report()
        words = [" ".join(line.split(" ")[:3]) for line in report]
        need(report[0] == "boot 1000000000", f"{report[0]}")
        want = ["client 1 draining", "client 2 closed", "server a retired", "server b closed", "server c open"]
        need(words[1:] == want, f"status has {words}")


@scenario
def drain_busy(start):
    """A client whose queue is full: no place for a Tdrain."""
    with start("a b", window=4, out=8) as it:
        for server in it.servers.values():
            Echo(server)
        stuck = it.client(receives=4096)
        stuck.send(frame(T["ping"], 1))
        flight = Flight(stuck, 400, 400, 1, 65_536)
        until, last = time.monotonic() + 6, (0, None)
        while time.monotonic() < until and last[0] < 5:
            flight.write()
            time.sleep(0.1)
            row = it.row("client 1")
            last = (last[0] + 1 if row == last[1] and row.startswith("open entries 0 ") else 0, row)
        need(last[0] == 5, f"the client doesn't come to a halt: {last[1]}")
        it.ask("drain client 1", "error Busy")
        it.ask("drain client 1", "error Busy")


@scenario
def drain_spent(start):
    """A client with no record place left, that holds too much to be rolled: no Tdrain, and its next frame ends it."""
    with start(history=16, window=4, out=8, tick_ms=200) as it:
        client, server = it.client(), it.servers["a"]
        client.send(tdispatch(5), tdispatch(6), tdispatch(7))
        server.gives_all_of(tdispatch(2), tdispatch(3), tdispatch(4))
        for _ in range(3):
            client.send(frame(T["ping"], 9))
            client.gives(frame(R["ping"], 9))
        it.ask("drain client 1", "error Spent")
        client.send(frame(T["ping"], 9))
        client.ends()
        server.gives_all_of(client_gone(2), client_gone(3), client_gone(4))


@scenario
def retire_spent(start):
    """A server with no record place left, that holds too much to be rolled: it can't be retired, and its next frame ends it."""
    with start(history=16, window=4, out=8, tick_ms=60_000, is_fenced=False) as it:
        it.comes_to("server a", "open")
        client, server = it.client(), it.servers["a"]
        client.send(tdispatch(5), tdispatch(6), tdispatch(7))
        server.gives_all_of(tdispatch(2), tdispatch(3), tdispatch(4))
        for _ in range(6):
            server.send(frame(T["ping"], 9))
            server.gives(frame(R["ping"], 9))
        it.ask("retire a", "error Spent")
        server.send(frame(T["ping"], 9))
        client.gives_all_of(upstream_lost(5), upstream_lost(6), upstream_lost(7))
        server.ends()


@scenario
def long_lines(start):
    """1,024 bytes are a line; of 1,025 it is told, and the connection ends, whatever came behind them."""
    with start(routes={"/" + "y" * 1_015: ["a"]}) as it:
        operator = it.operator()
        operator.ask("x" * 1_024, "error BadCommand")
        operator.ask("unroute /" + "x" * 1_015, "error NoRoute")
        operator.ask("unroute /" + "y" * 1_015, "ok")
        operator.send("status\n" + "x" * 1_025)
        operator.report()
        operator.gives("error TooLong")
        operator.ends()
        for rest in ("\n", "\nretire a\n", "\nquit\n", "x" * 100_000, "\n" + "quit\n" * 20_000):
            operator = it.operator()
            operator.pour("x" * 1_025 + rest)
            operator.gives("error TooLong")
            operator.ends()
        operator = it.operator()
        operator.send("x" * 1_024)
        operator.is_silent()
        operator.send("\n")
        operator.gives("error BadCommand")
        operator.send("unroute /" + "x" * 1_016 + "\n")
        operator.gives("error TooLong")
        operator.ends()
        it.comes_to("server a", "open")


@scenario
def lines_that_are_no_text(start):
    with start() as it:
        for raw in (b"\xff\n", b"retire \xc3\n", b"status\xc0\x80\n", b"\xed\xa0\x80\n", b"\xff\nretire a\nquit\n",
                    b"\xff\n" + b"quit\n" * 20_000):
            operator = it.operator()
            operator.pour(b"unroute /x\n" + raw)
            operator.gives("error NoRoute", "error BadCommand")
            operator.ends()
        it.comes_to("server a", "open")
        it.ask("unroute /\u00fc", "error NoRoute")


@scenario
def half_a_line(start):
    """What has no line feed is no line."""
    with start() as it:
        for half in ("quit", "retire a", "unroute /s/a", "drain client 1", "retire a\r"):
            for ends in (lambda link: link.close(), lambda link: link.cut(), lambda link: link.sock.shutdown(1)):
                operator = it.operator()
                operator.send("unroute /x\n" + half)
                operator.gives("error NoRoute")
                ends(operator.link)
                if operator.link.sock.fileno() >= 0:
                    operator.ends()
        client = it.client()
        reaches(client, 5, it.servers["a"], 2)
        it.comes_to("server a", "open load 1")


@scenario
def requests_over_http(start):
    """What a web page can have a browser send: the connection ends at its first line, and none of its lines is an order."""
    orders = "quit\r\nretire a\r\nroute /s/a b\r\nunroute /s/a\r\n"
    with start("a b", {"/s/a": ["a"]}) as it:
        for method in ("POST", "GET", "OPTIONS", "PUT"):
            operator = it.operator()
            head = f"{method} /x HTTP/1.1\r\nHost: 127.0.0.1\r\nContent-Length: {len(orders)}\r\n\r\n"
            operator.pour(head + orders)
            while more := operator.link.read_some(time.monotonic() + PATIENCE):
                pass
            need(more is not None, f"{method}: the connection goes on")
            came = bytes(operator.link.held).split(b"\n")
            need(came in ([b""], [b"error BadCommand", b""]), f"{method}: {came}")
            operator.close()
        operator = it.operator()
        operator.send("unroute /x\nretire HTTP/1.1\nquit\n")
        operator.gives("error NoRoute", "error BadCommand")
        operator.ends()
        client = it.client()
        reaches(client, 5, it.servers["a"], 2)
        it.comes_to("server a", "open load 1")
        it.comes_to("server b", "open load 0")


@scenario
def two_operators(start):
    """One after another, and at once: the second is served once the first leaves."""
    with start() as it:
        for _ in range(20):
            it.ask("unroute /x", "error NoRoute")
        first, second, third = it.operator(), it.operator(), it.operator()
        first.ask("unroute /x", "error NoRoute")
        second.send("unroute /y\nunroute /y\n")
        third.send("unroute /z\n")
        second.is_silent()
        first.ask("route /y a", "ok")
        third.is_silent(0.1)
        first.close()
        second.gives("ok", "error NoRoute")
        third.is_silent(0.1)
        second.close()
        third.gives("error NoRoute")


@scenario
def silent_operator(start):
    """Who says nothing for so long is sent away; who goes on asking stays."""
    with start(admin_idle_ms=200, tick_ms=100) as it:
        for half in ("", "unroute /x\n", "qui"):
            operator = it.operator()
            operator.send(half)
            if half.endswith("\n"):
                operator.gives("error NoRoute")
            began = time.monotonic()
            operator.ends(3)
            took = time.monotonic() - began
            need(0.1 < took < 2, f"after {half!r} it was closed within {took:.2f} s")
        silent, other = it.operator(), it.operator()
        other.send("unroute /x\n")
        other.gives("error NoRoute")
        silent.ends()
    with start(admin_idle_ms=700, tick_ms=100) as it:
        steady = it.operator()
        for _ in range(12):
            steady.ask("unroute /x", "error NoRoute")
            time.sleep(0.15)


@scenario
def operator_of_default_patience(start):
    """By default an operator may think for a while."""
    with start() as it:
        operator = it.operator()
        operator.ask("unroute /x", "error NoRoute")
        time.sleep(3)
        operator.ask("unroute /x", "error NoRoute")


@scenario
def lines_however_cut(start):
    """Carriage returns, several orders in one piece, and a byte at a time."""
    with start("a b", {"/s/a": ["a"]}) as it:
        operator = it.operator()
        operator.send("status\r\n")
        need(operator.report()[0] == "boot 1", "a line may end with a carriage return")
        operator.send("route /x a\nroute /x b,a\r\nnonsense\nunroute /x\nunroute /x\nretire b\nstatus\nretire zz\n")
        operator.gives("ok", "ok", "error BadCommand", "ok", "error NoRoute", "ok", "boot 1")
        report = operator.report()
        need(len(report) == 2 and report[1].startswith("server b retired"), f"{report}")
        operator.gives("error UnknownServer")
        for byte in b"route /y a\nunroute /y\nunroute /y\nstatus\n":
            operator.send(bytes([byte]))
        operator.gives("ok", "ok", "error NoRoute", "boot 1")
        operator.report()
        operator.send("unroute /x\n" * 5_000)
        operator.gives(*["error NoRoute"] * 5_000)
        operator.send("unroute /x\nquit\nretire a\nunroute /x\n")
        operator.gives("error NoRoute", "bye")
        it.closes()


@scenario
def orders_in_traffic(start):
    """Orders while dispatches run: each is answered, and the traffic sees their effect alone."""
    with start("a b", {"/s/a": ["a"]}) as it:
        for server in it.servers.values():
            Echo(server)
        flight = Flight(it.client(), 3_000, 16)
        operator = it.operator()
        for turn in range(40):
            fly([flight], 0.02)
            operator.ask(f"route /s/a {('a,b', 'b', 'b,a', 'a')[turn % 4]}", "ok")
            operator.status()
        fly([flight], 8)
        need(flight.is_done() and not flight.is_ended, f"{flight.answered} of 3000 were answered")
        need(not flight.nacks and not flight.others, f"{flight.nacks} nacks, {flight.others[:2]}")


def routes(port):
    """What `routes` prints, with its end."""
    asker = Operator(port)
    asker.send("routes\n")
    lines = [*asker.report(), "end"]
    asker.close()
    return lines


def comes_to_routes(port, want):
    until = time.monotonic() + PATIENCE
    while sorted(got := routes(port)) != sorted(want):
        need(time.monotonic() < until, f"routes: {got}, not {want}")
        time.sleep(0.02)


def kept_in(room, lines):
    with open(f"{room}/orders", "w", encoding="utf-8") as file:
        file.write("".join(f"{it}\n" for it in lines))
    return f"{room}/orders"


def router_of(room, program):
    """./router in a small repository of its own, whose proved program is this one; what it says stands in room/said."""
    for it in ("check", "bin", "crates/mux_router/out"):
        os.makedirs(f"{room}/{it}")
    for it in ("router", "check/start", "check/config_keys", "check/send_orders.py"):
        shutil.copy(f"{TOP}/{it}", f"{room}/{it}")
    for it, text in (("crates.txt", "mux_router:\n"), ("bin/rt", "#!/bin/sh\n"),
                     ("run", f"#!/bin/sh\nPATH='{room}/bin':$PATH exec '{room}/router' 2>'{room}/said'\n")):
        with open(f"{room}/{it}", "w", encoding="utf-8") as file:
            file.write(text)
        os.chmod(f"{room}/{it}", 0o755)
    shutil.copy(program, f"{room}/crates/mux_router/out/mux_router")
    return Start(f"{room}/run")


@scenario
def orders_outlive_a_restart(start):
    """What `routes` printed, kept as orders_file, has the next router route as this one was ordered to."""
    configured, port = {"/s/a": ["a"], "/s/b": ["b"], "a b": ["a"]}, free_port()
    with start("a b", configured, operator=f"{HOST}:{port}") as it:
        for order in ("route /s/a b", "route /s/c a", "unroute /s/b"):
            it.ask(order, "ok")
        kept = routes(port)
    need("unwritable a" in kept, f"routes: {kept}")
    with tempfile.TemporaryDirectory(prefix="orders-") as room:
        orders = kept_in(room, ["route /s/d c", "unroute /s/b", *kept])
        with router_of(room, start.program)("a b", configured, operator=f"{HOST}:{port}", orders_file=orders) as it:
            comes_to_routes(port, kept)
            client = it.client()
            for dst, server in ((b"/s/a", "b"), (b"/s/c", "a")):
                reaches(client, 5, it.servers[server], 2, dst=dst)
                comes_back(it.servers[server], 2, client, 5)
            client.send(tdispatch(6, dst=b"/s/b"))
            client.gives(no_route(6))
        with open(f"{room}/said", encoding="utf-8") as file:
            need(file.read() == "orders_file: line 1: error UnknownServer\n", "something else was said")


@scenario
def orders_sent_to_a_router(start):
    """A router that runs is given the orders of its file by the program that ./router takes. It reads no such key itself."""
    port = free_port()
    with tempfile.TemporaryDirectory(prefix="orders-") as room:
        orders = kept_in(room, ["route /s/b b"])
        with start("a b", {"/s/a": ["a"]}, operator=f"{HOST}:{port}", orders_file=orders) as it:
            time.sleep(A_WHILE)
            need(routes(port) == ["route /s/a a", "end"], "the router read the file")
            with open(f"{room}/config", "w", encoding="utf-8") as file:
                file.write(f'admin = "{HOST}:{it.admin}"\norders_file = "{orders}"\n')
            words = [f"{TOP}/check/send_orders.py", f"{room}/config", str(it.program.ran.pid)]
            ran = subprocess.run(words, capture_output=True, timeout=PATIENCE)
            need((ran.returncode, ran.stdout, ran.stderr) == (0, b"", b""), f"{ran}")
            need(routes(port) == ["route /s/a a", "route /s/b b", "end"], f"routes: {routes(port)}")
