"""What the scenarios of wire.py are made of: frames, connections with time limits, a router that runs."""
import json
import os
import random
import select
import socket
import struct
import subprocess
import threading
import time

from reading import NACK, R, T, Fault, frame, need

HOST = "127.0.0.1"
# Seconds that anything which has to come may take, and that something is waited for that must not come.
PATIENCE = 5.0
A_WHILE = 0.3
# How many threads a router has where a scenario doesn't say it. None: as many as it has by itself.
THREADS = os.environ.get("WIRE_THREADS")
PROBE = frame(R["err"], 1, b"tinit check")
TINIT = frame(T["init"], 1, b"\x00\x01")
RINIT = frame(R["init"], 1, b"\x00\x01")
TDRAIN, RDRAIN = frame(T["drain"], 1), frame(R["drain"], 1)
GARBAGE = b"\x00\x00\x00\x03\x41\x00\x00"
SCENARIOS = {}


def scenario(function):
    """Lists a scenario by its name. It is handed `start` (a Start), each call of which gives a Rig."""
    SCENARIOS[function.__name__] = function
    return function


def pairs_of(pairs):
    text = b"".join(struct.pack(">H", len(it)) + it for pair in pairs for it in pair)
    return struct.pack(">H", len(pairs)) + text


def tdispatch(tag, body=b"hi", dst=b"/s/a", contexts=(), dtab=()):
    where = struct.pack(">H", len(dst)) + dst
    return frame(T["dispatch"], tag, pairs_of(contexts) + where + pairs_of(dtab) + body)


def rdispatch(tag, body=b"yo", status=0, contexts=()):
    return frame(R["dispatch"], tag, bytes([status]) + pairs_of(contexts) + body)


def nack(tag):
    """The router's own."""
    return frame(R["dispatch"], tag, NACK)


def rerr(tag, text):
    return frame(R["err"], tag, text)


def tdiscarded(tag, why=b"x", kind=T["discarded"]):
    return frame(kind, 0, tag.to_bytes(3, "big") + why)


def rdiscarded(tag):
    return frame(R["discarded"], tag)


def client_gone(tag):
    return tdiscarded(tag, b"client gone")


def upstream_lost(tag):
    return rerr(tag, b"upstream lost")


def no_route(tag):
    return rerr(tag, b"no route")


def tlease(milliseconds, unit=0):
    return frame(T["lease"], 0, struct.pack(">Bq", unit, milliseconds))


def payload(body):
    """What follows contexts, destination and dtab in a Tdispatch."""
    place = 0
    for is_pairs in (True, False, True):
        count = 1
        if is_pairs:
            count = 2 * int.from_bytes(body[place:place + 2], "big")
            place += 2
        for _ in range(count):
            place += 2 + int.from_bytes(body[place:place + 2], "big")
    return body[place:]


def whole_frames(held):
    """The whole frames at the front of a bytearray, which are taken out of it."""
    place, found = 0, []
    while len(held) - place >= 4:
        end = place + 4 + int.from_bytes(held[place:place + 4], "big")
        if end > len(held):
            break
        found.append(bytes(held[place:end]))
        place = end
    del held[:place]
    return found


class Link:
    """One end of a connection that carries frames."""

    fences = 0

    def __init__(self, sock, who):
        sock.setsockopt(socket.IPPROTO_TCP, socket.TCP_NODELAY, 1)
        self.sock, self.who = sock, who
        self.held = bytearray()

    def send(self, *frames):
        self.sock.settimeout(PATIENCE)
        try:
            self.sock.sendall(b"".join(frames))
        except socket.timeout:
            raise Fault(f"{self.who}: what was sent isn't read") from None
        except OSError as fault:
            raise Fault(f"{self.who}: sending: {fault}") from None

    def bytes_one_by_one(self, *frames):
        for byte in b"".join(frames):
            self.send(bytes([byte]))

    def read_some(self, until):
        """Whether anything came before the end of the connection; None if the time is over."""
        self.sock.settimeout(max(0.001, until - time.monotonic()))
        try:
            got = self.sock.recv(1 << 16)
        except socket.timeout:
            return None
        except OSError:
            return False
        self.held += got
        return bool(got)

    def next_frame(self, patience=PATIENCE):
        """The next frame, or None at the end of the connection."""
        until = time.monotonic() + patience
        while True:
            size = 4 + int.from_bytes(self.held[:4], "big")
            if len(self.held) >= 4 and len(self.held) >= size:
                got = bytes(self.held[:size])
                del self.held[:size]
                return got
            more = self.read_some(until)
            need(more is not None, f"{self.who}: nothing came in {patience} s")
            if not more:
                need(not self.held, f"{self.who}: ended inside a frame: {bytes(self.held)[:40].hex()}")
                return None

    def frame(self, patience=PATIENCE):
        got = self.next_frame(patience)
        need(got is not None, f"{self.who}: the connection ended where a frame has to come")
        return got

    def gives(self, *frames):
        """These frames come, and in this order."""
        for want in frames:
            got = self.next_frame()
            came = "the end" if got is None else got[:60].hex()
            need(got == want, f"{self.who}: wanted {want[:60].hex()}, got {came}")

    def gives_all_of(self, *frames):
        """These frames come, in any order."""
        want, got = sorted(frames), sorted(self.frame() for _ in frames)
        need(got == want, f"{self.who}: wanted {[it.hex() for it in want]}, got {[it.hex() for it in got]}")

    def fence(self):
        """A ping there and back: nothing else came before its answer."""
        Link.fences += 1
        tag = 0x700000 + Link.fences
        self.send(frame(T["ping"], tag))
        self.gives(frame(R["ping"], tag))

    def is_silent(self, seconds=A_WHILE):
        until = time.monotonic() + seconds
        more = None if self.held else self.read_some(until)
        need(not self.held, f"{self.who}: got {bytes(self.held)[:60].hex()} where nothing may come")
        need(more is None, f"{self.who}: the connection ended")

    def ends(self, patience=PATIENCE):
        """The far end closes, and sends nothing before."""
        got = self.next_frame(patience)
        need(got is None, f"{self.who}: got {got and got[:60].hex()} where the connection has to end")
        self.close()

    def drains_to_the_end(self, patience=PATIENCE):
        while self.next_frame(patience) is not None:
            pass
        self.close()

    def close(self):
        self.sock.close()

    def close_both(self):
        """Closes, and has whoever reads it in another thread see that."""
        try:
            self.sock.shutdown(socket.SHUT_RDWR)
        except OSError:
            pass
        self.sock.close()

    def cut(self):
        """Closes with a reset."""
        self.sock.setsockopt(socket.SOL_SOCKET, socket.SO_LINGER, struct.pack("ii", 1, 0))
        self.sock.close()


class Echo(threading.Thread):
    """A server that answers each dispatch with what it carries, until its connection ends. Dispatches whose
    body begins with `keeps` get no answer until they are discarded, or `lets_go` of them."""

    def __init__(self, link, keeps=None):
        super().__init__(daemon=True)
        self.link, self.count, self.keeps, self.kept = link, 0, keeps, []
        self.start()

    def run(self):
        link, held = self.link, self.link.held
        try:
            link.sock.settimeout(None)
            while True:
                out = [self.answer(it) for it in whole_frames(held)]
                if any(out):
                    link.sock.sendall(b"".join(out))
                got = link.sock.recv(1 << 18)
                if not got:
                    return
                held += got
        except OSError:
            return

    def answer(self, raw):
        kind, tag = raw[4], int.from_bytes(raw[5:8], "big")
        if kind == T["ping"]:
            return frame(R["ping"], tag)
        if kind == T["discarded"]:
            return rdiscarded(int.from_bytes(raw[8:11], "big"))
        if kind != T["dispatch"]:
            return b""
        self.count += 1
        body = payload(raw[8:])
        if self.keeps and body.startswith(self.keeps):
            self.kept.append((tag, body))
            return b""
        return rdispatch(tag, body)

    def lets_go(self):
        """Answers the dispatch that was kept last."""
        self.link.send(rdispatch(*self.kept.pop()))


class Echoes(threading.Thread):
    """A server that takes one connection after another, and answers on each."""

    def __init__(self, rig, name="a", keeps=None):
        super().__init__(daemon=True)
        self.rig, self.name, self.keeps, self.echoes = rig, name, keeps, []
        self.listener = rig.listeners[name]
        if first := rig.servers.pop(name, None):
            self.serve(first)
        self.start()

    def serve(self, link):
        self.echoes.append(Echo(link, self.keeps))

    def run(self):
        while True:
            try:
                self.listener.settimeout(None)
                sock, _ = self.listener.accept()
            except OSError:
                return
            self.serve(self.rig.kept(Link(sock, f"server {self.name} {len(self.echoes) + 1}")))


class Flight:
    """A client's dispatches, of which so many are on their way until all are answered."""

    def __init__(self, link, total, at_once, number=0, size=0, dst=b"/s/a", first_tag=1):
        self.link, self.total, self.at_once = link, total, at_once
        self.number, self.size, self.dst = number, size, dst
        self.sent = self.answered = self.nacks = self.drains = 0
        self.open, self.free = {}, list(range(first_tag, first_tag + at_once))
        self.out = bytearray()
        self.others = []
        self.is_ended = False
        link.sock.setblocking(False)

    def is_done(self):
        return self.is_ended or (self.sent == self.total and not self.open)

    def fill(self):
        made = []
        while self.free and self.sent < self.total:
            tag = self.free.pop()
            body = b"%d.%d." % (self.number, self.sent)
            self.open[tag] = body = body.ljust(self.size, b"x")
            made.append(tdispatch(tag, body, self.dst))
            self.sent += 1
        self.out += b"".join(made)

    def write(self):
        self.fill()
        if self.out:
            try:
                count = self.link.sock.send(self.out)
                del self.out[:count]
            except BlockingIOError:
                pass
            except OSError:
                self.is_ended = True

    def read(self):
        try:
            got = self.link.sock.recv(1 << 18)
        except BlockingIOError:
            return
        except OSError:
            got = b""
        if not got:
            self.is_ended = True
            return
        self.link.held += got
        for raw in whole_frames(self.link.held):
            self.take(raw)

    def take(self, raw):
        kind, tag = raw[4], int.from_bytes(raw[5:8], "big")
        if raw == TDRAIN:
            self.drains += 1
            return
        need(tag in self.open, f"{self.link.who}: a reply on a tag that isn't open: {raw[:60].hex()}")
        body = self.open.pop(tag)
        self.free.append(tag)
        self.answered += 1
        if raw == nack(tag):
            self.nacks += 1
        elif kind == R["dispatch"]:
            need(raw == rdispatch(tag, body), f"{self.link.who}: another's reply on tag {tag}: {raw[:60].hex()}")
        else:
            self.others.append(raw)


def fly(flights, seconds):
    """Lets flights go on until all are done or the time is over; whether they are done."""
    until = time.monotonic() + seconds
    for it in flights:
        it.write()
    while time.monotonic() < until:
        going = [it for it in flights if not it.is_done()]
        if not going:
            return True
        by_socket = {it.link.sock: it for it in going}
        writing = [it.link.sock for it in going if it.out or (it.free and it.sent < it.total)]
        reads, writes, _ = select.select(list(by_socket), writing, [], 0.2)
        for sock in reads:
            by_socket[sock].read()
        for sock in {*reads, *writes}:
            by_socket[sock].write()
    return all(it.is_done() for it in flights)


def fly_to_the_end(flights, seconds):
    """All are answered, and none by a nack or an error."""
    is_done = fly(flights, seconds)
    for it in flights:
        found = f"{it.answered} of {it.total} answered, {it.nacks} nacks, {it.drains} drains, others {[o.hex() for o in it.others[:3]]}"
        need(not it.is_ended, f"{it.link.who}: the connection ended: {found}")
        need(is_done and not it.nacks and not it.drains and not it.others, f"{it.link.who}: after {seconds} s {found}")


def is_served(client, tag, body=b"hi", dst=b"/s/a"):
    client.send(tdispatch(tag, body, dst))
    client.gives(rdispatch(tag, body))


def reaches(client, tag, server, at, *words, **keys):
    """A client's dispatch comes to a server, on this tag there."""
    client.send(tdispatch(tag, *words, **keys))
    server.gives(tdispatch(at, *words, **keys))


def comes_back(server, at, client, tag, *words, **keys):
    """A server's reply comes to its client."""
    server.send(rdispatch(at, *words, **keys))
    client.gives(rdispatch(tag, *words, **keys))


def is_answered(client, tag, server, at):
    reaches(client, tag, server, at)
    comes_back(server, at, client, tag)


def free_port():
    """One below those that the system gives to connections that go out."""
    while True:
        port = random.SystemRandom().randrange(10_240, 32_000)
        with socket.socket() as it:
            try:
                it.bind((HOST, port))
                return port
            except OSError:
                continue


def listener(port):
    it = socket.socket()
    it.setsockopt(socket.SOL_SOCKET, socket.SO_REUSEADDR, 1)
    it.bind((HOST, port))
    it.listen(128)
    return it


def connected(port, who, receives=None):
    it = socket.socket()
    if receives:
        it.setsockopt(socket.SOL_SOCKET, socket.SO_RCVBUF, receives)
    it.settimeout(PATIENCE)
    it.connect((HOST, port))
    return Link(it, who)


class Program:
    """A router that runs: its input, its lines, its end."""

    def __init__(self, program, text, output=subprocess.PIPE, **how):
        self.ran = subprocess.Popen([program], stdin=subprocess.PIPE, stdout=output, bufsize=0, **how)
        self.held = b""
        try:
            self.ran.stdin.write(text if isinstance(text, bytes) else text.encode())
            self.ran.stdin.close()
        except BrokenPipeError:
            pass

    def line(self, patience=PATIENCE):
        """The next line, or None at the end of its output."""
        until = time.monotonic() + patience
        output = self.ran.stdout.fileno()
        while b"\n" not in self.held:
            ready, _, _ = select.select([output], [], [], max(0, until - time.monotonic()))
            need(ready, f"the router printed nothing in {patience} s")
            got = os.read(output, 65536)
            if not got:
                need(not self.held, f"a line without its end: {self.held}")
                return None
            self.held += got
        line, _, self.held = self.held.partition(b"\n")
        return line.decode()

    def ends(self, lines, status, patience=PATIENCE):
        """It prints exactly these lines from now on, and ends with this status."""
        until = time.monotonic() + patience
        got = []
        while True:
            line = self.line(max(0.01, until - time.monotonic()))
            if line is None:
                break
            got.append(line)
        ended = self.ran.wait(max(0.01, until - time.monotonic()))
        need((got, ended) == (lines, status), f"the router printed {got}, status {ended}; wanted {lines}, {status}")

    def resident(self):
        """The memory that it holds, in MiB."""
        with open(f"/proc/{self.ran.pid}/status") as it:
            found = [line for line in it if line.startswith("VmRSS")]
        return int(found[0].split()[1]) // 1024 if found else 0

    def processor_time(self):
        """The seconds that it has computed so far."""
        with open(f"/proc/{self.ran.pid}/stat") as it:
            words = it.read().rpartition(")")[2].split()
        return (int(words[11]) + int(words[12])) / os.sysconf("SC_CLK_TCK")

    def kill(self):
        if self.ran.poll() is None:
            self.ran.kill()
        self.ran.wait()
        if self.ran.stdout:
            self.ran.stdout.close()


class Operator:
    """A connection to the admin port."""

    def __init__(self, port, receives=None):
        self.link = connected(port, "operator", receives)
        self.held = b""

    def send(self, text):
        self.link.send(text if isinstance(text, bytes) else text.encode())

    def pour(self, text):
        """Sends what the far end may close upon."""
        try:
            self.send(text)
        except Fault:
            pass

    def line(self, patience=PATIENCE):
        """The next line, or None at the end of the connection."""
        until = time.monotonic() + patience
        while b"\n" not in self.held:
            more = self.link.read_some(until)
            self.held += bytes(self.link.held)
            self.link.held.clear()
            need(more is not None, f"operator: no line came in {patience} s")
            if not more:
                need(not self.held, f"operator: ended inside a line: {self.held[:80]}")
                return None
        line, _, self.held = self.held.partition(b"\n")
        return line.decode()

    def gives(self, *lines):
        for want in lines:
            got = self.line()
            need(got == want, f"operator: wanted {want!r}, got {got!r}")

    def ask(self, order, *lines):
        self.send(order + "\n")
        try:
            self.gives(*lines)
        except Fault as fault:
            raise Fault(f"{order[:60]!r}: {fault}") from None

    def report(self):
        """The lines of a report, without its end."""
        lines = []
        while True:
            line = self.line()
            need(line is not None, f"operator: the connection ended inside a report: {lines}")
            if line == "end":
                return lines
            lines.append(line)

    def status(self):
        self.send("status\n")
        return self.report()

    def is_silent(self, seconds=A_WHILE):
        need(not self.held, f"operator: {self.held[:80]} where nothing may come")
        self.link.is_silent(seconds)

    def ends(self, patience=PATIENCE):
        got = self.line(patience)
        need(got is None, f"operator: got {got!r} where the connection has to end")
        self.link.close()

    def close(self):
        self.link.close()


def toml(listen, admin, servers, routes, keys):
    """The text of a configuration. `servers` has a name, a port, or None for a spare, and a mode for each."""
    lines = [f'listen = "{HOST}:{listen}"', f'admin = "{HOST}:{admin}"']
    if THREADS and "threads" not in keys:
        lines += [f"threads = {THREADS}"]
    lines += [f"{key} = {json.dumps(value)}" for key, value in keys.items()]
    for name, port, mode in servers:
        address = f"{HOST}:{port}" if port else "none"
        lines += ["[[server]]", f'name = "{name}"', f'address = "{address}"', f'init = "{mode}"']
    for dst, names in routes.items():
        lines += ["[[route]]", f"dst = {json.dumps(dst)}", f"servers = {json.dumps(names)}"]
    return "".join(f"{it}\n" for it in lines)


class Rig:
    """A router with its scripted servers. `servers` names them, each with `:probe`, `:absent`, `:spare` or
    `:spare-probe` behind its name where it isn't plain and there. `with` ends the router by `quit`, and wants `closed ok`, or `bye` alone if
    `is_audited` is false."""

    def __init__(self, program, servers="a", routes=None, is_fenced=True, **keys):
        named = [(it.partition(":")[0], it.partition(":")[2] or "plain") for it in servers.split()]
        if routes is None:
            routes = {"/s/a": [name for name, _ in named]} if named else {}
        self.listeners = {name: listener(free_port()) for name, kind in named if kind in ("plain", "probe")}
        ports = {name: it.getsockname()[1] for name, it in self.listeners.items()}
        self.listen, self.admin = free_port(), free_port()
        self.ports = {name: ports.get(name) or free_port() for name, _ in named}
        text = toml(self.listen, self.admin, [
            (name, None if kind.startswith("spare") else self.ports[name], "probe" if kind.endswith("probe") else "plain")
            for name, kind in named
        ], routes, keys)
        self.program, self.is_audited = Program(program, text), True
        self.servers, self.links, self.operators, self.is_over = {}, [], [], False
        try:
            got = self.program.line()
            need(got == f"listening {HOST}:{self.listen}", f"the router printed {got!r}")
            self.accept_all(named, is_fenced)
        except BaseException:
            self.end()
            raise

    def accept_all(self, named, is_fenced):
        for name, kind in named:
            if name not in self.listeners:
                continue
            self.servers[name] = self.accepted(name)
            if kind == "plain" and is_fenced:
                self.servers[name].fence()

    def accepted(self, name):
        """The next connection that the router makes to a server."""
        self.listeners[name].settimeout(PATIENCE)
        try:
            sock, _ = self.listeners[name].accept()
        except socket.timeout:
            raise Fault(f"the router didn't connect to server {name}") from None
        return self.kept(Link(sock, f"server {name}"))

    def kept(self, link):
        self.links.append(link)
        return link

    def client(self, receives=None):
        """Connects a client."""
        return self.kept(connected(self.listen, f"client {len(self.links)}", receives))

    def operator(self, receives=None):
        it = Operator(self.admin, receives)
        self.operators.append(it)
        return it

    def ask(self, order, *lines):
        """One order on a connection of its own."""
        it = self.operator()
        it.ask(order, *lines)
        it.close()

    def status(self):
        it = self.operator()
        lines = it.status()
        it.close()
        return lines

    def rows(self, begins):
        """The lines of the report that begin so, without that."""
        return [it[len(begins) + 1:] for it in self.status() if it.startswith(begins + " ")]

    def row(self, begins):
        """The line of the report that begins so, without that."""
        found = self.rows(begins)
        need(len(found) == 1, f"status has {found} for {begins}")
        return found[0]

    def comes_to(self, begins, rest, patience=PATIENCE):
        """One line of the report begins so, and goes on so, now or soon."""
        until = time.monotonic() + patience
        while True:
            got = self.rows(begins)
            if len(got) == 1 and got[0].startswith(rest):
                return
            need(time.monotonic() < until, f"status: {begins} {got}; wanted {rest}")
            time.sleep(0.02)

    def quit(self, patience=20.0):
        for it in self.operators:
            it.close()
        self.ask("quit", "bye")
        if self.is_audited:
            self.closes(patience)

    def closes(self, patience=10.0):
        self.is_over = True
        self.program.ends(["closed ok"], 0, patience)

    def end(self):
        self.program.kill()
        for it in [*self.links, *self.operators, *self.listeners.values()]:
            it.close()

    def __enter__(self):
        return self

    def __exit__(self, kind, value, trace):
        try:
            if kind is None and not self.is_over:
                self.quit()
        finally:
            self.end()


class Start:
    """Starts routers of one program."""

    def __init__(self, program):
        self.program = program

    def __call__(self, *words, **keys):
        return Rig(self.program, *words, **keys)
