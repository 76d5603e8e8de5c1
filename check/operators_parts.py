"""What the scenarios of operators.py are made of."""
import os
import threading
import time

from metrics_reader import samples_of
from reading import Fault, need
from wire_parts import HOST, PATIENCE, Echo, Flight, Operator, Rig, connected, fly, fly_to_the_end, free_port

SCENARIOS = {}
HELP = ("help", "health", "routes", "servers", "server NAME ADDRESS [plain]", "forget NAME", "drain all", "rejoin NAME",
        "cut NAME", "stop N", "events", "status full", "config", "metrics", "record", "end")
TOP = os.path.join(os.path.dirname(os.path.abspath(__file__)), "..")
EXAMPLES = os.path.join(TOP, "examples")
# As many connections each port takes at once.
PLACES = 8


def scenario(function):
    SCENARIOS[function.__name__] = function
    return function


class Asked(Rig):
    """A router with both ports."""

    def __init__(self, program, *words, **keys):
        self.operator_port, self.http_port = free_port(), free_port()
        super().__init__(program, *words, operator=f"{HOST}:{self.operator_port}",
                         metrics_http=f"{HOST}:{self.http_port}", **keys)

    def asker(self):
        it = Operator(self.operator_port)
        self.operators.append(it)
        return it

    def asks(self, line):
        """The lines that come for a line on a connection of its own, up to the end of the reply."""
        it = self.asker()
        it.send(line + "\n")
        lines = [it.line()]
        while ends_later(line) and lines[-1] not in ("end", "# EOF", "# end", "error NotRecorded", None):
            lines.append(it.line())
        it.close()
        return lines

    def page(self):
        return samples_of("".join(f"{it}\n" for it in self.asks("metrics")))

    def http(self, text, patience=PATIENCE):
        """The status, the fields and the body of the answer to a request, up to the end of the connection."""
        link = connected(self.http_port, "http")
        try:
            link.send(text if isinstance(text, bytes) else text.encode())
        except Fault:
            pass
        return answer_of(whole(link, patience))

    def get(self, path):
        return self.http(f"GET {path} HTTP/1.1\r\nHost: {HOST}\r\n\r\n")


def ends_later(line):
    return line in ("help", "routes", "servers", "events", "status full", "config", "metrics", "record")


def whole(link, patience):
    """All bytes up to the end of a connection."""
    until = time.monotonic() + patience
    while True:
        more = link.read_some(until)
        need(more is not None, f"{link.who}: the connection didn't end in {patience} s")
        if not more:
            link.close()
            return bytes(link.held)


def answer_of(raw):
    head, found, body = raw.partition(b"\r\n\r\n")
    need(found, f"no head of an answer: {raw[:80]!r}")
    first, *fields = head.decode("ascii").split("\r\n")
    version, status, _ = first.split(" ", 2)
    need(version in ("HTTP/1.1", "HTTP/1.0"), f"an answer begins with {first!r}")
    named = dict(it.split(": ", 1) for it in fields)
    need(named.get("connection") == "close", f"the connection isn't said to end: {fields}")
    return int(status), named, body.decode()


def counted(found, **wanted):
    """What was counted, over all servers."""
    for name, value in wanted.items():
        counts = [count for (family, _), count in found.items() if family == f"voltgalley_{name}"]
        need(counts, f"there is no figure {name}")
        own = sum(counts)
        need(own == value, f"{name} is {own}, not {value}")


def grown(it, before):
    """The page, of which no counter is less than it was."""
    found = it.page()
    for (name, labels), value in (before or {}).items():
        if name.endswith("_total"):
            need(value <= found[name, labels], f"{name} falls from {value} to {found[name, labels]}")
    return found


def load(it, seconds, asking):
    """Four clients send for so long, and something asks meanwhile: how many dispatches were answered."""
    for server in it.servers.values():
        Echo(server)
    flights = [Flight(it.client(), 1_000_000, 20, number=k) for k in range(4)]
    stopped, faults = threading.Event(), []

    def run():
        try:
            asking(stopped)
        except Exception as fault:
            faults.append(fault)

    asker = threading.Thread(target=run, daemon=True)
    asker.start()
    fly(flights, seconds)
    stopped.set()
    asker.join(PATIENCE)
    for flight in flights:
        flight.total = flight.sent
    fly_to_the_end(flights, PATIENCE)
    need(not faults, f"while dispatches passed: {faults[:1]}")
    return sum(flight.answered for flight in flights)
