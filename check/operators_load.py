"""Both ports under load, and what they do with bad lines, bad requests and many connections."""
import socket
import time

from metrics_reader import samples_of
from operators_parts import HELP, PLACES, Asked, answer_of, load, scenario, whole
from reading import Fault, need
from wire_parts import HOST, PATIENCE, connected


@scenario
def under_load(program):
    """Each line and each page while dispatches pass."""
    with Asked(program, "a b") as it:
        it.is_audited = False
        rounds = []

        def asking(stopped):
            it.comes_to("client 4", "open")
            while not stopped.is_set():
                need(tuple(it.asks("help")) == HELP, "help is another")
                need(it.asks("health") == ["ok"], "health isn't ok")
                need(it.asks("routes") == ["route /s/a a,b", "end"], "routes are others")
                full = it.asks("status full")
                need(len(full) == 8 and full[-1] == "end", f"status full: {full}")
                rounds.append(it.page())
                status, fields, body = it.get("/metrics")
                need(status == 200 and fields["content-length"] == str(len(body)), f"/metrics: {status} {fields}")
                rounds.append(samples_of(body))
                time.sleep(0.01)

        answered = load(it, 3.0, asking)
        need(answered > 100 and len(rounds) > 2, f"{answered} answers, {len(rounds)} rounds")
        need(all(found["voltgalley_open_dispatches", None] <= 80 for found in rounds), "too many dispatches are open")
        need(any(found["voltgalley_open_dispatches", None] > 0 for found in rounds), "none was ever open")


@scenario
def wrong_lines(program):
    """Each is told so, and the connection goes on, but behind a request of a browser; the lines of the admin port are none here."""
    with Asked(program, "a", boot=3) as it:
        asker = it.asker()
        for line in ("", " ", "HELP", "help ", " help", "healthy", "rejoin", "rejoin ", "drain", "drain all ", "drain client 1",
                     "status", "status  full", "metrics\t", "quit", "retire a", "route /x a", "unroute /s/a",
                     "rejoin a b", "rejoin a,b", "cut", "cut ", "cut a b", "Cut a", "events ", "stop ", "stop -1", "stop +1",
                     "stop 3601", "stop 1 ", "stop now",
                     "stop 18446744073709551617", "GET /metrics HTTP/1.0"):
            asker.ask(line, "error BadCommand")
        asker.ask("health\r", "ok")
        asker.send("x" * 1_025 + "\n")
        need(asker.line() == "error TooLong", "a long line is told something else")
        asker.ends()
        asker = it.asker()
        asker.send(b"\xff\nhealth\n")
        need(asker.line() == "error BadCommand", "a line that is no text is told something else")
        asker.ends()
        asker = it.asker()
        asker.send("POST / HTTP/1.1\r\n\r\ndrain all\r\n")
        need(asker.line() == "error BadCommand", "a request of a browser is told something else")
        asker.ends()
        it.comes_to("server a", "open")
        need(it.asks("routes") == ["route /s/a a", "end"], "a wrong line changed the routes")


@scenario
def requests(program):
    """Every request is answered once, or refused."""
    with Asked(program, "a") as it:
        it.comes_to("server a", "open")
        host = f"Host: {HOST}\r\n"
        for path in ("/metrics", "/metrics?x=1"):
            status, fields, body = it.get(path)
            need(status == 200 and fields["content-type"].startswith("text/plain; version=0.0.4"), f"{status} {fields}")
            samples_of(body)
        status, fields, body = it.http(f"HEAD /metrics HTTP/1.1\r\n{host}\r\n")
        need(status == 200 and not body and int(fields["content-length"]) > 100, f"HEAD: {status} {fields} {body!r}")
        need(it.http("GET /health HTTP/1.0\r\n\r\n")[0] == 200, "HTTP/1.0 is refused")
        for path in ("/", "/metric", "/metrics/", "/Metrics", "*"):
            need(it.get(path)[0] in (404, 400), f"{path} is a page")
        for method in ("POST", "PUT", "DELETE", "OPTIONS", "get"):
            text = f"{method} /metrics HTTP/1.1\r\n{host}Content-Length: 0\r\n\r\n"
            need(it.http(text)[0] == 405, f"{method} is taken")
        for text in ("GET /metrics HTTP/1.1\r\n\r\n", "nothing\r\n\r\n", "GET /metrics HTTP/9\r\n\r\n", "help\n\n",
                     f"GET /metrics HTTP/1.1\r\n{host}{host}\r\n", "GET  /metrics HTTP/1.1\r\n\r\n"):
            need(it.http(text)[0] == 400, f"{text!r} is taken")
        need(it.http(f"GET /metrics HTTP/1.1\r\n{host}x: {'y' * 9_000}\r\n\r\n")[0] == 431, "a long head is taken")
        need(it.http(f"GET /{'y' * 9_000} HTTP/1.1\r\n{host}\r\n")[0] == 414, "a long target is taken")
        twice = f"GET /health HTTP/1.1\r\n{host}\r\n" * 2
        status, _, body = it.http(twice)
        need((status, body) == (200, "ok\n"), f"two requests: {status} {body!r}")
        slow = connected(it.http_port, "slow http")
        slow.bytes_one_by_one(f"GET /health HTTP/1.1\r\n{host}\r\n".encode())
        need(answer_of(whole(slow, PATIENCE))[0] == 200, "a slow request is refused")
        half = connected(it.http_port, "half a request")
        half.send(b"GET /health HTTP/1.1\r\n")
        half.sock.shutdown(socket.SHUT_WR)
        need(whole(half, PATIENCE) == b"", "half a request is answered")


@scenario
def garbage(program):
    """1 MB of it on both ports costs no memory, and the ports go on."""
    with Asked(program, "a") as it:
        it.comes_to("server a", "open")
        before = it.program.resident()
        for port in (it.operator_port, it.http_port) * 4:
            for text in (b"x" * 1_000_000, bytes(range(256)) * 4_000, b"\r\n" * 500_000):
                link = connected(port, "garbage")
                try:
                    link.send(text)
                except Fault:
                    pass
                link.cut()
        need(it.asks("health") == ["ok"] and it.get("/health")[0] == 200, "a port doesn't go on")
        need(it.program.resident() <= before + 8, f"{before} MiB before, {it.program.resident()} behind it")


@scenario
def silent_ones(program):
    """A hundred silent connections on each port take no place for longer than the idle time, and slow nothing."""
    with Asked(program, "a b", admin_idle_ms=700) as it:
        it.is_audited = False
        silent = []

        def asking(stopped):
            for port in (it.operator_port, it.http_port):
                for _ in range(100):
                    silent.append(connected(port, "silent"))
            silent[0].send(b"hea")
            silent[100].send(b"GET /hea")
            stopped.wait()

        answered = load(it, 2.0, asking)
        need(answered > 100, f"only {answered} answers")
        need(it.program.resident() < 200, f"{it.program.resident()} MiB")
        for link in silent[:PLACES] + silent[100:100 + PLACES]:
            need(whole(link, PATIENCE) == b"", "a silent connection was told something")
        for link in silent:
            link.close()
        until = time.monotonic() + 30
        while time.monotonic() < until:
            try:
                need(it.asks("health") == ["ok"] and it.get("/health")[0] == 200, "a port doesn't go on")
                break
            except Fault:
                time.sleep(0.1)
        else:
            raise Fault("the ports don't come back")


@scenario
def slow_requests(program):
    """Eight requests that come a byte at a time, and eight whose clients don't close behind the answer, keep nobody out."""
    with Asked(program, "a") as it:
        it.comes_to("server a", "open")
        slow = [connected(it.http_port, "slow http") for _ in range(PLACES)]
        began = time.monotonic()
        late = connected(it.http_port, "http behind slow ones")
        late.send(f"GET /health HTTP/1.1\r\nHost: {HOST}\r\n\r\n".encode())
        while late.read_some(time.monotonic() + 0.2) is None:
            need(time.monotonic() < began + 9, "slow requests have all places for longer than 9 s")
            for link in slow:
                try:
                    link.send(b"x")
                except Fault:
                    pass
        need(time.monotonic() > began + 4, "a request has less than 5 s")
        need(answer_of(whole(late, PATIENCE))[0] == 200, "another answer")
        answered = [connected(it.http_port, "answered http") for _ in range(PLACES)]
        began = time.monotonic()
        for link in answered:
            link.send(f"GET /health HTTP/1.1\r\nHost: {HOST}\r\n\r\n".encode())
        need(it.get("/health")[0] == 200, "another answer")
        took = time.monotonic() - began
        need(took < 4, f"clients that don't close have all places for {took:.1f} s")
        for link in (*slow, *answered):
            link.close()


@scenario
def at_once(program):
    """Eight connections are served at once, and the ninth once one of them ended."""
    with Asked(program, "a") as it:
        it.comes_to("server a", "open")
        first = [it.asker() for _ in range(PLACES)]
        for asker in first:
            asker.ask("health", "ok")
        late = it.asker()
        late.send("health\n")
        late.is_silent()
        first[3].close()
        late.gives("ok")
        need(it.get("/health")[0] == 200, "the other port waits too")
