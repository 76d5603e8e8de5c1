#!/usr/bin/env python3
"""Has a built router record what comes over its connections, and plays that again with a built mux_replay.

    check/incidents.py ROUTER REPLAY [RUNS [SEED]]

ROUTER is a built mux_router, REPLAY a built mux_replay. Each of the RUNS (20 if not given) is random traffic of a second
over a router of its own, with other keys from one to the next. At its end the line `record` is asked, and its script is
played: no line of it may be refused, the histories have to agree, and the frames that go out to each connection have to
be those that this connection was sent. Prints a line for each run; exit status 0 if all went as it should."""
import os
import re
import subprocess
import sys
import time
from collections import Counter

sys.dont_write_bytecode = True

from reading import Fault, need  # noqa: E402
from wire_parts import HOST, PATIENCE, PROBE, RINIT, TINIT, Operator, Rig, free_port, whole_frames  # noqa: E402
from wire_random import Chaos, held_in  # noqa: E402

NAMES = "a b c:probe d e f"
PROBED = "c"
ROUTES = {"/s/a": ["a", "b", "c", "d", "e", "f"], "/s/b": ["d", "c"]}
KEYS = (
    {}, {"threads": 3}, {"retries": 2}, {"retries": 1, "window": 8, "out": 16},
    {"retries": 2, "threads": 2, "tick_ms": 50},
    {"retries": 1, "window": 8, "out": 16, "history": 96, "tick_ms": 50},
    {"record": 50}, {"record": 200, "threads": 3},
)
STEP = re.compile(r"(?:in|end|lose|next|drain|seal|roll|note) ([cs]\d+)(?: ([0-9a-f]+))?$")
FRAME = re.compile(r"([cs]\d+) > ([0-9a-f]+)$")


class Tap:
    """A socket that keeps what went through it."""

    def __init__(self, sock):
        self.sock, self.sent, self.got = sock, bytearray(), bytearray()

    def __getattr__(self, name):
        return getattr(self.sock, name)

    def sendall(self, raw):
        self.sent += raw
        self.sock.sendall(raw)

    def recv(self, count):
        got = self.sock.recv(count)
        self.got += got
        return got


class Recorded(Rig):
    """A router that records."""

    def __init__(self, program, **keys):
        self.operator_port = free_port()
        super().__init__(program, NAMES, ROUTES, operator=f"{HOST}:{self.operator_port}", **keys)
        probed = self.servers[PROBED]
        probed.gives(PROBE)
        probed.send(PROBE)
        probed.gives(TINIT)
        probed.send(RINIT)

    def kept(self, link):
        link.sock = Tap(link.sock)
        return super().kept(link)

    def script(self):
        asker = Operator(self.operator_port)
        self.operators.append(asker)
        asker.send("record\n")
        lines = [asker.line()]
        while lines[-1] not in ("# end", None) and not lines[-1].startswith("error"):
            lines.append(asker.line())
        asker.close()
        need(lines[-1] == "# end", f"record is answered {lines[-1]!r}")
        return lines


def played(replay, lines):
    ran = subprocess.run([replay], input="".join(f"{it}\n" for it in lines).encode(), capture_output=True, timeout=60)
    printed = ran.stdout.decode().split("\n")
    need(ran.returncode == 0, f"the script ended with status {ran.returncode}: {printed[-3:]}")
    wrong = [it for it in printed if it.startswith(("refused", "bad line", "disagree", "memory"))]
    need(not wrong, f"the script was told {wrong[:3]}")
    need(printed[-2] == "agree", f"the script's last line is {printed[-2]!r}")
    return printed


def by_session(lines, pattern):
    """The frames of each session, by lines of this form."""
    found = {}
    for line in lines:
        match = pattern.match(line)
        if match and match[2]:
            found.setdefault(match[1], []).append(bytes.fromhex(match[2]))
    return found


def begins_with(long, short):
    return long[:len(short)] == short


def is_right(link, came, went, is_alive, is_whole):
    """Whether this session's frames are those of a connection: what came in was sent, what went out was got."""
    got = whole_frames(bytearray(link.sock.got))
    if Counter(came) - Counter(whole_frames(bytearray(link.sock.sent))):
        return False
    # What was queued for a connection that is gone didn't get through; a script may end before the router did.
    if is_alive and is_whole:
        return got == went
    return begins_with(went, got) or (not is_whole and begins_with(got, went))


def holds(name, links, came, went, alive, is_whole):
    """The connection that this session's frames are those of."""
    some = [it for it in links if is_right(it, came.get(name, []), went.get(name, []), it in alive, is_whole)]
    need(some, f"{name}: no connection sent {len(came.get(name, []))} frames and got {len(went.get(name, []))}")
    return some[0]


def run(router, replay, seed, **keys):
    keys = {"record": 10_000, **keys}
    with Recorded(router, **keys) as it:
        chaos = Chaos(it, seed, 1, keys.get("retries", 0))
        chaos.runs()
        until = time.monotonic() + PATIENCE
        while held_in(it.status()) and time.monotonic() < until:
            time.sleep(0.02)
        lines = it.script()
    # Some bad ends send a dispatch too.
    is_whole = len(chaos.dispatches) + 100 < keys["record"]
    printed = played(replay, lines)
    came, went = by_session(lines, STEP), by_session(printed, FRAME)
    alive = {peer.link for peer in chaos.clients + chaos.servers if peer.is_alive}
    for place, name in enumerate(it.servers):
        holds(f"s{place + 1}", [it.servers[name]], came, went, alive, is_whole)
    links = [peer.link for peer in chaos.clients]
    for number in range(1, lines.count("client") + 1):
        if f"c{number}" in came:
            links.remove(holds(f"c{number}", links, came, went, alive, is_whole))
    silent = [it.who for it in links if it in alive and it.sock.got and is_whole]
    need(not silent, f"no session of the script is that of {silent}")
    return f"{len(chaos.dispatches)} dispatches, {len(lines)} lines, {sum(map(len, went.values()))} frames out"


def main(router, replay, runs="20", seed="1"):
    failed = 0
    for number in range(int(seed), int(seed) + int(runs)):
        keys = KEYS[number % len(KEYS)]
        try:
            print(f"{number} {keys}: ok, {run(os.path.abspath(router), os.path.abspath(replay), number, **keys)}", flush=True)
        except (Fault, OSError, subprocess.TimeoutExpired) as fault:
            failed += 1
            print(f"{number} {keys}: FAILED: {fault}", flush=True)
    return 1 if failed else 0


if __name__ == "__main__":
    if not 3 <= len(sys.argv) <= 5:
        sys.exit(__doc__)
    sys.exit(main(*sys.argv[1:]))
