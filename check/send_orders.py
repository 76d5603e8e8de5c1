#!/usr/bin/env python3
"""Gives a router the orders of the file that its configuration names as orders_file, once it listens for them.

    check/send_orders.py [--behind] CONFIG PID

PID is the router's process, also while that still compiles or proves the router. The lines `server ..` and `forget ..` go to
the address of the key operator, all others to that of admin, each after the reply to the one before. What is refused is told
on standard error. It ends when the router does. With --behind it ends once it has read the file, and a process of its own,
which is nobody's child, does the rest.
Exit status: 0; 64 wrong usage; 66 the file can't be read."""
import contextlib
import os
import re
import select
import socket
import sys
import time
import tomllib

KEY = "orders_file"
# Seconds in which a router that runs has to listen, and a reply to come: an operator that came before is served first.
LISTENS, REPLIES = 60, 300
STEP = 0.02
ORDER = re.compile(r"status|quit|drain client [0-9]+|retire ([^ ,]+)|route [^ ]* ([^ ]+)|unroute [^ ]*"
                   r"|server ([^ ,]+) (?:[0-9.]+|\[[0-9a-fA-F:.%]+\]):[0-9]{1,5}(?: plain)?|forget ([^ ,]+)")
OF_OPERATOR = ("server ", "forget ")
# What `routes` prints of a destination that no order can change.
UNWRITABLE = "unwritable "


class Unread(Exception):
    """The file can't be read."""


def orders_of(config):
    """The orders in the file that a configuration names, each with the number of its line."""
    if KEY not in config:
        return []
    try:
        # (a number would be an open file's)
        with open(str(config[KEY]), encoding="utf-8", errors="surrogateescape", newline="\n") as file:
            lines = [it.removesuffix("\r") for it in file.read().split("\n")]
    except (OSError, ValueError) as why:
        raise Unread(f"{KEY}: {config[KEY]} cannot be read") from why
    return [(number, it) for number, it in enumerate(lines, 1) if it not in ("", "end") and not it.startswith(("#", UNWRITABLE))]


def key_of(order):
    """The key of the port that takes an order."""
    return "operator" if order.startswith(OF_OPERATOR) else "admin"


def faults(config):
    """What is wrong with that file, as far as it can be known without the router."""
    try:
        orders = orders_of(config)
    except Unread as why:
        yield str(why)
        return
    servers = config.get("server", [])
    known = [it.get("name") for it in servers if isinstance(it, dict)] if isinstance(servers, list) else []
    for number, order in orders:
        found = ORDER.fullmatch(order)
        if not found:
            yield f"{KEY}: line {number} is no order"
        elif key_of(order) not in config:
            yield f"{KEY}: line {number} needs the key {key_of(order)}"
        for name in found[found.lastindex].split(",") if found and found.lastindex else []:
            if name not in known:
                yield f"{KEY}: line {number}: there is no server {name}"


def address_of(text):
    host, _, port = text.rpartition(":")
    return host.strip("[]"), int(port)


def say(text):
    with contextlib.suppress(OSError):
        print(f"{KEY}: {text}", file=sys.stderr, flush=True)


def listens(router, port):
    """Whether this process itself does: another router may have the port."""
    with contextlib.suppress(OSError):
        own = {os.readlink(it.path) for it in os.scandir(f"/proc/{router}/fd")}
        for table in ("tcp", "tcp6") if any(it.startswith("socket:") for it in own) else ():
            with contextlib.suppress(FileNotFoundError), open(f"/proc/{router}/net/{table}", encoding="ascii") as file:
                rows = [row.split() for row in file][1:]
                if any(f"socket:[{it[9]}]" in own for it in rows if it[3] == "0A" and int(it[1][-4:], 16) == port):
                    return True
    return False


def runs(router):
    """Whether the process is the router. Before, bash or Python proves or compiles it there."""
    with contextlib.suppress(OSError):
        return not re.match(r"\w*sh$|python", os.path.basename(os.readlink(f"/proc/{router}/exe")))
    return False


def comes_up(router, gone, port):
    """Waits until the router listens: whether it does."""
    until = None
    while not listens(router, port):
        if gone.poll(STEP * 1000):
            return False
        if until is None and runs(router):
            until = time.monotonic() + LISTENS
        if until is not None and time.monotonic() > until:
            say(f"nothing is sent: the router doesn't listen at port {port}")
            return False
    return True


def reply_to(link, order):
    """The first line of the reply, which is read up to its end."""
    link.settimeout(REPLIES)
    link.sendall(order.encode("utf-8", "surrogateescape") + b"\n")
    with link.makefile("rb") as lines:
        first = line = lines.readline()
        while order == "status" and not first.startswith(b"error") and line not in (b"end\n", b""):
            line = lines.readline()
    return first.decode(errors="replace").rstrip("\n") or "no reply"


def send(orders, addresses, gone):
    link = at = None
    for number, order in orders:
        key = key_of(order)
        if key not in addresses:
            say(f"line {number}: the configuration has no key {key}")
            continue
        try:
            if key != at:
                # (the one port serves one operator at a time, and both close silent connections)
                if link:
                    link.close()
                link, at = None, key
            link = link or socket.create_connection(addresses[key], REPLIES)
            reply = reply_to(link, order)
        except TimeoutError:
            say(f"line {number}: no reply in {REPLIES} s, so the lines behind it aren't sent")
            return
        except OSError as why:
            reply = f"no reply: {why.strerror}"
        if reply == "bye":
            return
        if reply.startswith(("error", "no reply")):
            say(f"line {number}: {reply}")
            if gone.poll(0):
                return
            # Some refusals end the connection.
            link, _ = None, link and link.close()


def detach():
    """Goes on in a process of its own, without the terminal, input and output of the router."""
    if os.fork():
        os._exit(0)
    os.setsid()
    nothing = os.open(os.devnull, os.O_RDWR)
    for stream in (0, 1):
        os.dup2(nothing, stream)


def main(words):
    is_behind = words[:1] == ["--behind"]
    words = words[is_behind:]
    if len(words) != 2 or not words[1].isdigit():
        print(__doc__, file=sys.stderr)
        return 64
    try:
        router, gone = int(words[1]), select.poll()
        gone.register(os.pidfd_open(router), select.POLLIN)
        with open(words[0], "rb") as file:
            config = tomllib.load(file)
        orders = orders_of(config)
        addresses = {key: address_of(config[key]) for key in ("admin", "operator") if key == "admin" or key in config}
    except Unread as why:
        print(f"router: {words[0]}: {why}", file=sys.stderr)
        return 66
    except (OSError, ValueError, KeyError, AttributeError):
        # The router is gone, or will say which fault its configuration has.
        return 0
    if orders and is_behind:
        detach()
    wanted = {key_of(order) for _, order in orders} & {*addresses}
    if orders and all(comes_up(router, gone, addresses[key][1]) for key in sorted(wanted)):
        send(orders, addresses, gone)
    return 0


if __name__ == "__main__":
    sys.exit(main(sys.argv[1:]))
