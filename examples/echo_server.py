#!/usr/bin/env python3
"""A Mux server that answers each Tdispatch with its own body.

    examples/echo_server.py [ADDRESS:PORT]

Without an address it listens at 127.0.0.1:4200, the server of examples/one_server.toml. It answers pings, sends a
probe back and takes part in initiation, so it serves with `init = "probe"` too. It passes discards over."""
import socketserver
import sys

TDISPATCH, RDISPATCH = 2, -2
TPING, RPING = 65, -65
TINIT, RINIT = 68, -68
RERR = -128

STATUS_OK_NO_CONTEXTS = bytes(3)
VERSION_1 = bytes([0, 1])


def frame(kind, tag, body):
    """size:4 type:1 tag:3 body"""
    return (4 + len(body)).to_bytes(4, "big") + kind.to_bytes(1, "big", signed=True) + tag + body


def body_of(dispatch):
    """What stands behind the contexts, the destination and the dtab."""
    at = 0

    def number():
        nonlocal at
        at += 2
        return int.from_bytes(dispatch[at - 2 : at], "big")

    def skip_strings(count):
        nonlocal at
        for _ in range(count):
            length = number()
            at += length

    skip_strings(2 * number())
    skip_strings(1)
    skip_strings(2 * number())
    return dispatch[at:]


def answer(kind, tag, body):
    """The frame to be sent back, or nothing."""
    if kind == TDISPATCH:
        return frame(RDISPATCH, tag, STATUS_OK_NO_CONTEXTS + body_of(body))
    if kind == TPING:
        return frame(RPING, tag, b"")
    if kind == TINIT:
        return frame(RINIT, tag, VERSION_1)
    if kind == RERR:
        return frame(RERR, tag, body)
    return b""


class Connection(socketserver.StreamRequestHandler):
    def handle(self):
        while size := self.rfile.read(4):
            rest = self.rfile.read(int.from_bytes(size, "big"))
            kind = int.from_bytes(rest[:1], "big", signed=True)
            self.wfile.write(answer(kind, rest[1:4], rest[4:]))


class Server(socketserver.ThreadingTCPServer):
    allow_reuse_address = True
    daemon_threads = True


if __name__ == "__main__":
    host, _, port = (sys.argv[1:] or ["127.0.0.1:4200"])[0].rpartition(":")
    with Server((host, int(port)), Connection) as server:
        server.serve_forever()
