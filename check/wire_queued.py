"""Peers that don't read, and the key `out_bytes`: what waits for them is bounded in bytes, and nobody else notices."""
import time

from reading import R, T, frame, need
from wire_parts import A_WHILE, PATIENCE, Echo, fly_to_the_end, Flight, is_served, nack, rdispatch, scenario, tdispatch

MIB = 1 << 20
LARGE = 128 * 1_024
# So many large frames are sent, some at a time: the sockets of a connection take up to 4 MiB of them, and what the router may
# hold beside, by what is queued, as much again in its writer, and a batch for each.
MANY, AT_ONCE = 384, 8
SOCKETS, BATCH = 6 * MIB, AT_ONCE * LARGE
MOST_TAKEN = (SOCKETS + 2 * (MIB + BATCH)) // LARGE
# The memory that this takes, in MiB, with the blocks that readers keep.
MOST_GROWN = 16
KEYS = {"out_bytes": MIB, "max_frame": 256 * 1_024, "window": 1_024, "history": 16_384}
RECEIVES = 64 * 1_024


def large(number):
    return b"large %d " % number * 8 + bytes(LARGE - 8 * len(b"large %d " % number))


def answers(client, *sent):
    """What comes to a client at once for these frames: up to the answer of a second ping, since the first one may be in a batch
    with them, and is answered before what is nacked there."""
    found, pongs = [], 0
    client.send(*sent, frame(T["ping"], 0x600000))
    while True:
        got = client.frame()
        if got != frame(R["ping"], 0x600000):
            found.append(got)
        elif pongs:
            return found
        else:
            pongs = 1
            client.send(frame(T["ping"], 0x600000))


def sends_too_much(client):
    """Large dispatches to a server that doesn't read: the tags of those that were taken. None but the first ones are."""
    taken = []
    for first in range(2, 2 + MANY, AT_ONCE):
        tags = range(first, first + AT_ONCE)
        nacked = answers(client, *(tdispatch(tag, large(tag)) for tag in tags))
        need({*nacked} <= {nack(tag) for tag in tags}, f"another answer: {[it[:40].hex() for it in nacked]}")
        taken += [tag for tag in tags if nack(tag) not in nacked]
    return taken


@scenario
def server_that_does_not_read(start):
    """What is too much for it is nacked, or goes to another server of the route. Others go on. Once it reads, all that it was
    sent is answered, and dispatches go to it again."""
    with start("a b", {"/s/a": ["a"], "/s/b": ["b"], "/s/both": ["a", "b"]}, **KEYS) as it:
        echo, client, other = Echo(it.servers["b"], keeps=b"hung"), it.client(), it.client()
        is_served(other, 5, dst=b"/s/b")
        client.fence()
        before = it.program.resident()
        taken = sends_too_much(client)
        need(MIB // LARGE < len(taken) <= MOST_TAKEN, f"{len(taken)} of {MANY} were taken, {MOST_TAKEN} may be")
        grown = it.program.resident() - before
        need(grown <= MOST_GROWN, f"the router took {grown} MiB more")
        # The other server has the greater load, so that the full one is asked first.
        other.send(*(tdispatch(tag, b"hung", b"/s/b") for tag in range(10, 10 + 2 * len(taken))))
        fly_to_the_end([Flight(client, 300, 8, dst=b"/s/b", first_tag=1_000)], 10)
        for tag in range(2_000, 2_020):
            is_served(client, tag, b"both", b"/s/both")
        Echo(it.servers["a"])
        client.gives_all_of(*(rdispatch(tag, large(tag)) for tag in taken))
        fly_to_the_end([Flight(client, 300, 4, size=LARGE, first_tag=1_000)], 15)
        while echo.kept:
            echo.lets_go()


class Replies(Echo):
    """A server that answers each dispatch with a large body, which begins with the number in the dispatch."""

    def answer(self, raw):
        if raw[4] != T["dispatch"]:
            return super().answer(raw)
        self.count += 1
        return rdispatch(int.from_bytes(raw[5:8], "big"), large(int(raw[8:].rpartition(b"#")[2])))


def asks_for_too_much(client, replies):
    """Dispatches whose replies aren't read, some at a time, until the server isn't sent them any more: how many it was sent.
    All others are sent at once then."""
    for first in range(0, MANY, AT_ONCE):
        client.send(*(tdispatch(2 + n, b"#%d" % n) for n in range(first, first + AT_ONCE)))
        till = time.monotonic() + 3 * A_WHILE
        while replies.count < first + AT_ONCE and time.monotonic() < till:
            time.sleep(0.002)
        if replies.count < first + AT_ONCE:
            client.send(*(tdispatch(2 + n, b"#%d" % n) for n in range(first + AT_ONCE, MANY)))
            break
    time.sleep(A_WHILE)
    return replies.count


@scenario
def client_that_does_not_read(start):
    """Once more waits for it than may, its dispatches aren't taken, and it isn't held to be silent in the midst of one. Others
    go on. When it reads, it gets every reply."""
    with start(frame_ms=300, tick_ms=50, **KEYS) as it:
        replies, client, other = Replies(it.servers["a"]), it.client(RECEIVES), it.client()
        client.fence()
        other.fence()
        before = it.program.resident()
        taken = asks_for_too_much(client, replies)
        need(MIB // LARGE < taken <= MOST_TAKEN, f"{taken} of {MANY} dispatches were taken, {MOST_TAKEN} may be")
        grown = it.program.resident() - before
        need(grown <= MOST_GROWN, f"the router took {grown} MiB more")
        for number in range(50):
            other.send(tdispatch(5, b"#%d" % number))
            other.gives(rdispatch(5, large(number)))
        need(replies.count == taken + 50, f"{replies.count - taken - 50} were taken before the client read")
        left, till = {rdispatch(2 + n, large(n)) for n in range(MANY)}, time.monotonic() + 3 * PATIENCE
        while left:
            got = client.frame()
            need(got in left, f"another reply, or one twice: {got[:40].hex()}")
            left.remove(got)
            need(time.monotonic() < till, f"{len(left)} replies didn't come in time")
        client.send(tdispatch(5, b"#1"))
        client.gives(rdispatch(5, large(1)))


@scenario
def clients_that_do_not_read(start):
    """Several at once, each with more dispatches on their way than its window: they take no more than the sum in CONFIG. Once
    they are gone, others are served."""
    window = 16
    with start(audit="rolling", tick_ms=50, **{**KEYS, "window": window, "server_window": 1_024}) as it:
        replies, links = Replies(it.servers["a"]), [it.client(RECEIVES) for _ in range(4)]
        for link in links:
            link.fence()
        before, count = it.program.resident(), None
        for link in links:
            link.send(*(tdispatch(2 + n, b"#%d" % n) for n in range(MANY)))
        while replies.count != count:
            count = replies.count
            time.sleep(2 * A_WHILE)
        most = len(links) * (2 * (MIB + window * LARGE) + SOCKETS)
        need(count * LARGE <= most, f"{count} of {len(links) * MANY} were taken, {most // LARGE} may be")
        grown, limit = it.program.resident() - before, len(links) * 2 * (MIB + window * LARGE) // MIB + 8
        need(grown <= limit, f"the router took {grown} MiB more, {limit} may be, for {count} of {len(links) * MANY}")
        for link in links:
            link.cut()
        other = it.client()
        other.send(tdispatch(5, b"#1"))
        other.gives(rdispatch(5, large(1)))
