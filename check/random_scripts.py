#!/usr/bin/env python3
"""Random scripts for mux_replay: each made line by line from a seed and from what was printed so far, and
each read a second time (reading.py) after every line. At the end of each boot the program holds the histories
of all sessions, of all epochs, against each other by its own `agree`, and has to print that they agree; at the
end of the script the lists are read over a second time too.

    check/random_scripts.py [--seed N] [--count N] [--lines N] [--faults] [--keep FILE] [--table N] COMMAND ...

COMMAND is a built mux_replay. --faults spoils what one line of each script printed: another body or tag of a
frame, a frame twice, a nack in place of a reply, an answer dropped, another refusal, two frames swapped. It wants
the second reading to refuse it, and says how many scripts gave nothing to spoil in their way. --keep writes the last script to FILE, and what it printed to FILE.out.
--table N prints N of the scripts, which together show the most, as the table that the tests read.
Exit status 0 where all is as it should be."""
import argparse
import os
import random
import subprocess
import sys

from reading import FINAL, NACK, OWN_ERRORS, R, T, Fault, Reading, frame, need, parts
from rows import written

# What a script prints after each of its lines, and by itself never in this order.
MARK = b"in c0 00\nnote h0\n"
MARKED = b"refused NoSuchSession\nrefused NoSuchHand\n"
DESTINATIONS = ("/s/a", "/s/b", "/s/c")


class Program:
    """A running mux_replay that is handed one line at a time."""

    def __init__(self, command):
        self.ran = subprocess.Popen(command, stdin=subprocess.PIPE, stdout=subprocess.PIPE, bufsize=0)

    def line(self, text):
        self.ran.stdin.write(text.encode() + b"\n" + MARK)
        got = b""
        while not got.endswith(MARKED):
            more = os.read(self.ran.stdout.fileno(), 65536)
            need(more, f"the program ended after {got!r}")
            got += more
        return got[: -len(MARKED)].decode().splitlines()

    def end(self):
        self.ran.stdin.close()
        need(self.ran.stdout.read() == b"agree\n" and self.ran.wait() == 0, "another end")


class Author:
    """Writes the next line of a script: what a lawful far end may do, and at times what none may."""

    def __init__(self, seed):
        self.random = random.Random(seed)
        one = self.random
        self.retries = one.choice((0, 1, 1, 2, 3))
        window, history = one.choice((1, 3, 6, 12)), one.choice((16, 32, 64, 128, 512))
        self.first = f"limits 65536 {window} {window + one.randint(4, 12)} {history} {self.retries}"
        self.reading = Reading(self.retries)
        self.bodies = 0
        self.is_holding = False
        self.rest = {}
        self.opening = ["client", "server plain"] * 2 + ["server probe"]
        self.opening += [f"route {it} {self.servers_of_a_route()}" for it in DESTINATIONS[:2]]
        one.shuffle(self.opening)

    def servers_of_a_route(self):
        return " ".join(self.random.sample(("s1", "s2", "s3", "s4", "s5"), self.random.randint(1, 4)))

    def body(self):
        self.bodies += 1
        return self.bodies.to_bytes(3, "big")

    def a(self, prefix, want=lambda it: it.is_open):
        """One of the sessions, or None."""
        sessions = self.reading.clients if prefix == "c" else self.reading.servers
        found = [k for k, it in enumerate(sessions, 1) if want(it)]
        return f"{prefix}{self.random.choice(found)}" if found else None

    def next_line(self):
        if self.opening:
            return self.opening.pop()
        ways = ((self.opens, 6), (self.dispatch, 24), (self.value, 44), (self.reply, 30), (self.discard, 3),
                (self.small, 6), (self.control, 8), (self.loses, 1), (self.seal, 6),
                (self.roll, 3), (self.rare, 2))
        while True:
            way, = self.random.choices([it for it, _ in ways], [it for _, it in ways])
            line = way()
            if line is not None:
                return line

    def opens(self):
        reading, one = self.reading, self.random
        if sum(it.is_open for it in reading.clients) < 2:
            return "client"
        if sum(it.is_open and not it.is_drained and not it.is_retired for it in reading.servers) < 2:
            return one.choice(("server plain", "server probe"))
        return one.choice(("client", "server plain", "server probe")) if one.random() < 0.02 else None

    def sends(self, word, raw):
        """The bytes in one piece or in two, which the rest of the next one joins."""
        rest = self.rest.pop(word, b"")
        if rest or self.random.random() < 0.9:
            return f"in {word} {(rest + raw).hex()}"
        cut = self.random.randint(1, len(raw) - 1)
        self.rest[word] = raw[cut:]
        return f"in {word} {raw[:cut].hex()}"

    def dispatch(self):
        one, word = self.random, self.a("c")
        if word is None:
            return None
        if word in self.rest:
            return f"in {word} {self.rest.pop(word).hex()}"
        client = self.reading.session(word)
        # A tag is used again once its answer was printed, and rarely before.
        free = [it for it in range(1, 9) if (it in client.waits) == (one.random() < 0.01)]
        if not free:
            return None
        where = one.choices(DESTINATIONS, (10, 10, 1))[0].encode()
        contexts = one.choice((b"\x00\x00", b"\x00\x01\x00\x01k\x00\x01v"))
        body = contexts + len(where).to_bytes(2, "big") + where + b"\x00\x00" + self.body()
        return self.sends(word, frame(T["dispatch"], one.choice(free), body))

    def value(self):
        """A value in hand is used, mostly in the way that it is for."""
        one, hands = self.random, self.reading.hands
        if not hands:
            return None
        hand = one.choice(sorted(hands)) if one.random() < 0.5 else max(hands)
        kind = hands[hand][0]
        if one.random() < 0.02:
            kind = one.choice(("ticket", "placed", "settled", "recall", "lost"))
        if kind == "ticket":
            way = one.choices(("place", "offer", "nack", "unroute"), (40, 50, 3, 3))[0]
            if way == "offer":
                server = self.a("s", lambda it: it.is_open or one.random() < 0.1)
                return server and f"offer h{hand} {server}"
            return f"{way} h{hand}"
        return f"{dict(placed='note', settled='settle', recall='recall', lost='fail')[kind]} h{hand}"

    def reply(self):
        """A server's frame: a reply to what went out to it, or one that nothing asked for."""
        one = self.random
        word = self.a("s", lambda it: it.is_open and (it.waits or one.random() < 0.01))
        if word is None:
            return None
        if word in self.rest:
            return f"in {word} {self.rest.pop(word).hex()}"
        server = self.reading.session(word)
        tag = one.choice(sorted(server.waits)) if server.waits and one.random() < 0.97 else 1000
        kind = one.choices((R["dispatch"], R["err"], R["old_err"], R["discarded"]), (92, 3, 2, 3))[0]
        if kind == R["dispatch"]:
            status = one.choices((0, 1, 2, 7), (60, 5, 33, 2))[0]
            contexts = one.choice((b"\x00\x00", b"\x00\x01\x00\x01k\x00\x01v"))
            body = bytes([status]) + contexts + (self.body() if one.random() < 0.8 or status != 2 else b"")
        else:
            body = b"" if kind == R["discarded"] else b"no" + self.body()
        return self.sends(word, frame(kind, tag, body))

    def discard(self):
        word = self.a("c", lambda it: it.is_open and it.waits)
        if word is None or word in self.rest:
            return None
        tag = self.random.choice(sorted(self.reading.session(word).waits))
        kind = self.random.choice((T["discarded"], 0xC2))
        return self.sends(word, frame(kind, 0, tag.to_bytes(3, "big") + b"why" + self.body()))

    def small(self):
        """Pings, initiation, drains, and what has no meaning here."""
        one, word = self.random, self.a(self.random.choice("ccss"))
        if word is None or word in self.rest:
            return None
        ping = frame(T["ping"], one.randint(0, 9))
        tag = 100 + one.randint(0, 9)
        if word[0] == "c":
            drained = frame(R["drain"], 1)
            some = [ping, ping + ping, frame(T["init"], tag, b"\x00\x01"), frame(T["req"], tag, b"\x00")]
            some += [frame(R["err"], 1, b"tinit check")] + [drained] * 4 * self.reading.session(word).asked_to_drain
            return self.sends(word, one.choice(some))
        if not self.reading.session(word).is_ready:
            return self.initiates(word)
        lease = frame(T["lease"], 0, b"\x00" + one.choice((5000, 20000, 20000)).to_bytes(8, "big"))
        some = [ping, ping, lease, lease] + [frame(R["ping"], 1)] * self.reading.session(word).was_pinged
        some += [frame(T["drain"], tag)] * (one.random() < 0.2)
        return self.sends(word, one.choice(some))

    def initiates(self, word):
        server = self.reading.session(word)
        if not server.was_asked and self.random.random() < 0.7:
            server.was_asked = True
            back = frame(R["err"], 1, b"tinit check")
        else:
            server.is_ready = True
            back = frame(R["init"], 1, b"\x00\x01") if server.was_asked else frame(R["err"], 1, b"no")
        return f"in {word} {back.hex()}"

    def control(self):
        one = self.random
        server = self.a("s") or "s9"
        way = one.choices(("now", "clock", "ping", "hold", "drain", "retire", "next", "now back"),
                          (6, 4, 4, 3, 1, 0.3, 4, 1))[0]
        if way == "now":
            return f"now {self.reading.now + one.choice((10, 1000, 5000))}"
        if way == "now back":
            return f"now {max(0, self.reading.now - 1500)}"
        if way == "hold":
            self.is_holding = not self.is_holding
            return "hold on" if self.is_holding else "hold off"
        if way == "drain":
            client = self.a("c")
            return client and f"drain {client}"
        if way == "next":
            word = self.a(one.choice("cs"), lambda it: not it.is_open or one.random() < 0.02)
            return word and f"next {word}"
        return f"{way} {server}"

    def loses(self):
        one, word = self.random, self.a(self.random.choice("cs"))
        if word is None or one.random() < 0.4:
            return None
        broken = [frame(T["ping"], 0x800001), frame(T["dispatch"], 0, b"\x00" * 6), frame(R["dispatch"], 7, b"\x00\x00\x01"),
                  b"\x00\x00\x00\x01\x00"]
        self.rest.pop(word, None)
        return one.choice((f"lose {word}", f"end {word}", f"in {word} {one.choice(broken).hex()}"))

    def seal(self):
        word = self.a(self.random.choice("cs"), lambda it: not it.waits or self.random.random() < 0.1)
        return word and f"seal {word}"

    def roll(self):
        word = self.a(self.random.choice("cs"), lambda it: it.waits or self.random.random() < 0.2)
        return word and f"roll {word}"

    def rare(self):
        one = self.random
        chance = one.random()
        if chance < 0.04:
            self.opening = ["client", "server plain"] * 2 + [f"route {it} s1 s2" for it in DESTINATIONS[:2]]
            self.rest.clear()
            return "restart"
        if chance < 0.3:
            return f"route {one.choice(DESTINATIONS[:2])} {self.servers_of_a_route()}"
        if chance < 0.4:
            return one.choice(("lose c40", "offer h999 s1", "note h999", "seal s40", "roll c40", "end s40"))
        return None


# The ways in which --faults spoils what was printed.
FAULTS = ("another body", "another tag", "a frame twice", "a nack in place of a reply", "an answer dropped",
          "another refusal", "two frames swapped")

# Causes that the second reading always sees; of `place` it sees those of the value alone.
SEEN = ("NoSuchSession", "NoSuchHand", "WrongHand", "Closed", "Drained", "Retired", "AlreadyDraining")
SEEN_OF_PLACE = ("NoSuchHand", "WrongHand", "AlreadyDraining")


def wrong_lines(text, printed):
    """What may stand in place of what the line printed: the way in which it is wrong, and all its lines."""
    for place, line in enumerate(printed):
        told = line.split(" ")

        def instead(way, *lines):
            return way, [*printed[:place], *lines, *printed[place + 1 :]]

        if told[0] == "refused":
            for name in SEEN_OF_PLACE if text.startswith("place") else SEEN:
                if name != told[1]:
                    yield instead("another refusal", f"refused {name}")
        if told[1:2] == [">"]:
            yield from (instead(*it) for it in wrong_frames(told[0], line, *parts(bytes.fromhex(told[2]))))
            if place > 0 and may_not_pass(text, printed[place - 1], line):
                yield "two frames swapped", [*printed[: place - 1], line, printed[place - 1], *printed[place + 1 :]]


def wrong_frames(word, line, kind, tag, body):
    """What may stand in place of a frame that went out."""
    if kind in (R["dispatch"], T["dispatch"]):
        yield "another body", f"{word} > {frame(kind, tag, body[:-1] + bytes([body[-1] ^ 1])).hex()}"
        yield "another tag", f"{word} > {frame(kind, tag + 300, body).hex()}"
    if kind == R["dispatch"]:
        yield "a frame twice", line, line
        if body[0] != 2:
            yield "a nack in place of a reply", f"{word} > {frame(kind, tag, NACK).hex()}"
    if word[0] == "c" and has_a_turn(kind, body):
        yield ("an answer dropped",)


def has_a_turn(kind, body):
    """A Tdispatch, or the answer to one."""
    return kind == T["dispatch"] or (kind in FINAL and body not in OWN_ERRORS)


def may_not_pass(text, first, second):
    """Two printed frames whose order is seen: of one session, or where `hold off` sends those of all sessions."""
    one, other = first.split(" "), second.split(" ")
    if one[1:2] != [">"]:
        return False
    if one[0] != other[0]:
        return text == "hold off"
    frames = [parts(bytes.fromhex(it[2])) for it in (one, other)]
    return first != second and all(has_a_turn(kind, body) for kind, _, body in frames)


def make_one(command, seed, lines, is_wrong):
    """One script, and what its reading has seen; with is_wrong None where it gave nothing to spoil."""
    author, program = Author(seed), Program(command)
    chance = random.Random(seed + 1)
    way = chance.choice(FAULTS)
    script = ["judge", author.first]
    output = program.line("\n".join(script))
    try:
        for number in range(lines):
            text = author.next_line()
            printed = program.line(text)
            script.append(text)
            output += printed
            spoils = is_wrong and number > lines // 3
            wrong = [them for its, them in wrong_lines(text, printed) if its == way] if spoils else []
            if wrong:
                instead = chance.choice(wrong)
                try:
                    author.reading.line(text, instead)
                except Fault:
                    return script, output, {way: 1}
                raise AssertionError(f"seed {seed}: {way}, and not refused: {text}: {instead} for {printed}")
            author.reading.line(text, printed)
        program.end()
        output.append("agree")
        author.reading.agree()
        return None if is_wrong else (script, output, author.reading.seen)
    except (Fault, LookupError, ValueError) as fault:
        print(*script, text, sep="\n", file=sys.stderr)
        raise AssertionError(f"seed {seed}, line {len(script)}: {fault!r} in {printed}") from fault
    finally:
        program.ran.kill()
        program.ran.wait()


def table(made, often):
    """Of all scripts so many, each of which shows the most that those before it don't."""
    shown = set()
    for _ in range(often):
        seed, script, output, seen = max(made, key=lambda it: len(it[3].keys() - shown))
        shown |= seen.keys()
        print(f"== seed {seed}", written("\n".join(script), "\n".join(output)), sep="\n", end="")


def main():
    said = argparse.ArgumentParser(usage=__doc__)
    said.add_argument("--seed", type=int, default=1)
    said.add_argument("--count", type=int, default=2000)
    said.add_argument("--lines", type=int, default=200)
    said.add_argument("--faults", action="store_true")
    said.add_argument("--keep")
    said.add_argument("--table", type=int)
    said.add_argument("command", nargs=argparse.REMAINDER)
    said = said.parse_args()
    seen, count, lines, all_made, unspoiled = {}, 0, 0, [], 0
    for seed in range(said.seed, said.seed + said.count):
        made = make_one(said.command, seed * 1_000_003, said.lines, said.faults)
        if made is None:
            unspoiled += 1
            continue
        script, output, its = made
        if said.table:
            all_made.append((seed, *made))
        count, lines = count + 1, lines + len(script)
        for what, often in its.items():
            seen[what] = seen.get(what, 0) + often
        if said.keep:
            with open(said.keep, "w") as it:
                it.write("\n".join(script) + "\n")
            with open(said.keep + ".out", "w") as it:
                it.write("".join(f"{line}\n" for line in output))
    if said.table:
        return table(all_made, said.table)
    for what in sorted(seen):
        print(f"{seen[what]:9}  {what}")
    if said.faults:
        print(f"{count} scripts: each fault was refused; {unspoiled} more gave nothing to spoil")
    else:
        print(f"{count} scripts of {lines} lines: all as it should be")
    return 0


if __name__ == "__main__":
    sys.exit(main())
