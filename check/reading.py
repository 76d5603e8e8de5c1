"""A second reading of what mux_replay prints: no rule of the router's own, only what its clients, its
servers and whoever drives it may hold it to."""

T = {"dispatch": 0x02, "drain": 0x40, "ping": 0x41, "discarded": 0x42, "lease": 0x43, "init": 0x44, "req": 0x01}
R = {"dispatch": 0xFE, "drain": 0xC0, "ping": 0xBF, "discarded": 0xBE, "init": 0xBC, "err": 0x80, "old_err": 0x7F}
FINAL = (R["dispatch"], R["discarded"], R["err"], R["old_err"])
NACK = b"\x02\x00\x00"
OWN_ERRORS = (b"unsupported", b"tinit out of place", b"tinit check")

# What each line may be refused for, in the order in which the causes are looked at.
OF_A_VALUE = ("NoSuchHand", "WrongHand")
OFFERED = ("Closed", "NotOpen", "Drained", "Retired", "Lapsed", "Full", "Spent")
CAUSES = {
    "in": ("NoSuchSession", "Closed", "Busy", "Spent"),
    **dict.fromkeys(("end", "lose", "next"), ("NoSuchSession",)),
    "offer": ("NoSuchSession", *OF_A_VALUE, *OFFERED),
    "place": (*OF_A_VALUE, "NoSuchSession", *OFFERED),
    **dict.fromkeys(("note", "settle", "nack", "unroute", "fail", "recall"), OF_A_VALUE),
    "drain": ("NoSuchSession", "Closed", "AlreadyDraining", "Busy", "Spent"),
    **dict.fromkeys(("clock", "retire"), ("NoSuchSession", "Closed", "Spent")),
    "ping": ("NoSuchSession", "Closed", "NotOpen", "Outstanding", "Busy", "Spent"),
    "seal": ("NoSuchSession", "Closed", "NotQuiet", "NotFull", "LastEpoch"),
    "roll": ("NoSuchSession", "Closed", "NoRoom", "LastEpoch"),
}
USED_BY = dict(offer="ticket", place="ticket", nack="ticket", unroute="ticket", note="placed", settle="settled",
               recall="recall", fail="lost")


class Fault(Exception):
    """The printed lines break a promise."""


def need(holds, why):
    if not holds:
        raise Fault(why)


def frame(kind, tag, body=b""):
    inner = bytes([kind]) + tag.to_bytes(3, "big") + body
    return len(inner).to_bytes(4, "big") + inner


def parts(raw):
    """Type, tag and body of one whole frame."""
    need(len(raw) >= 8 and int.from_bytes(raw[:4], "big") == len(raw) - 4, "a frame of another size")
    return raw[4], int.from_bytes(raw[5:8], "big"), raw[8:]


def is_nack(reply):
    return reply is not None and reply[0] == R["dispatch"] and reply[1][:1] == b"\x02"


class Dispatch:
    """A Tdispatch that a client sent; it has no name if it came after the client's Rdrain."""

    def __init__(self, name, body):
        self.name, self.body = name, body
        self.sendings = []
        self.is_discarded = self.is_answered = self.is_orphan = False
        # how often each was told or went out
        self.again = self.answers = 0

    def is_over(self):
        """Its answer goes out, or has."""
        return self.is_answered or self.is_discarded or self.name is None

    def may_be_nacked(self):
        return all(is_nack(it.reply) for it in self.sendings)


class Sending:
    """One sending of a dispatch to a server."""

    def __init__(self, dispatch, server, tag):
        self.dispatch, self.server, self.tag = dispatch, server, tag
        self.is_lost = False
        self.reply = None


class Session:
    def __init__(self):
        self.is_open = True
        self.epoch = 0
        # what has no reply yet, by tag
        self.waits, self.pings = {}, {}


class Server(Session):
    def __init__(self, mode):
        super().__init__()
        self.is_plain = self.is_ready = mode == "plain"
        self.reading, self.lapse = 0, None
        self.is_drained = self.is_retired = self.sent_rdrain = False
        # what the author of a script knows of its own frames
        self.was_asked = self.was_pinged = False
        self.placed, self.recalled = [], []


class Client(Session):
    def __init__(self):
        super().__init__()
        self.asked_to_drain = self.sent_rdrain = False
        # the dispatches whose answers are to go out, in that order
        self.due = []


class Reading:
    """`line` is handed each script line with the lines that it printed."""

    def __init__(self, retries=0):
        self.retries, self.now, self.boot, self.hand = retries, 0, 1, 0
        self.seen, self.all, self.is_holding = {}, [], False
        self.begin()

    def begin(self):
        self.clients, self.servers, self.names, self.hands = [], [], {}, {}

    def count(self, what):
        self.seen[what] = self.seen.get(what, 0) + 1

    def session(self, word):
        sessions = self.clients if word[0] == "c" else self.servers
        number = int(word[1:])
        return sessions[number - 1] if 0 < number <= len(sessions) else None

    # a script line, as what comes of it
    def line(self, text, printed):
        words = text.split(" ")
        getattr(self, "on_" + words[0], lambda *_: None)(words[1:], printed)
        self.told_all(words, printed)
        if not self.is_holding:
            need(not any(it.is_open and it.due for it in self.clients), "an answer that did not go out")
            need(not any(it.is_open and it.placed for it in self.servers), "a Tdispatch that did not go out")

    def on_client(self, _, printed):
        self.clients.append(Client())

    def on_server(self, words, printed):
        self.servers.append(Server(words[0]))

    def on_hold(self, words, printed):
        self.is_holding = words[0] == "on"
        went = [it.split(" ")[0] for it in printed]
        need(went == sorted(went, key=lambda it: (it[0], int(it[1:]))), "frames in another order of sessions")

    def on_now(self, words, printed):
        self.now = int(words[0])

    def on_restart(self, _, printed):
        self.boot += 1
        need(printed[:2] == ["agree", f"boot {self.boot}"], "another boot, or its histories do not agree")
        self.begin()

    def on_in(self, words, printed):
        session = self.session(words[0])
        if session is None:
            return
        own = [it for it in printed if " > " not in it]
        refused = sum(it.startswith("refused ") for it in own)
        for raw in self.frames_of(words[0], bytes.fromhex(words[1])):
            kind, tag, body = parts(raw)
            if kind == T["ping"]:
                session.pings[tag] = session.pings.get(tag, 0) + 1
                if words[0][0] == "s" and not refused:
                    self.reads(session)
            elif not refused and session.is_open and not any(" closed " in it for it in own):
                take = self.from_client if words[0][0] == "c" else self.from_server
                take(session, kind, tag, body, own)

    def frames_of(self, word, more):
        held = self.session(word)
        held.bytes = getattr(held, "bytes", b"") + more
        while len(held.bytes) >= 8:
            size = 4 + int.from_bytes(held.bytes[:4], "big")
            if len(held.bytes) < size or size < 8:
                return
            raw, held.bytes = held.bytes[:size], held.bytes[size:]
            yield raw

    def from_client(self, client, kind, tag, body, own):
        if kind == T["dispatch"]:
            names = [it.split(" ")[2] for it in own if " ticket " in it]
            name = names[0] if names else None
            before = client.waits.setdefault(tag, [])
            need(all(it.is_over() for it in before), "a tag that is in use was taken")
            need(name is not None or client.sent_rdrain, "neither a ticket nor a refusal")
            need(name not in self.names, "a name given twice")
            before.append(Dispatch(name, body))
            self.all.append(before[-1])
            if name is not None:
                self.names[name] = before[-1]
            else:
                client.due.append(before[-1])
        elif kind == T["discarded"] or kind == 0xC2:
            for it in client.waits.get(int.from_bytes(body[:3], "big"), ())[-1:]:
                client.due += [] if it.is_over() else [it]
                it.is_discarded = True
        elif kind == R["drain"] and tag == 1 and client.asked_to_drain:
            client.sent_rdrain = True

    def from_server(self, server, kind, tag, body, own):
        self.reads(server)
        if kind in FINAL and tag in server.waits:
            sending = server.waits.pop(tag)
            sending.reply = (R["err"] if kind == R["old_err"] else kind, body)
            settled = [it.split(" ")[2] for it in own if " settled " in it]
            need(settled == [sending.dispatch.name], "a reply settles another's dispatch")
            if is_nack(sending.reply):
                self.count("a sending nacked")
        elif kind == T["lease"] and body[0] == 0:
            server.lapse = server.reading + max(0, int.from_bytes(body[1:], "big", signed=True))
        elif kind == T["drain"]:
            server.is_drained = True

    def reads(self, server):
        server.reading = max(server.reading, self.now)

    def agree(self):
        """At the end: the lists of all sessions agree on each dispatch, of all boots."""
        names = [it.name for it in self.all if it.name is not None]
        need(len(names) == len(set(names)), "a name given twice")
        for it in self.all:
            nacked = sum(is_nack(one.reply) for one in it.sendings)
            need(it.answers <= 1, "answered twice")
            need(len(it.sendings) <= 1 + it.again and it.again <= nacked, "sent again without a nack")
            need(it.again <= self.retries, "sent again too often")
            need(all(is_nack(one.reply) for one in it.sendings[:-1]), "sent again while it was out")
            need(it.name is not None or not it.sendings, "sent after the client's Rdrain")

    # what was printed, line by line
    def told_all(self, words, printed):
        for it in printed:
            told = it.split(" ")
            if words == ["restart"] and it == "agree":
                continue
            need(told[0] != "disagree", "the histories do not agree")
            need(len(told) > 1 and told[0] != "bad", "the script ended")
            if told[1:2] == [">"]:
                out = self.to_client if told[0][0] == "c" else self.to_server
                out(self.session(told[0]), *parts(bytes.fromhex(told[2])))
            elif told[0] == "refused":
                self.count(it)
                self.is_refused(words, told[1])
            elif told[0][0] == "h" and told[0][1:].isdigit():
                self.gives(words, told)
            elif told[1] in ("lost", "closed", "fault"):
                self.ends(told)
            else:
                self.tells(words, told)

    def is_refused(self, words, name):
        """The cause is one of that line's, it isn't seen to be false, and none before it is seen to be true."""
        causes = CAUSES.get(words[0], ())
        need(name in causes, "a cause that this line does not have")
        holds = [self.holds(words, it) for it in causes[: causes.index(name) + 1]]
        need(holds[-1] is not False, "a cause that is not there")
        need(True not in holds[:-1], "another cause comes first")

    def holds(self, words, cause):
        """Whether a cause is there; None where that isn't seen."""
        if cause in OF_A_VALUE:
            held = self.hands.get(int(words[1][1:]))
            return held is None if cause == "NoSuchHand" else held and held[0] != USED_BY[words[0]]
        if words[0] == "place":
            return None
        session = self.session(words[-1] if words[0] == "offer" else words[1])
        if cause == "NoSuchSession" or session is None:
            return session is None
        if cause == "NotOpen":
            return None if session.is_ready and not session.is_plain else not session.is_ready
        if cause == "Lapsed":
            return session.lapse is not None and max(session.reading, self.now) >= session.lapse
        seen = dict(Closed=not session.is_open, Drained=getattr(session, "is_drained", None),
                    Retired=getattr(session, "is_retired", None), LastEpoch=False,
                    AlreadyDraining=getattr(session, "asked_to_drain", None))
        return seen.get(cause)

    def gives(self, words, told):
        hand, kind, name = int(told[0][1:]), told[1], told[2]
        need(hand == self.hand + 1, "a hand's number isn't the next")
        self.hand = hand
        self.count(kind)
        dispatch = self.names.get(name)
        need(dispatch is not None, "a value of a name that is not there")
        self.hands[hand] = (kind, name, *told[3:])
        if kind == "placed":
            self.hands.pop(int(words[1][1:]))
            self.is_placed(dispatch, self.session(told[3]), int(told[4]))
        elif kind == "lost":
            last = dispatch.sendings[-1]
            need(last.is_lost and last.reply is None, "lost, and yet it has a reply")
            need(last.server is self.session(words[1]), "lost by another server")

    def is_placed(self, dispatch, server, tag):
        self.reads(server)
        need(server.is_open and server.is_ready, "offered to a session that is not open")
        need(not server.is_drained, "sent after Tdrain")
        need(not server.is_retired, "sent to a retired server")
        need(server.lapse is None or server.reading < server.lapse, "sent on a lapsed lease")
        need(dispatch.may_be_nacked(), "sent again, and not each sending was nacked")
        need(len(dispatch.sendings) <= self.retries, "sent too often")
        need(not dispatch.is_answered, "sent, and yet it was answered")
        if dispatch.sendings:
            self.count("sent again")
        dispatch.sendings.append(Sending(dispatch, server, tag))
        server.placed.append(dispatch.sendings[-1])

    def ends(self, told):
        session = self.session(told[0])
        self.count(" ".join(("client" if told[0][0] == "c" else "server", *told[1:3])))
        if told[1] == "fault":
            return
        need(session.is_open, "it has ended twice")
        session.is_open = False
        if told[0][0] == "c":
            session.due.clear()
            for it in sum(session.waits.values(), []):
                it.is_orphan = True
        else:
            for it in [*session.waits.values(), *session.placed]:
                it.is_lost = True

    def tells(self, words, told):
        what, name = told[0], told[1]
        self.count(name if name in ("epoch", "retired") else what)
        if what in ("answered", "late", "noted", "again", "recalled", "stale"):
            self.uses(words, name)
        if what == "answered":
            dispatch = self.names[name]
            need(not dispatch.is_answered, "answered twice")
            dispatch.is_answered = True
            client = self.session("c" + name.split(".")[1])
            client.due += [dispatch] if client.is_open else []
        elif what == "again":
            need(is_nack(self.names[name].sendings[-1].reply), "again, and it was not nacked")
            self.names[name].again += 1
        elif what == "recalled":
            self.is_recalled(self.names[name])
        elif name == "epoch":
            session = self.session(what)
            need(int(told[2]) == session.epoch + 1, "another epoch")
            session.epoch += 1
        elif name == "retired":
            self.session(what).is_retired = True
            self.reads(self.session(what))

    def is_recalled(self, dispatch):
        need(dispatch.is_discarded or dispatch.is_orphan, "a recall that nothing asked for")
        need(dispatch.sendings and dispatch.sendings[-1].reply is None, "a recall of what has a reply")
        sending = dispatch.sendings[-1]
        self.reads(sending.server)
        sending.server.recalled.append(sending.tag)

    def uses(self, words, name):
        hand = int(words[1][1:])
        if words[0] == "place" and hand not in self.hands:
            # the Placed that this line made
            hand = max(it for it in self.hands if self.hands[it][0] == "placed")
        need(self.hands.pop(hand)[1] == name, "a value of another name was used")

    def on_clock(self, words, printed):
        self.accepted(words, printed)

    def on_ping(self, words, printed):
        self.accepted(words, printed)

    def accepted(self, words, printed):
        server = self.session(words[0])
        if server is not None and not any(it.startswith("refused") for it in printed):
            self.reads(server)

    def on_drain(self, words, printed):
        client = self.session(words[0])
        if client is not None and not any(it.startswith("refused") for it in printed):
            client.asked_to_drain = True

    # frames that go out
    def to_client(self, client, kind, tag, body):
        need(client is not None and client.is_open, "a frame for a client that is gone")
        if kind == R["ping"]:
            self.pong(client, tag)
        elif kind == R["err"] or kind == R["old_err"]:
            # The answers to what is no Tdispatch have texts that no server here replies with.
            if body not in OWN_ERRORS:
                need(tag in client.waits, "an Rerr that nothing asked for")
                self.answers(self.first(client, tag), kind, body)
        elif kind in (R["dispatch"], R["discarded"]):
            need(tag in client.waits, "an answer that nothing asked for")
            self.answers(self.first(client, tag), kind, body)
        elif kind == T["drain"]:
            need(client.asked_to_drain and tag == 1, "a Tdrain that nothing asked for")
        else:
            need(kind == R["init"], "a frame that no client gets")

    def first(self, client, tag):
        """The dispatch that an answer on this tag is for."""
        dispatch = client.waits[tag].pop(0)
        if not client.waits[tag]:
            del client.waits[tag]
        need(client.due[:1] == [dispatch], "an answer before its turn")
        client.due.pop(0)
        return dispatch

    def answers(self, dispatch, kind, body):
        reply = dispatch.sendings[-1].reply if dispatch.sendings else None
        self.count({0xFE: "Rdispatch", 0xBE: "Rdiscarded", 0x80: "Rerr"}[kind] + " to a client")
        dispatch.answers += 1
        if reply == (kind, body):
            return
        if kind == R["dispatch"]:
            need(body == NACK, "an Rdispatch that is not its server's reply")
            need(dispatch.may_be_nacked(), "a nack of what may have been executed")
            self.count("nack to a client")
        elif kind == R["discarded"]:
            need(dispatch.is_discarded, "an Rdiscarded that nothing asked for")
        elif body == b"upstream lost":
            last = dispatch.sendings[-1:]
            need(last and last[0].is_lost and last[0].reply is None, "upstream lost, and it isn't")
        else:
            need(body == b"no route" and dispatch.may_be_nacked(), "an Rerr that is not its server's")

    def pong(self, session, tag):
        need(session.pings.get(tag, 0) > 0, "an Rping that nothing asked for")
        session.pings[tag] -= 1

    def to_server(self, server, kind, tag, body):
        need(server is not None and server.is_open, "a frame for a server that is gone")
        if kind == T["dispatch"]:
            need(not server.sent_rdrain, "a Tdispatch after Rdrain")
            need(tag not in server.waits, "a tag that is in use")
            need(server.placed, "a Tdispatch that nobody placed")
            sending = server.placed[0]
            need(sending.tag == tag, "a Tdispatch before its turn, or that nobody placed")
            need(sending.dispatch.body == body, "a Tdispatch with another body")
            server.placed.pop(0)
            server.waits[tag] = sending
            self.count("Tdispatch to a server")
        elif kind == T["discarded"]:
            what = int.from_bytes(body[:3], "big")
            need(tag == 0 and what in server.recalled, "a Tdiscarded that nothing asked for")
            server.recalled.remove(what)
            self.count("Tdiscarded to a server")
        elif kind == R["drain"]:
            need(server.is_drained, "an Rdrain that nothing asked for")
            server.sent_rdrain = True
        elif kind == R["ping"]:
            self.pong(server, tag)
        elif kind == R["err"]:
            need(body in OWN_ERRORS, "an Rerr that nothing asked for")
        else:
            need(kind in (T["init"], T["ping"]) and tag == 1, "a frame that no server gets")
            server.was_pinged = True
