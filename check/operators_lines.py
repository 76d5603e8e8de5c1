"""Lines on the port of `operator`: what is shown, and orders."""
import os
import re
import resource
import time
import tomllib

from metrics_reader import families_of, need_promtool, refuses_wrong_pages
from operators_parts import EXAMPLES, HELP, PLACES, TOP, Asked, answer_of, scenario, whole
from reading import R, T, frame, need
from wire_parts import HOST, PATIENCE, TDRAIN, Echo, connected, is_served, rdispatch, tdispatch, upstream_lost


@scenario
def reader(program):
    """The reader of pages refuses what it has to."""
    refuses_wrong_pages()


@scenario
def lines(program):
    """Each line on a router at rest."""
    with Asked(program, "a b", {"/s/a": ["a", "b"], "/s/b": ["b"]}, boot=7, history=64, tick_ms=60_000) as it:
        need(tuple(it.asks("help")) == HELP, "help is another")
        it.comes_to("server b", "open")
        need(it.asks("health") == ["ok"], "health isn't ok")
        need(it.asks("routes") == ["route /s/a a,b", "route /s/b b", "end"], f"routes: {it.asks('routes')}")
        first, *rest = it.asks("status full")
        need(first.startswith("boot 7 now ") and int(first[11:]) < 60_000, f"status full begins with {first!r}")
        for name, line in zip("ab", rest):
            want = rf"server {name} open load 0 lease none ejected 0 records [0-9]+ of 64 epoch 0 queued 0 peer (\S+)"
            shown = re.fullmatch(want, line)
            need(shown and shown[1] == "%s:%d" % it.servers[name].sock.getsockname(), f"{line!r}")
        need(len(rest) == 3 and rest[2] == "end", f"status full: {rest}")
        found = it.page()
        need(found["voltgalley_boot", None] == 7, "boot is another")
        need(found["voltgalley_servers", 'state="open"'] == 2, "not both servers are open")
        need(found["voltgalley_server_up", 'server="a"'] == 1, "server a isn't up")
        need(it.asks("drain all") == ["drained 0 left 0"], "a client was drained where there is none")


@scenario
def configured(program):
    """`config` lists every key of the manual in its order, and is a configuration that says the same."""
    keys = {"/s/a": ["a", "b"], 'a "\\\t b': ["b"]}
    with open(os.path.join(TOP, "docs", "CONFIG.md"), encoding="utf-8") as file:
        outside = re.split(r"^## (?:Servers|What must)", file.read(), flags=re.M)[1]
    want = [key for cell in re.findall(r"^\| (`.*?) \|", outside, re.M) for key in re.findall(r"`(\w+)`", cell)]
    with Asked(program, "a b", keys, window=16, tick_ms=50, audit="rolling") as it:
        lines = it.asks("config")
        shown = [re.match(r"(?:# )?(\w+) = ", line) for line in lines[:lines.index("[[server]]")]]
        need([line[1] for line in shown] == want, f"config shows {lines}, not {want}")
        need("# reconnect_ms = none" in lines and lines[-1] == "# end", f"config shows {lines}")
        found = tomllib.loads("\n".join(lines))
        need(found["listen"] == f"{HOST}:{it.listen}", f"listen is {found['listen']}")
        own = {key: found[key] for key in ("window", "out", "server_window", "tick_ms", "audit", "clients", "history")}
        need(own == {"window": 16, "out": 2_048, "server_window": 16, "tick_ms": 50, "audit": "rolling", "clients": 64,
                     "history": 65_536}, f"config shows {own}")
        need([server["name"] for server in found["server"]] == ["a", "b"], f"servers: {found['server']}")
        need({route["dst"]: route["servers"] for route in found["route"]} == keys, f"routes: {found['route']}")


@scenario
def examples_name_what_there_is(program):
    """The page is as promtool wants it, and has each figure of the examples."""
    with Asked(program, "a b") as it:
        client = it.client()
        client.send(tdispatch(5))
        it.servers["a"].gives(tdispatch(2))
        page = "".join(f"{line}\n" for line in it.asks("metrics"))
        need_promtool(page)
        for name in ("dashboard.json", "alerts.yml"):
            with open(os.path.join(EXAMPLES, name), encoding="utf-8") as file:
                asked = set(re.findall(r"\bvoltgalley_\w+", file.read()))
            need(asked and asked <= families_of(page), f"{name} asks for {sorted(asked - families_of(page))}")


@scenario
def routes_that_change(program):
    """`routes` shows what orders made of them, by lines that set them again."""
    keys = {"/s/a": ["a"], "a b": ["b"], "": ["a", "b"], "/" + "x" * 1_100: ["a"]}
    with Asked(program, "a b", keys) as it:
        want = ["route /s/a a", "unwritable b", "route  a,b", "unwritable a", "end"]
        need(it.asks("routes") == want, f"routes: {it.asks('routes')}")
        it.ask("route /s/b b,a", "ok")
        it.ask("route /s/a b", "ok")
        it.ask("unroute ", "ok")
        got = it.asks("routes")
        need(sorted(got[:-1]) == sorted(["route /s/a b", "unwritable b", "unwritable a", "route /s/b b,a"]), f"{got}")
        it.ask("route /s/c d", "error UnknownServer")
        for line in got:
            if line.startswith("route "):
                it.ask(line, "ok")
        need(it.asks("routes") == got, "routes that were set again are others")


@scenario
def health(program):
    """No server is open before it joined, and none once it was retired."""
    with Asked(program, "a:absent") as it:
        need(it.asks("health") == ["error NoServer"], "health is ok with no server")
        status, _, body = it.get("/health")
        need((status, body) == (503, "error NoServer\n"), f"/health: {status} {body!r}")
        need(it.get("/alive")[::2] == (200, "ok\n"), "/alive isn't ok while no server is there")
    with Asked(program, "a") as it:
        it.comes_to("server a", "open")
        need(it.get("/health")[::2] == (200, "ok\n"), "/health isn't ok")
        it.ask("retire a", "ok")
        need(it.asks("health") == ["error NoServer"], "health is ok with a retired server")


@scenario
def health_without_a_session(program):
    """Where no client can come any more, health says so, and for as long as that is so."""
    for keys in ({}, {"audit": "rolling", "tick_ms": 60_000}):
        with Asked(program, "a", sessions=2, clients=4, **keys) as it:
            Echo(it.servers["a"])
            silent, clients = it.client(), []
            for number in range(2):
                need(it.asks("health") == ["ok"], f"health isn't ok with {number} of 2 sessions")
                clients.append(it.client())
                is_served(clients[-1], 5)
            need(it.asks("health") == ["error NoSession"], "health is ok with no session left")
            status, _, body = it.get("/health")
            need((status, body) == (503, "error NoSession\n"), f"/health: {status} {body!r}")
            need(it.get("/alive")[::2] == (200, "ok\n"), "/alive isn't ok while no session is left")
            if not keys:
                silent.ends()
            clients[0].close()
            it.links.remove(clients[0])
            until, want = time.monotonic() + (PATIENCE if keys else 0.5), ["ok"] if keys else []
            while (got := it.asks("health")) != want and time.monotonic() < until:
                need(got == ["error NoSession"], f"health is {got}")
                time.sleep(0.05)
            need(got == (want or ["error NoSession"]), f"health is {got} once a client has left")
            it.ask("retire a", "ok")
            need(it.asks("health") == ["error NoServer"], "health doesn't say that no server is open")


@scenario
def not_recorded(program):
    with Asked(program) as it:
        need(it.asks("record") == ["error NotRecorded"], "a script of nothing")


@scenario
def recorded(program):
    """The script has the first dispatches, and no more than were asked for. Its limits are the larger ones of both sides."""
    with Asked(program, record=3, window=8, out=16, history=64, server_window=32, server_history=32, tick_ms=60_000) as it:
        client, server = it.client(), it.servers["a"]
        for tag in range(2, 7):
            client.send(tdispatch(tag))
            server.gives(tdispatch(2))
            server.send(rdispatch(2))
            client.gives(rdispatch(tag))
        lines = it.asks("record")
        first = ["judge", "limits 1048576 32 36 64 0", "client", "server plain"]
        need(lines[:4] == first, f"a script begins with {lines[:4]}")
        came = [word[2] for word in map(str.split, lines) if word[:2] == ["in", "c1"]]
        need(came == [tdispatch(tag).hex() for tag in (2, 3, 4)], f"client 1 sent {came}")
        replies = [word[2] for word in map(str.split, lines) if word[:2] == ["in", "s1"]]
        need(rdispatch(2).hex() in replies, f"server 1 sent {replies}")


@scenario
def recorded_until_a_server_is_back(program):
    """From the renewal of a server's slot on nothing more is recorded, and there is no script."""
    with Asked(program, record=100, tick_ms=50) as it:
        client = it.client()
        client.send(tdispatch(5))
        it.servers["a"].gives(tdispatch(2))
        it.servers["a"].close()
        client.gives(upstream_lost(5))
        need(it.asks("record")[-1] == "# end", "no script, and no slot was renewed")
        need(it.asks("rejoin a") == ["ok"], "it can't rejoin")
        it.accepted("a").fence()
        it.comes_to("server a", "open")
        need(it.asks("record") == ["error NotRecorded"], "a script of a slot that was renewed")


@scenario
def drain_all(program):
    """Each open client is asked once."""
    with Asked(program, "a") as it:
        clients = [it.client() for _ in range(5)]
        for client in clients:
            client.fence()
        clients[4].close()
        it.comes_to("client 5", "closed")
        need(it.asks("drain all") == ["drained 4 left 0"], "another number was drained")
        for client in clients[:4]:
            asked = client.frame()
            need(asked[4] == T["drain"], f"no Tdrain came: {asked.hex()}")
            client.send(frame(R["drain"], int.from_bytes(asked[5:8], "big")))
        it.comes_to("client 4", "drained")
        need(it.asks("drain all") == ["drained 0 left 0"], "a client was drained twice")
        found = it.page()
        need(found["voltgalley_clients", 'state="drained"'] == 4, "not all are shown as drained")
        need(found["voltgalley_clients", 'state="closed"'] == 1, "the closed one isn't shown")


@scenario
def as_many_files_as_are_wanted(program):
    """With no more open files than OPERATING says, there is every connection that may be."""
    for threads, audit in ((1, "close"), (1, "rolling"), (16, "rolling")):
        with Asked(program, "a b", clients=20, threads=threads, audit=audit) as it:
            wanted = 20 + 2 + 8 * threads + 40
            resource.prlimit(it.program.ran.pid, resource.RLIMIT_NOFILE, (wanted, wanted))
            clients = [it.client() for _ in range(20)]
            for client in clients:
                client.fence()
            scrapers = [it.kept(connected(it.http_port, "scraper")) for _ in range(PLACES)]
            askers = [it.asker() for _ in range(PLACES)]
            for asker in askers:
                asker.ask("health", "ok")
            need(len(it.rows("client 1")) == 1, "there is no client")
            for scraper in scrapers:
                scraper.send(b"GET /health HTTP/1.1\r\nHost: x\r\n\r\n")
                need(answer_of(whole(scraper, PATIENCE))[0] == 200, "the port of HTTP")
            it.servers["b"].close()
            it.comes_to("server b", "closed")
            askers[0].ask("rejoin b", "ok")
            it.accept_all([("b", "plain")], True)


@scenario
def drains_in_turns(program):
    """Of many clients the first hundred are asked at once, and the others a hundred at a time, with 50 ms between; those that
    connect meanwhile aren't."""
    with Asked(program, "a", clients=400, tick_ms=60_000) as it:
        clients = [it.client() for _ in range(250)]
        for client in clients:
            client.fence()
        begun = time.monotonic()
        need(it.asks("drain all") == ["drained 100 left 150"], "another number was asked at once")
        for client in clients[:100]:
            client.gives(TDRAIN)
        others = [it.client() for _ in range(20)]
        for client in others + clients[:100]:
            client.fence()
        for client in clients[100:]:
            client.gives(TDRAIN)
        took = time.monotonic() - begun
        need(0.095 < took < 2, f"the last one was asked after {took:.3f} s")
        time.sleep(0.12)
        for client in others + clients:
            client.fence()
        need(it.asks("drain all") == ["drained 20 left 0"], "another number was left")
        for client in others:
            client.gives(TDRAIN)
        need(it.asks("drain all") == ["drained 0 left 0"], "a client was drained twice")


@scenario
def rejoins(program):
    """A lost server is connected to again at once; one that is there isn't, nor one that the router doesn't know."""
    with Asked(program, "a b", tick_ms=60_000) as it:
        need(it.asks("rejoin c") == ["error UnknownServer"], "a server that isn't known is connected to")
        need(it.asks("rejoin a") == ["error Open"], "a server that is there is connected to again")
        it.servers["a"].close()
        it.comes_to("server a", "closed")
        need(it.asks("rejoin a") == ["ok"], "a lost server isn't connected to again")
        it.accept_all([("a", "plain")], True)
        it.comes_to("server a", "open")
        need(it.asks("rejoin a") == ["error Open"], "a server that is back is connected to again")
