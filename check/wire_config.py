"""Configurations: each fault by its line and status 1; what is in range; sockets that are taken."""
import os
import resource
import shutil
import subprocess
import tempfile
import time

from reading import R, T, Fault, frame
from wire_parts import HOST, PATIENCE, Operator, Program, connected, free_port, listener, need, scenario, toml

OPEN = 'listen = "127.0.0.1:0"\nadmin = "127.0.0.1:0"\n'
SERVER = '[[server]]\nname = "{}"\naddress = "127.0.0.1:1"\n'
A = SERVER.format("a")
AB = A + SERVER.format("b")
# Judged after everything else: what stands before it was accepted.
LAST = '[[route]]\ndst = "/last"\nservers = ["no-such-server"]\n'
LAST_FAULT = "UnknownServer no-such-server"


def route(dst, servers):
    return f"[[route]]\ndst = {dst}\nservers = {servers}\n"


def addresses():
    wrong = ("", "127.0.0.1", "127.0.0.1:", ":80", "127.0.0.1:65536", "256.0.0.1:80", "127.0.0:80", "localhost:80",
             "127.0.0.1:x", "127.0.0.1:-1", " 127.0.0.1:80", "127.0.0.1:80 ", "::1:80x", "[::1]", "[::1:80",
             "http://127.0.0.1:80", "None")
    return [f'"{it}"' for it in wrong] + ["80", "true", '["127.0.0.1:80"]', "1.5"]


def numbers(least, greatest):
    """Values that no key of this range takes."""
    return [str(it) for it in (least - 1, greatest + 1, -1, -(1 << 63), (1 << 63) - 1)] + [
        f'"{least}"', f"{least}.0", "true", f"[{least}]", "{}", "1979-05-27", "nan"]


def addresses_outside_of_arrays():
    yield "the empty input", "", "Missing listen"
    yield "a comment alone", "# nothing\n", "Missing listen"
    yield "admin alone", 'admin = "127.0.0.1:0"\n', "Missing listen"
    yield "listen alone", 'listen = "127.0.0.1:0"\n', "Missing admin"
    yield "another key alone", "window = 0\n", "Missing listen"
    for value in addresses():
        yield f"listen {value}", f'listen = {value}\nadmin = "127.0.0.1:0"\n', "BadValue listen"
        yield f"admin {value}", f'listen = "127.0.0.1:0"\nadmin = {value}\n', "BadValue admin"


def numbers_out_of_range():
    for key, least, greatest in RANGES:
        for value in numbers(least, greatest):
            yield f"{key} {value}", f"{OPEN}{key} = {value}\n", f"BadValue {key}"
    for value in ("1027", "1048577", "0", "4", "-1", '"2048"', "2048.0"):
        yield f"out {value}", f"{OPEN}out = {value}\n", "BadValue out"
    yield "a small window, a smaller out", f"{OPEN}window = 10\nout = 13\n", "BadValue out"
    yield "the greatest window, out too small", f"{OPEN}window = 65536\nout = 65539\n", "BadValue out"
    yield "out isn't set", f"{OPEN}window = 2045\n", "BadValue out"
    for value in ("1027", "1048577", "0", "-1", '"2048"'):
        yield f"server_out {value}", f"{OPEN}server_out = {value}\n", "BadValue server_out"
    yield "server_out of a server_window", f"{OPEN}server_window = 10\nserver_out = 13\n", "BadValue server_out"
    yield "out isn't set, the greatest window", f"{OPEN}window = 65536\n", "BadValue out"


RANGES = (
    ("boot", 1, 1_000_000_000), ("max_frame", 32, 16_777_216), ("window", 1, 65_536), ("history", 16, 16_777_216),
    ("server_window", 1, 65_536), ("server_history", 16, 16_777_216), ("out_bytes", 1_048_576, 4_294_967_296),
    ("clients", 1, 1_024), ("sessions", 1, 65_536), ("retries", 0, 3), ("tick_ms", 10, 60_000),
    ("admin_idle_ms", 100, 3_600_000), ("client_idle_ms", 100, 86_400_000), ("frame_ms", 100, 3_600_000),
    ("server_silent_ms", 100, 86_400_000), ("reconnect_ms", 10, 3_600_000), ("eject_after", 1, 1_000),
    ("eject_ms", 100, 3_600_000), ("threads", 1, 16), ("record", 0, 10_000),
)
ORDER = (
    "boot", "max_frame", "window", "out", "history", "server_window", "server_out", "server_history", "out_bytes",
    "clients", "sessions", "retries", "tick_ms", "admin_idle_ms", "client_idle_ms", "frame_ms", "server_silent_ms",
    "operator", "metrics_http", "reconnect_ms", "eject_after", "eject_ms", "threads", "record", "audit",
)


def addresses_of_operators():
    for key in ("operator", "metrics_http"):
        for value in addresses():
            yield f"{key} {value}", f"{OPEN}{key} = {value}\n", f"BadValue {key}"


def words_of_audits():
    for value in ('"Close"', '"ROLLING"', '""', '"rolling "', "1", "true", '["close"]'):
        yield f"audit {value}", f"{OPEN}audit = {value}\n", "BadValue audit"


def no_toml():
    for text in ("listen =", "listen", "= 1", "[", "[[server]", '"', "listen = 'a", "a = 1\na = 2", "[a]\n[a]",
                 "a = 01", "a = 1 b = 2", "a = 0x", "a = 1_", '"a" = "\\q"', "a = [1", "a = {b = 1", "a.b = 1\na = 2",
                 "a = tru", "a = 9223372036854775808", "a = -9223372036854775809", "a = \x00", "\x01 = 1"):
        yield f"{text!r}", OPEN + text + "\n", "Toml"
        yield f"{text!r} alone", text, "Toml"
    yield "a key twice", f"{OPEN}listen = 5\n", "Toml"
    yield "behind other faults", "listen = 5\nwindow = 0\nlisten =\n", "Toml"
    yield "a single table and an array of one name", OPEN + '[server]\nname = "a"\n' + A, "Toml"
    for raw in (b"\xff", b"a = '\xff'", b"# \xc3", b"# \xed\xa0\x80\n", b"\xfe\xff"):
        yield f"{raw!r}", OPEN.encode() + raw, "Toml"


def servers():
    for value in ('"a"', "5", "true", "[1]", '["a"]', "[[]]", "{}", '{name = "a"}',
                  '[{name = "a", address = "127.0.0.1:1"}, 1]'):
        yield f"server = {value}", f"{OPEN}server = {value}\n", "BadValue server"
    yield "a single table", OPEN + '[server]\nname = "a"\naddress = "127.0.0.1:1"\n', "BadValue server"
    many = "".join(SERVER.format(f"s{k}") for k in range(256))
    yield "257 servers", OPEN + many + A, "BadValue server"
    yield "257 servers, all wrong", OPEN + "[[server]]\n" * 257, "BadValue server"
    yield "256 servers", OPEN + many + LAST, LAST_FAULT
    yield "no name", OPEN + '[[server]]\naddress = "127.0.0.1:1"\n', "Missing server.name"
    yield "an empty table", OPEN + "[[server]]\n", "Missing server.name"
    yield "an empty table inside", OPEN + "server = [{}]\n", "Missing server.name"
    for value in ('""', '"A"', '"a_b"', '"a b"', '"a."', '"\\u00e4"', '"a,b"', f'"{"x" * 65}"', "5", '["a"]', "true"):
        text = f'[[server]]\nname = {value}\naddress = "127.0.0.1:1"\n'
        yield f"name {value[:20]}", OPEN + text, "BadValue server.name"
    yield "a spare", OPEN + '[[server]]\nname = "a"\naddress = "none"\n' + LAST, LAST_FAULT
    yield "a spare of one name", OPEN + A + '[[server]]\nname = "a"\naddress = "none"\n', "DoubleName a"
    yield "no address", OPEN + '[[server]]\nname = "a"\n', "Missing server.address"
    for value in addresses():
        yield f"address {value}", OPEN + f'[[server]]\nname = "a"\naddress = {value}\n', "BadValue server.address"
    for value in ('"Probe"', '"PLAIN"', '""', '"plain "', "1", "true", '["plain"]'):
        yield f"init {value}", OPEN + A + f"init = {value}\n", "BadValue server.init"
    yield "two of one name", OPEN + A + A, "DoubleName a"
    yield "two of one name, further on", OPEN + AB + SERVER.format("c") + SERVER.format("b"), "DoubleName b"
    yield "name before address", OPEN + "[[server]]\nname = 5\naddress = 5\ninit = 5\n", "BadValue server.name"
    yield "address before init", OPEN + '[[server]]\nname = "a"\ninit = 5\n', "Missing server.address"
    yield "keys before the double name", OPEN + A + A + "init = 5\n", "BadValue server.init"
    yield "a missing key before the double name", OPEN + A + '[[server]]\nname = "a"\n', "Missing server.address"
    yield "the double name before the next server", OPEN + A + A + "[[server]]\n", "DoubleName a"
    yield "the first server before the double name", OPEN + "[[server]]\n" + A + A, "Missing server.name"


def routes():
    for value in ('"a"', "5", "true", "[1]", '["a"]', "[[]]", "{}", '{dst = "/"}'):
        yield f"route = {value}", f"{OPEN}route = {value}\n", "BadValue route"
    yield "a single table", OPEN + A + '[route]\ndst = "/x"\nservers = ["a"]\n', "BadValue route"
    many = "".join(route(f'"/{k}"', '["a"]') for k in range(4_095))
    yield "4,096 routes", OPEN + A + many + LAST, LAST_FAULT
    yield "4,097 routes", OPEN + A + many + LAST + LAST, "BadValue route"
    yield "4,097 routes, all wrong", OPEN + A + "[[route]]\n" * 4_097, "BadValue route"
    yield "no dst", OPEN + A + '[[route]]\nservers = ["a"]\n', "Missing route.dst"
    yield "an empty table", OPEN + "[[route]]\n", "Missing route.dst"
    for value in ("5", "true", '["/x"]', f'"{"x" * 65_536}"', f'"{"é" * 32_768}"'):
        yield f"dst {value[:20]}", OPEN + A + route(value, '["a"]'), "BadValue route.dst"
    yield "no servers", OPEN + A + '[[route]]\ndst = "/x"\n', "Missing route.servers"
    names = ", ".join(f'"s{k}"' for k in range(65))
    for value in ('"a"', "5", "[]", "[1]", '["a", 1]', '["a", "a"]', '["b", "b"]', '["a", "b", "a"]', '[["a"]]',
                  f"[{names}]"):
        yield f"servers {value[:30]}", OPEN + A + route('"/x"', value), "BadValue route.servers"
    for name in ("b", "A", "", "a b", "\u00e4", "x" * 65, "a,b"):
        yield f"a server {name[:9]!r}", OPEN + A + route('"/x"', f'["a", "{name}"]'), f"UnknownServer {name}"
    yield "the first of two unknown ones", OPEN + A + route('"/x"', '["a", "c", "b"]'), "UnknownServer c"
    yield "two of one destination", OPEN + AB + route('"/s/a"', '["a"]') + route('"/s/a"', '["b"]'), "DoubleRoute /s/a"
    yield "two of no destination", OPEN + AB + route('""', '["a"]') + route('""', '["b"]'), "DoubleRoute "
    yield "another spelling", OPEN + A + route('"/\\u00e4"', '["a"]') + route('"/ä"', '["a"]'), "DoubleRoute /ä"
    yield "dst before servers", OPEN + A + "[[route]]\ndst = 5\nservers = 5\n", "BadValue route.dst"
    yield "keys before the unknown server", OPEN + A + route('"/x"', '["b", "b"]'), "BadValue route.servers"
    twice = route('"/x"', '["a"]')
    yield "the unknown server before the double route", OPEN + A + twice + route('"/x"', '["b"]'), "UnknownServer b"
    yield "keys before the double route", OPEN + A + twice + route('"/x"', "[]"), "BadValue route.servers"
    yield "the first route before the second", OPEN + A + route('"/x"', '["b"]') + "[[route]]\n", "UnknownServer b"
    yield "the double route before the next one", OPEN + A + twice + twice + "[[route]]\n", "DoubleRoute /x"


def order():
    every = "".join(f"{key} = -1\n" for key in reversed(ORDER))
    rest = OPEN + "route = 5\nserver = 5\n"
    for place, key in enumerate(ORDER):
        kept = "".join(f"{it} = -1\n" for it in reversed(ORDER[place:]))
        yield f"{key} before those behind it", rest + kept, f"BadValue {key}"
    yield "listen before all", 'listen = 5\nserver = 5\nadmin = 5\n' + every, "BadValue listen"
    yield "admin before all but listen", 'listen = "127.0.0.1:0"\nserver = 5\n' + every, "Missing admin"
    yield "servers before routes", rest, "BadValue server"
    yield "each server before the routes", OPEN + "route = 5\n[[server]]\n", "Missing server.name"
    yield "double names before the routes", OPEN + "route = 5\n" + A + A, "DoubleName a"
    yield "routes at last", OPEN + "route = 5\n" + A, "BadValue route"
    text = route('"/x"', '["a"]') + A + route('"/y"', '["b"]')
    yield "routes stand before servers in the text", OPEN + text, "UnknownServer b"
    yield "no server at all", OPEN + route('"/x"', '["a"]'), "UnknownServer a"


def in_range():
    for key, least, greatest in RANGES:
        for value in (least, greatest, f"+{least}", f"{greatest:#x}", f"{greatest:_}"):
            more = "out = 1_048_576\n" if key == "window" else ""
            yield f"{key} {value}", f"{OPEN}{key} = {value}\n{more}{LAST}", LAST_FAULT
    for window, out in ((1, 5), (1, 1_048_576), (65_536, 65_540), (2_044, 2_048)):
        yield f"out {out}", f"{OPEN}window = {window}\nout = {out}\n{LAST}", LAST_FAULT
    for window, out in ((1, 5), (65_536, 65_540), (2_045, 2_049), (1_024, 1_048_576)):
        yield f"server_out {out}", f"{OPEN}server_window = {window}\nserver_out = {out}\n{LAST}", LAST_FAULT
    yield "server_out isn't set, the greatest server_window", f"{OPEN}server_window = 65536\n{LAST}", LAST_FAULT
    yield "out isn't set, a window that fits", f"{OPEN}window = 2044\n{LAST}", LAST_FAULT
    for address in ("0.0.0.0:65535", "[::1]:4100", "[::]:0", "[fd00::21]:4200", "255.255.255.255:0"):
        one = f'listen = "{address}"\nadmin = "{address}"\n[[server]]\nname = "a"\naddress = "{address}"\n{LAST}'
        yield address, one, LAST_FAULT
    for name in ("a", "0", "-", "z-9", "x" * 64):
        yield f"name {name[:9]}", OPEN + SERVER.format(name) + LAST, LAST_FAULT
    for mode in ("probe", "plain"):
        yield mode, OPEN + A + f'init = "{mode}"\n' + LAST, LAST_FAULT
    for mode in ("close", "rolling"):
        yield f"audit {mode}", f'{OPEN}audit = "{mode}"\n{LAST}', LAST_FAULT
    for dst in ("", "x" * 65_535, "/\\u00e4 \\n", "é" * 32_767):
        yield f"dst {dst[:9]!r}", OPEN + A + route(f'"{dst}"', '["a"]') + LAST, LAST_FAULT
    names = [f"s{k}" for k in range(64)]
    text = "".join(map(SERVER.format, names)) + route('"/x"', names)
    yield "64 servers of a route", OPEN + text + LAST, LAST_FAULT
    yield "empty arrays", f"{OPEN}server = []\nroute = []\nboot = 0\n", "BadValue boot"
    yield "arrays of tables inside", f'{OPEN}server = [{{name = "a", address = "127.0.0.1:1"}}]\n{LAST}', LAST_FAULT
    others = "unknown = 1\nservers = 5\n[table]\nlisten = 5\n"
    yield "keys that nobody knows", OPEN + others + A + "weight = 7\n" + LAST, LAST_FAULT
    gone = "turnover = -1\nturnover_wait_ms = true\nturnover_boots = 'many'\n"
    yield "keys that there are no more", OPEN + gone + LAST, LAST_FAULT


def all_end_so(start, examples):
    """Each configuration is refused with its line alone and status 1."""
    command, wrong, count = start.program, [], 0
    for name, text, fault in examples:
        ran = Program(command, text)
        count += 1
        try:
            ran.ends([f"config: {fault}"], 1)
        except Fault as other:
            wrong.append(f"{name}: {other}")
        finally:
            ran.kill()
    need(not wrong, f"{len(wrong)} of {count}: " + " | ".join(wrong[:8]))


@scenario
def config_addresses(start):
    all_end_so(start, addresses_outside_of_arrays())
    all_end_so(start, addresses_of_operators())


@scenario
def config_numbers(start):
    all_end_so(start, numbers_out_of_range())


@scenario
def config_audit(start):
    all_end_so(start, words_of_audits())


@scenario
def config_no_toml(start):
    all_end_so(start, no_toml())


@scenario
def config_servers(start):
    all_end_so(start, servers())


@scenario
def config_routes(start):
    all_end_so(start, routes())


@scenario
def config_order(start):
    all_end_so(start, order())


@scenario
def config_in_range(start):
    all_end_so(start, in_range())


@scenario
def sockets_are_taken(start):
    """The first address that can't be bound is the only line."""
    command = start.program
    for taken in ((True, False), (False, True), (True, True)):
        listen, admin = free_port(), free_port()
        held = [listener(port) for port, is_taken in zip((listen, admin), taken) if is_taken]
        server = listener(free_port())
        server.settimeout(0.2)
        text = toml(listen, admin, [("a", server.getsockname()[1], "plain")], {"/s/a": ["a"]}, {})
        ran = Program(command, text)
        try:
            ran.ends([f"listen: {HOST}:{listen if taken[0] else admin}"], 2)
            try:
                server.accept()
                raise Fault("a router that doesn't listen connected to a server")
            except OSError:
                pass
        finally:
            ran.kill()
            for it in (*held, server):
                it.close()
    one = free_port()
    ran = Program(command, toml(one, one, [], {}, {}))
    try:
        ran.ends([f"listen: {HOST}:{one}"], 2)
    finally:
        ran.kill()


def limits(what, number):
    """What a program begins with that may have so many of these."""
    return lambda: resource.setrlimit(what, (number, number))


@scenario
def system_refuses_events(start):
    """With too few files the second port can't be opened, and with some more there is nothing to wait with."""
    for files, line, status in ((4, f"listen: {HOST}:{{}}", 2), (5, "system: events", 5), (9, "system: events", 5)):
        admin = free_port()
        text = toml(free_port(), admin, [], {}, {"threads": 2, "audit": "rolling"})
        ran = Program(start.program, text, preexec_fn=limits(resource.RLIMIT_NOFILE, files))
        try:
            ran.ends([line.format(admin)], status)
        finally:
            ran.kill()


@scenario
def system_refuses_a_thread(start):
    """The router ends at the first tick after five seconds. (No limit binds the user root.)"""
    nobody = {"user": 65_534, "group": 65_534} if os.getuid() == 0 else {}
    with tempfile.TemporaryDirectory() as folder:
        os.chmod(folder, 0o755)
        program, listen = shutil.copy(start.program, folder), free_port()
        text = toml(listen, free_port(), [], {}, {"threads": 2})
        ran = Program(program, text, preexec_fn=limits(resource.RLIMIT_NPROC, 1), **nobody)
        try:
            ran.ends([f"listening {HOST}:{listen}", "system: threads"], 5, 9)
        finally:
            ran.kill()


@scenario
def addresses_as_configured(start):
    """The line has the address as it was configured, also where the system chooses the port."""
    ran = Program(start.program, OPEN)
    try:
        need(ran.line() == "listening 127.0.0.1:0", "the line of a port that the system chooses")
    finally:
        ran.kill()


@scenario
def input_cannot_be_read(start):
    """A folder as input."""
    folder = os.open("/", os.O_RDONLY)
    try:
        ran = subprocess.run([start.program], stdin=folder, stdout=subprocess.PIPE, timeout=PATIENCE)
    finally:
        os.close(folder)
    need((ran.stdout, ran.returncode) == (b"config: Toml\n", 1), f"it printed {ran.stdout}, status {ran.returncode}")


@scenario
def output_cannot_be_written(start):
    """A line that can't be printed is passed over."""
    for output in (os.open("/dev/full", os.O_WRONLY), closed_pipe()):
        ran = Program(start.program, "listen = 5", output)
        try:
            need(ran.ran.wait(PATIENCE) == 1, "the status of a fault")
        finally:
            ran.kill()
        listen, admin = free_port(), free_port()
        ran = Program(start.program, toml(listen, admin, [], {}, {}), output)
        try:
            client = connects_soon(listen)
            client.send(frame(T["ping"], 1))
            client.gives(frame(R["ping"], 1))
            Operator(admin).ask("quit", "bye")
            need(ran.ran.wait(10) == 0, "the status of a router that ended well")
        finally:
            ran.kill()
            os.close(output)


def closed_pipe():
    reading, writing = os.pipe()
    os.close(reading)
    return writing


def connects_soon(port):
    until = time.monotonic() + PATIENCE
    while True:
        try:
            return connected(port, "client")
        except OSError:
            need(time.monotonic() < until, "the router doesn't listen")
            time.sleep(0.02)
