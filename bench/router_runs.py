"""Routers that are measured, the programs that they stand between, and one run of them: for `bench/run-router` and
`check/instructions`."""
import contextlib
import ctypes
import json
import os
import select
import signal
import socket
import subprocess
import time

TOP = os.path.dirname(os.path.dirname(os.path.abspath(__file__)))
# The plain one does nothing but pass frames on; the other has the router's duties.
YARDSTICKS = ("duties_router", "plain_router")
PROGRAMS = ("mux_load", "mux_echo", *YARDSTICKS)
DIE_WITH_PARENT = 1
LINES = ["window = 4096", "out = 16384"]

# Servers, connections, in flight for each, bytes of a body, messages of a run at scale 1.
SHAPES = {
    "ping": (1, 1, 1, 100, 10_000),
    "small": (1, 8, 64, 100, 500_000),
    "small-4": (4, 8, 64, 100, 400_000),
    "clients": (1, 64, 16, 100, 400_000),
    "medium": (1, 64, 16, 1024, 200_000),
    "large": (1, 4, 8, 65_536, 8_000),
}
# What grows from "small": as many in flight over more connections, or more servers. They're timed if they are named.
GROWTH = {
    "clients-64": (1, 64, 8, 100, 300_000),
    "servers-64": (64, 8, 64, 100, 150_000),
}


class Failure(Exception):
    pass


# What a run may end with.
FAULTS = (Failure, OSError, ValueError, subprocess.TimeoutExpired)


class Process:
    """A program that is ended, by its id, when the block that started it is left, or this script is killed. The words of
    `under` stand before its command."""

    def __init__(self, command, text=None, under=()):
        pipe = subprocess.PIPE if text is not None else subprocess.DEVNULL
        end = lambda: ctypes.CDLL(None).prctl(DIE_WITH_PARENT, signal.SIGKILL)
        self.name = os.path.basename(command[0])
        self.patience = 120 if under else 20
        self.child = subprocess.Popen([*under, *command], stdin=pipe, stdout=subprocess.PIPE, preexec_fn=end)
        if text is not None:
            with contextlib.suppress(BrokenPipeError), self.child.stdin as stdin:
                stdin.write(text.encode())

    def __enter__(self):
        return self

    def __exit__(self, *_):
        self.child.kill()
        self.child.wait()
        self.child.stdout.close()

    def line(self, seconds=None):
        """The next line that it prints."""
        seconds = seconds or self.patience
        line, end = b"", time.monotonic() + seconds
        while not line.endswith(b"\n"):
            ready, _, _ = select.select([self.child.stdout], [], [], max(0, end - time.monotonic()))
            byte = os.read(self.child.stdout.fileno(), 1) if ready else b""
            if not byte:
                what = "ended" if ready else f"printed no line in {seconds} s"
                raise Failure(f"{self.name} {what}" + (f", but {line!r}" if line else ""))
            line += byte
        return line.decode().strip()

    def listening(self):
        """The addresses in its first line."""
        line = self.line()
        if not line.startswith("listening "):
            raise Failure(f"{self.name} printed {line!r}")
        return line.split(" ")[1:]

    def processor_seconds(self):
        """User and system time: what /proc/PID/stat counts in hundredths, in nanoseconds."""
        return time.clock_gettime(~self.child.pid << 3 | 2)


class Yardstick:
    """A router in plain Rust."""

    def __init__(self, program, servers, under=()):
        self.process = Process([program, "127.0.0.1:0", *servers], under=under)

    def start(self):
        return self.process.listening()[0]

    last_epochs = []

    def quit(self):
        return 0.0


def free_port():
    with socket.create_server(("127.0.0.1", 0)) as it:
        return it.getsockname()[1]


class Router:
    """Our router."""

    def __init__(self, path, servers, lines, lost=0, under=()):
        self.admin, self.operator = ("127.0.0.1", free_port()), ("127.0.0.1", free_port())
        self.servers = len(servers)
        addresses = [*(f"127.0.0.1:{free_port()}" for _ in range(lost)), *servers]
        names = [f"s{number}" for number in range(len(addresses))]
        self.address = f"127.0.0.1:{free_port()}"
        text = [f'listen = "{self.address}"', *lines]
        text += [f'admin = "127.0.0.1:{self.admin[1]}"', f'operator = "127.0.0.1:{self.operator[1]}"']
        for name, address in zip(names, addresses):
            text += ["[[server]]", f'name = "{name}"', f'address = "{address}"', 'init = "plain"']
        text += ["[[route]]", 'dst = "/s/a"', f"servers = {json.dumps(names)}"]
        self.process = Process([path], "\n".join(text) + "\n", under)

    def start(self):
        """Waits until all servers that are there are open."""
        self.process.listening()
        for _ in range(100):
            if sum(" open load " in line for line in self.ask("status", "end")) == self.servers:
                return self.address
            time.sleep(0.05)
        raise Failure("the router's servers did not open")

    def ask(self, order, last, seconds=20, at=None):
        """Sends an operator's line, and gives the lines of its reply up to the last."""
        with socket.create_connection(at or self.admin, timeout=seconds) as it, it.makefile("r") as reply:
            it.sendall(f"{order}\n".encode())
            lines = []
            for line in reply:
                lines.append(line.rstrip("\n"))
                if lines[-1] == last or lines[-1].startswith("error"):
                    break
            return lines

    def epochs(self):
        """The numbers of the sessions' present epochs."""
        lines = self.ask("status full", "end", at=self.operator)
        return [int(line.split(" epoch ")[1].split()[0]) for line in lines if " epoch " in line]

    def quit(self):
        self.last_epochs = self.epochs()
        began = time.monotonic()
        answer = self.ask("quit", "bye")
        if answer != ["bye"]:
            raise Failure(f"quit was answered {answer}")
        last = self.process.line(120)
        if last != "closed ok":
            raise Failure(f"the router ended with {last!r}")
        return time.monotonic() - began


def build(folder, names=PROGRAMS):
    programs = {name: os.path.join(folder, name) for name in names}
    for name, path in programs.items():
        source = os.path.join(TOP, "bench", name + ".rs")
        flags = ["--edition", "2024", "-O", "-C", "target-cpu=x86-64-v2"]
        subprocess.run(["rustc", *flags, "-o", path, source], check=True)
    return programs


def build_router():
    folder = os.path.join(TOP, "crates", "mux_router")
    ran = subprocess.run(["rt", "run"], cwd=folder, stdin=subprocess.DEVNULL, stdout=subprocess.DEVNULL,
                         stderr=subprocess.PIPE, text=True)
    if not any(line.startswith(("rt: running", "run=ended")) for line in ran.stderr.splitlines()):
        raise Failure("the proof or the build of mux_router failed:\n" + ran.stderr[-2000:])
    return os.path.join(folder, "out", "mux_router")


def with_lines(defaults, given):
    """The given lines, and the default ones of other keys."""
    keys = {line.split("=")[0].strip() for line in given}
    return given + [line for line in defaults if line.split("=")[0].strip() not in keys]


@contextlib.contextmanager
def started(programs, servers, make):
    """So many servers, and the router that `make` starts in front of them: that and its address."""
    with contextlib.ExitStack() as stack:
        echo = stack.enter_context(Process([programs["mux_echo"], *["127.0.0.1:0"] * servers]))
        router = make(echo.listening())
        stack.enter_context(router.process)
        yield router, router.start()


def send(programs, router, address, shape, count, seconds=60):
    """What the load generator printed of so many messages, whether all was good, and the router's processor time."""
    _, connections, inflight, body, _ = shape
    words = [f"connections={connections}", f"inflight={inflight}", f"body={body}", f"dispatches={count}"]
    before = router.process.processor_seconds()
    with Process([programs["mux_load"], address, *words, f"seconds={seconds}", "resend=yes"]) as load:
        counts = json.loads(load.line(seconds + 20))
        counts["processor_us"] = 1e6 * (router.process.processor_seconds() - before) / max(1, counts["ok"])
        counts["good"] = load.child.wait(timeout=10) == 0
        return counts


def run(programs, shape, make, scale=1.0, seconds=60):
    """What `send` gives, with how the router ended."""
    with started(programs, shape[0], make) as (router, address):
        counts = send(programs, router, address, shape, int(shape[4] * scale), seconds)
        counts["closing"] = round(router.quit(), 3)
        counts["epochs"] = router.last_epochs
        return counts


def told(counts):
    """The counts that should be 0, if one isn't."""
    names = ("wrong", "nacked", "errors", "doubled", "lost", "unsent", "closed")
    return ", ".join(f"{name} {counts[name]}" for name in names if counts[name])
