"""The scripts that end a router softly."""
import os
import signal
import socket
import subprocess
import tempfile
import time

from operators_parts import EXAMPLES, Asked, scenario
from reading import need
from wire_parts import (
    HOST, PATIENCE, RDRAIN, TDRAIN, Link, Operator, connected, free_port, rdispatch, tdispatch, toml,
)

STOP, SOFT_RUN = (os.path.join(EXAMPLES, name) for name in ("drain_and_quit.sh", "soft-run.sh"))


def stopped(it, seconds):
    """`drain_and_quit.sh` while it runs."""
    words = [STOP, f"{HOST}:{it.operator_port}", str(seconds), str(it.program.ran.pid)]
    return subprocess.Popen(words, stdin=subprocess.DEVNULL, stdout=subprocess.DEVNULL)


@scenario
def ends_softly(program):
    """The script that ends a router waits until what is open is answered, also of a client that came without a frame."""
    with Asked(program) as it:
        client, late, server = it.client(), it.client(), it.servers["a"]
        client.send(tdispatch(5))
        server.gives(tdispatch(2))
        ran = stopped(it, 20)
        client.gives(TDRAIN)
        client.send(RDRAIN)
        late.fence()
        late.gives(TDRAIN)
        late.send(RDRAIN)
        time.sleep(0.5)
        need(ran.poll() is None, "it doesn't wait for the open dispatch")
        server.send(rdispatch(2))
        client.gives(rdispatch(5))
        it.closes()
        need(ran.wait(PATIENCE) == 0, f"it ended with status {ran.returncode}")


@scenario
def ends_in_time(program):
    """It doesn't wait for ever for a client that passes its Tdrain over."""
    with Asked(program) as it:
        client = it.client()
        client.fence()
        ran = stopped(it, 1)
        client.gives(TDRAIN)
        it.closes()
        need(ran.wait(PATIENCE) == 0, f"it ended with status {ran.returncode}")


def run_softly(program, signal_of_end, seconds="20"):
    """The router, run by `soft-run.sh`, with a client that has a dispatch open when the signal comes: its last line."""
    with socket.create_server((HOST, 0)) as listener, tempfile.NamedTemporaryFile("w") as file:
        listen, admin, operator = free_port(), free_port(), free_port()
        servers = [("a", listener.getsockname()[1], "plain")]
        file.write(toml(listen, admin, servers, {"/s/a": ["a"]}, {"operator": f"{HOST}:{operator}"}))
        file.flush()
        words = [SOFT_RUN, program, file.name, f"{HOST}:{operator}", seconds]
        ran = subprocess.Popen(words, stdin=subprocess.DEVNULL, stdout=subprocess.PIPE, text=True)
        try:
            need(ran.stdout.readline() == f"listening {HOST}:{listen}\n", "the router doesn't listen")
            listener.settimeout(PATIENCE)
            server, client = Link(listener.accept()[0], "server"), connected(listen, "client")
            client.send(tdispatch(5))
            server.gives(tdispatch(2))
            ran.send_signal(signal_of_end)
            client.gives(TDRAIN)
            client.send(RDRAIN)
            if seconds == "20":
                ran.send_signal(signal_of_end)
                client.is_silent(0.6)
                server.send(rdispatch(2))
                client.gives(rdispatch(5))
            client.ends()
            need(ran.stdout.read() == "closed ok\n", "another last line")
            need(ran.wait(PATIENCE) == 0, f"it ended with status {ran.returncode}")
        finally:
            ran.kill()
            ran.wait()


@scenario
def stops_softly(program):
    """A signal has what is open answered first, as `soft-run.sh` runs it, a second signal too, and in any case in time."""
    run_softly(program, signal.SIGTERM)
    run_softly(program, signal.SIGINT)
    run_softly(program, signal.SIGTERM, "1")


@scenario
def ends_as_it_was_run(program):
    """`soft-run.sh` ends with the router's status: that of a configuration with a fault, and of a quit."""
    with tempfile.NamedTemporaryFile("w") as file:
        words = [SOFT_RUN, program, file.name, f"{HOST}:1"]
        ran = subprocess.run(words, stdin=subprocess.DEVNULL, capture_output=True, timeout=PATIENCE)
        need((ran.stdout, ran.returncode) == (b"config: Missing listen\n", 1), f"{ran}")
        listen, admin = free_port(), free_port()
        file.write(toml(listen, admin, [], {}, {}))
        file.flush()
        ran = subprocess.Popen(words, stdin=subprocess.DEVNULL, stdout=subprocess.PIPE, text=True)
        need(ran.stdout.readline() == f"listening {HOST}:{listen}\n", "the router doesn't listen")
        Operator(admin).ask("quit", "bye")
        need(ran.communicate(timeout=PATIENCE)[0] == "closed ok\n" and ran.returncode == 0, "another end")
