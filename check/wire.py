#!/usr/bin/env python3
"""Plays client, server and operator against a built router, over sockets of 127.0.0.1.

    check/wire.py [--threads N] COMMAND [NAME ...]

COMMAND is a built mux_router, NAME a scenario (without names: all of them; --list prints the names), N the number of
its threads, where a scenario doesn't set it. Each scenario starts a router of its own and ends it by `quit`; four of
them run side by side. Prints a line for each.
Exit status 0 if all went as it should."""
import os
import signal
import subprocess
import sys
import time
from concurrent.futures import ThreadPoolExecutor

sys.dont_write_bytecode = True

import wire_admin  # noqa: F401
import wire_bound  # noqa: F401
import wire_config  # noqa: F401
import wire_dispatch  # noqa: F401
import wire_drain  # noqa: F401
import wire_eject  # noqa: F401
import wire_ends  # noqa: F401
import wire_load  # noqa: F401
import wire_loss  # noqa: F401
import wire_mend  # noqa: F401
import wire_parts
import wire_queued  # noqa: F401
import wire_random  # noqa: F401
import wire_rolling  # noqa: F401
import wire_servers  # noqa: F401
import wire_silence  # noqa: F401
import wire_stop  # noqa: F401
from reading import Fault
from wire_parts import SCENARIOS, Start

SIDE_BY_SIDE = 4
# Seconds that a scenario may take, and after which its process is ended.
LIMIT, GRACE = 30, 20


def too_long(*_):
    raise Fault(f"it took longer than {LIMIT} s")


def run_here(command, name):
    """What went wrong, or None."""
    signal.signal(signal.SIGALRM, too_long)
    signal.alarm(LIMIT)
    try:
        SCENARIOS[name](Start(command))
        return None
    except (Fault, OSError, subprocess.TimeoutExpired) as fault:
        return str(fault) or repr(fault)
    finally:
        signal.alarm(0)


def run_apart(command, name, running):
    """The line of a scenario that runs in a process of its own."""
    ran = subprocess.Popen(
        [sys.executable, os.path.abspath(__file__), command, name], stdout=subprocess.PIPE, start_new_session=True
    )
    running.append(ran)
    try:
        output, _ = ran.communicate(timeout=LIMIT + GRACE)
        return output.decode().split("\n")[0] or f"{name}: FAILED: status {ran.returncode}"
    except subprocess.TimeoutExpired:
        os.killpg(ran.pid, signal.SIGKILL)
        ran.communicate()
        return f"{name}: FAILED: it was ended after {LIMIT + GRACE} s"


def run_all(command, names):
    running = []
    with ThreadPoolExecutor(SIDE_BY_SIDE) as pool:
        try:
            for line in pool.map(lambda name: run_apart(command, name, running), names):
                print(line, flush=True)
                yield ": ok" in line
        except KeyboardInterrupt:
            pool.shutdown(wait=False)
            for ran in running:
                if ran.poll() is None:
                    os.killpg(ran.pid, signal.SIGKILL)
            raise


def main(words):
    if words[:1] == ["--threads"] and len(words) > 1 and words[1].isdigit():
        os.environ["WIRE_THREADS"], words = words[1], words[2:]
        wire_parts.THREADS = os.environ["WIRE_THREADS"]
    if words[:1] == ["--list"]:
        print(*SCENARIOS, sep="\n")
        return 0
    unknown = [it for it in words[1:] if it not in SCENARIOS]
    if not words or words[0].startswith("-"):
        sys.exit(__doc__)
    if unknown:
        sys.exit(f"{__doc__}\nno such scenario: {' '.join(unknown)}")
    command, names = os.path.abspath(words[0]), words[1:] or list(SCENARIOS)
    if len(names) == 1:
        start = time.monotonic()
        fault = run_here(command, names[0])
        print(f"{names[0]}: FAILED: {fault}" if fault else f"{names[0]}: ok ({time.monotonic() - start:.1f} s)")
        passed = [not fault]
    else:
        passed = list(run_all(command, names))
    print(f"{sum(passed)} passed, {len(passed) - sum(passed)} failed")
    return 0 if all(passed) else 1


if __name__ == "__main__":
    sys.exit(main(sys.argv[1:]))
