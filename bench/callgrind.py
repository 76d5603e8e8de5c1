"""Counts the instructions that a router executes, by valgrind's callgrind: for `bench/run-router` and
`check/instructions`."""
import glob
import os
import shutil
import subprocess
import tempfile
import time

from router_runs import GROWTH, SHAPES, Failure, send, started, told

# Messages of the longer of two runs, at most; the shorter one has a fifth. Callgrind takes fifty times as long.
MANY = 50_000
# The C library copies and clears much at a time with one instruction, which callgrind counts once for each byte: it is
# told to do so in pieces at any length.
TUNABLES = ":".join(f"glibc.cpu.x86_{name}_threshold={1 << 40}" for name in ("rep_movsb", "rep_stosb"))
# Seconds until a router that was sent its last message has nothing left to do.
REST = 0.3


def is_missing():
    """Whether this machine lacks valgrind."""
    return not (shutil.which("valgrind") and shutil.which("callgrind_control"))


def end_of(path):
    """The last bytes of a file."""
    with open(path, "rb") as it:
        it.seek(max(0, os.path.getsize(path) - 200))
        return it.read().decode(errors="replace")


def counted_since(process, folder, seen):
    """The instructions since the last call, by the file that callgrind writes."""
    time.sleep(REST)
    subprocess.run(["callgrind_control", "-d", str(process.child.pid)], stdin=subprocess.DEVNULL,
                   stdout=subprocess.DEVNULL, stderr=subprocess.DEVNULL, timeout=120)
    for _ in range(400):
        for path in set(glob.glob(os.path.join(folder, "out.*"))) - seen:
            lines = end_of(path).splitlines()
            if lines and lines[-1].startswith("totals:"):
                seen.add(path)
                return int(lines[-1].split()[1])
        time.sleep(0.05)
    raise Failure(f"callgrind wrote nothing of {process.name}")


def count(programs, name, make):
    """Instructions of a dispatch with its reply in this shape, by what a longer run takes more than a shorter one.
    `make` starts the router in front of these servers, with these words before its command."""
    shape = (SHAPES | GROWTH)[name]
    many = min(MANY, shape[4])
    few = many // 5
    with tempfile.TemporaryDirectory() as folder:
        under = ["env", f"GLIBC_TUNABLES={TUNABLES}", "valgrind", "--tool=callgrind",
                 f"--callgrind-out-file={folder}/out", f"--log-file={folder}/log"]
        with started(programs, shape[0], lambda servers: make(servers, under)) as (router, address):
            taken, seen = [], set()
            for messages in (few, few, many):
                counts = send(programs, router, address, shape, messages, seconds=300)
                if told(counts) or not counts["good"]:
                    raise Failure(f"{router.process.name}: {told(counts) or 'a run went wrong'}")
                taken.append(counted_since(router.process, folder, seen))
            router.quit()
            return (taken[2] - taken[1]) / (many - few)
