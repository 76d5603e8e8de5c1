#!/usr/bin/env python3
"""Plays seals and rolls up to the last epoch, on both sides. No script can come to epoch 4,294,967,295, so this is tried on a copy
whose sessions take epoch 1 for the last one; it is compiled without the proof, in 2 to 4 minutes.

    check/last_epoch.py

A session at its last epoch is refused LastEpoch, behind NotFull, and goes on. Exit status 0 if it is so."""
import os
import shutil
import subprocess
import sys
import tempfile

TOP = os.path.join(os.path.dirname(os.path.abspath(__file__)), "..")
LAST = {
    "client_session/src/session/figures.rt": "self.epoch == u32::MAX",
    "server_session/src/session/draining.rt": "self.epoch == u32::MAX",
}
PING = "0000000441000001"


def steps(session):
    """Each line of the script on a session, and what is printed for it."""
    ping = (f"in {session} {PING}", f"{session} > 00000004bf000001")
    seal = f"seal {session}"
    yield from [ping] * 10
    yield seal, "refused NotFull"
    yield ping
    yield seal, f"{session} epoch 1"
    yield seal, "refused NotFull"
    yield from [ping] * 10
    yield seal, "refused LastEpoch"
    yield ping
    yield seal, "refused LastEpoch"
    yield f"roll {session}", "refused LastEpoch"
    yield ping
    yield f"lose {session}", f"{session} lost"
    yield seal, "refused Closed"
    yield f"roll {session}", "refused Closed"


def rolls(session):
    """The same of a session that is rolled to its last epoch."""
    yield f"roll {session}", f"{session} epoch 1"
    yield f"roll {session}", "refused LastEpoch"
    yield f"in {session} {PING}", f"{session} > 00000004bf000001"


def main():
    opened = [("client", None), ("server plain", None)]
    lines = [("limits 65536 1 5 16", None), *opened, *opened, *steps("c1"), *steps("s1"), *rolls("c2"), *rolls("s2")]
    script = "".join(line + "\n" for line, _ in lines)
    wanted = "".join(said + "\n" for _, said in lines if said)
    with tempfile.TemporaryDirectory() as work:
        for name in ("crates.txt", "HANDLES"):
            shutil.copy(os.path.join(TOP, name), work)
        crates = os.path.join(work, "crates")
        shutil.copytree(os.path.join(TOP, "crates"), crates, ignore=shutil.ignore_patterns("out"))
        for name, old in LAST.items():
            path = os.path.join(crates, name)
            with open(path) as it:
                text = it.read()
            assert text.count(old) == 2, name
            with open(path, "w") as it:
                it.write(text.replace(old, "self.epoch == 1"))
        folder = os.path.join(crates, "mux_replay")
        ran = subprocess.run(["rt", "try"], cwd=folder, input=script.encode(), stdout=subprocess.PIPE)
    if ran.stdout.decode() != wanted:
        sys.exit(f"printed:\n{ran.stdout.decode()}\nwanted:\n{wanted}")
    print("the last epoch is refused on both sides, and the session goes on")


if __name__ == "__main__":
    main()
