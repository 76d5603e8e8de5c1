#!/usr/bin/env python3
"""Asks a built router on the port of key `operator` and on that of `metrics_http`, at rest, under load and badly.

    check/operators.py COMMAND [NAME ...]
    check/operators.py --rate COMMAND [SECONDS]

COMMAND is a built mux_router, NAME a scenario (without names: all of them). Prints a line for each; exit status 0 if
all went as it should. With --rate it prints how many dispatches a second pass while both ports are asked once a
second, with what passes while they aren't: four runs of each, in turn."""
import os
import sys
import time

sys.dont_write_bytecode = True

import operators_ends  # noqa: F401
import operators_figures  # noqa: F401
import operators_lines  # noqa: F401
import operators_load  # noqa: F401
from operators_parts import SCENARIOS, Asked, load
from reading import Fault


def rate(program, seconds):
    def run(asks):
        with Asked(program, "a b", history=16_777_216) as it:
            it.is_audited = False

            def asking(stopped):
                while not stopped.wait(1.0):
                    if asks:
                        it.asks("metrics")
                        it.get("/metrics")

            answered = load(it, seconds, asking)
            it.is_over = True
            return answered / seconds

    for _ in range(4):
        plain, asked = run(False), run(True)
        print(f"{plain:.0f} dispatches a second, {asked:.0f} while asked: {asked / plain:.3f}", flush=True)


def main(words):
    if words[:1] == ["--rate"] and len(words) in (2, 3):
        rate(os.path.abspath(words[1]), float(words[2]) if words[2:] else 5.0)
        return 0
    names = words[1:] or list(SCENARIOS)
    unknown = [it for it in names if it not in SCENARIOS]
    if not words or words[0].startswith("-") or unknown:
        sys.exit(f"{__doc__}\nscenarios: {' '.join(SCENARIOS)}")
    failed = 0
    for name in names:
        start = time.monotonic()
        try:
            SCENARIOS[name](os.path.abspath(words[0]))
            print(f"{name}: ok ({time.monotonic() - start:.1f} s)", flush=True)
        except (Fault, OSError, KeyError, ValueError) as fault:
            failed += 1
            print(f"{name}: FAILED: {fault!r}", flush=True)
    print(f"{len(names) - failed} passed, {failed} failed")
    return 1 if failed else 0


if __name__ == "__main__":
    sys.exit(main(sys.argv[1:]))
