#!/usr/bin/env python3
"""Measures the requests of `mx_federd replay` under callgrind (of valgrind), and prints two tables.

    measure_requests.py [--program PATH] [--events 1000,10000] [--members 500]

The first has the instructions of one query of each kind, in a room of so many messages and members: a log with queries
is run, and one without, and the difference is divided by their number. The second has the instructions of an event that
is sent alone, by a PUT request of its own, and by an open, a next and a close line."""

import argparse
import subprocess
import sys
from pathlib import Path

from measure import HERE, PROGRAM, instructions

KINDS = ("event", "state", "state_ids", "event_auth", "backfill", "get_missing_events", "make_join", "unknown_path")


def log_by(*words: object) -> bytes:
    """The log that make_log.py makes by these words."""
    made = subprocess.run([sys.executable, HERE / "make_log.py", *map(str, words)], stdout=subprocess.PIPE, check=True)
    return made.stdout


def instructions_of_query(program: Path, events: int, members: int, kind: str) -> int:
    """The instructions of a query of this kind, in a room of so many messages and members."""
    count = 200 if kind in ("event", "event_auth", "make_join", "unknown_path") else 20
    room = ("--events", events, "--members", members)
    asked = instructions(program, log_by(*room, "--ask", count, "--kind", kind))
    return (asked - instructions(program, log_by(*room))) // count


def instructions_of_put(program: Path, events: int, form: str) -> int:
    """The instructions of an event that is sent alone, of so many, by a request (`call`) or by three lines (`step`)."""
    start = instructions(program, log_by("--events", 0, "--batch", 1, "--form", form))
    sent = instructions(program, log_by("--events", events, "--batch", 1, "--form", form))
    return (sent - start) // events


def main() -> None:
    parser = argparse.ArgumentParser(description=__doc__, formatter_class=argparse.RawDescriptionHelpFormatter)
    parser.add_argument("--program", type=Path, default=PROGRAM)
    parser.add_argument("--events", default="1000,10000")
    parser.add_argument("--members", type=int, default=500)
    options = parser.parse_args()
    sizes = list(map(int, options.events.split(",")))
    print("| query | " + " | ".join(f"{events:,}" for events in sizes) + " |")
    print("|---|" + "---|" * len(sizes))
    for kind in KINDS:
        each = (f"{instructions_of_query(options.program, events, options.members, kind):,}" for events in sizes)
        print(f"| {kind} | " + " | ".join(each) + " |", flush=True)
    print()
    print("| one event a transaction | " + " | ".join(f"{events:,}" for events in sizes) + " |")
    print("|---|" + "---|" * len(sizes))
    for form in ("step", "call"):
        each = (f"{instructions_of_put(options.program, events, form):,}" for events in sizes)
        print(f"| {form} | " + " | ".join(each) + " |", flush=True)


if __name__ == "__main__":
    main()
