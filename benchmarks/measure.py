#!/usr/bin/env python3
"""Measures `mx_federd replay` on logs of several shapes and sizes, and prints a table.

    measure.py [--program PATH] [--shapes linear,fork,..] [--events 1000,10000] [--instructions]

The program is the one that `rt run` or the gate has built. The logs are those of make_log.py, over 64 shards, with 50
members and fifty events to a transaction. With `--instructions` each log is also run under callgrind (of valgrind), and
the instructions of an event are told, without those of the start and of the base room."""

import argparse
import re
import subprocess
import sys
import tempfile
from pathlib import Path

STARTER = """import resource, subprocess, sys, time
start = time.monotonic()
subprocess.run(sys.argv[1:], stdout=subprocess.DEVNULL, check=True)
print(time.monotonic() - start, resource.getrusage(resource.RUSAGE_CHILDREN).ru_maxrss)"""
HERE = Path(__file__).resolve().parent
PROGRAM = HERE.parent / "crates/mx_federd/out/mx_federd"
SHAPES = "linear,fork,conflict,joins,wide,soft"


def log_of(shape, events):
    words = [sys.executable, HERE / "make_log.py", "--shape", shape, "--events", str(events)]
    return subprocess.run(words, stdout=subprocess.PIPE, check=True).stdout


def replays_alone(program):
    """Whether a program does nothing but replay logs, as example_replay does, by its name."""
    return Path(program).name == "example_replay"


def replay(program):
    if replays_alone(program):
        return [str(program), "hub.example"]
    return [str(program), "replay", "--name", "hub.example", "--shards", "64"]


def seconds_and_memory(program, log):
    """The seconds of a run, and the most memory that it held, in megabytes. Since a process counts the memory of the one
    that starts it as its own, it is started by one that holds no log."""
    with tempfile.TemporaryFile() as source:
        source.write(log)
        source.seek(0)
        words = [sys.executable, "-c", STARTER, *replay(program)]
        told = subprocess.run(words, stdin=source, stdout=subprocess.PIPE, text=True, check=True)
    seconds, kilobytes = told.stdout.split()
    return float(seconds), int(kilobytes) / 1024


def instructions(program, log):
    words = ["valgrind", "--tool=callgrind", "--callgrind-out-file=/dev/null", *replay(program)]
    ran = subprocess.run(words, input=log, stdout=subprocess.DEVNULL, stderr=subprocess.PIPE, check=True)
    return int(re.search(rb"refs:\s+([\d,]+)", ran.stderr)[1].replace(b",", b""))


def main():
    parser = argparse.ArgumentParser(description=__doc__, formatter_class=argparse.RawDescriptionHelpFormatter)
    parser.add_argument("--program", type=Path, default=PROGRAM)
    parser.add_argument("--shapes", default=SHAPES)
    parser.add_argument("--events", default="1000")
    parser.add_argument("--instructions", action="store_true")
    options = parser.parse_args()
    print("| shape | events | seconds | MB | instructions an event |")
    print("|---|---|---|---|---|")
    for shape in options.shapes.split(","):
        start = instructions(options.program, log_of(shape, 0)) if options.instructions else 0
        for events in map(int, options.events.split(",")):
            log = log_of(shape, events)
            seconds, memory = seconds_and_memory(options.program, log)
            each = f"{(instructions(options.program, log) - start) // events:,}" if options.instructions else ""
            print(f"| {shape} | {events:,} | {seconds:.2f} | {memory:.0f} | {each} |", flush=True)


if __name__ == "__main__":
    main()
