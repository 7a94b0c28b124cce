#!/usr/bin/env python3
"""Measures `mx_federd log` and `audit` beside `replay`, and prints a table.

    measure_audit.py [--program PATH] [--shapes linear,joins,..] [--events 10000] [--runs 5]

The program is the one that `rt run` or the gate has built. Of the events of each log of make_log.py an export is made:
one event a line in canonical form, and one array as Python writes it, with its `event_id` in each event. `log` reads
both; `replay` and `audit` read what it writes. `audit` is also asked for the page, and for the states before one event and
before 50. The runs of all are interleaved, and of each the least seconds of a processor are told, with the most memory, and
how many times `replay`'s seconds they are."""

import argparse
import json
import subprocess
import sys
import tempfile
from pathlib import Path

STARTER = """import resource, subprocess, sys
subprocess.run(sys.argv[1:], stdout=subprocess.DEVNULL, stderr=subprocess.DEVNULL, check=True)
used = resource.getrusage(resource.RUSAGE_CHILDREN)
print(used.ru_utime + used.ru_stime, used.ru_maxrss)"""
HERE = Path(__file__).resolve().parent
sys.path.insert(0, str(HERE.parent / "tests"))
sys.dont_write_bytecode = True
from matrix_events import id_of  # noqa: E402

PROGRAM = HERE.parent / "crates/mx_federd/out/mx_federd"
ROOM = "!room:s0.example"
SERVER = ["--name", "hub.example", "--shards", "64"]
QUESTIONS = 50


def events_of(shape, count):
    words = [sys.executable, HERE / "make_log.py", "--shape", shape, "--events", str(count), "--room", ROOM]
    log = subprocess.run(words, stdout=subprocess.PIPE, check=True).stdout
    events = []
    for line in log.splitlines():
        step = json.loads(line)
        if step["step"] == "host":
            events.append(step["event"])
        elif step["step"] == "open":
            events.extend(step["pdus"])
    return events


def canonical(event):
    return json.dumps(event, sort_keys=True, separators=(",", ":"), ensure_ascii=False)


def write_exports(folder, events):
    lines = [canonical({key: event[key] for key in event if key != "unsigned"}) for event in events]
    (folder / "lines").write_text("\n".join(lines) + "\n", encoding="utf-8")
    array = [{**event, "event_id": id_of(event)} for event in events]
    (folder / "array").write_text(json.dumps(array), encoding="utf-8")


def run(program, folder, words, source):
    """The processor seconds of a run, and its memory in megabytes. A process that holds nothing starts it, since a
    process counts the memory of the one that starts it as its own."""
    with (folder / source).open("rb") as given:
        command = [sys.executable, "-c", STARTER, str(program), *words]
        told = subprocess.run(command, stdin=given, stdout=subprocess.PIPE, text=True, check=True).stdout
    seconds, kilobytes = told.split()
    return float(seconds), int(kilobytes) / 1024


def commands(ids):
    audit = ["audit", *SERVER, "--room", ROOM]
    return {
        "log, lines": (["log", "--room", ROOM], "lines"),
        "log, array": (["log", "--room", ROOM], "array"),
        "replay": (["replay", *SERVER], "log"),
        "audit": (audit, "log"),
        "audit --html": ([*audit, "--html"], "log"),
        "one question": ([*audit, "--state-before", ids[0]], "log"),
        "50 questions": ([*audit, "--state-before", *ids], "log"),
    }


def asked_ids(program, folder):
    """The ids of so many events, spread over the room."""
    with (folder / "log").open("rb") as given:
        words = [str(program), "audit", *SERVER, "--room", ROOM]
        lines = subprocess.run(words, stdin=given, stdout=subprocess.PIPE, stderr=subprocess.DEVNULL, check=True).stdout
    ids = [json.loads(line)["event_id"] for line in lines.splitlines()]
    return ids[:: len(ids) // QUESTIONS][:QUESTIONS]


def measure(options, shape, folder):
    write_exports(folder, events_of(shape, options.events))
    with (folder / "lines").open("rb") as given, (folder / "log").open("wb") as out:
        words = [str(options.program), "log", "--room", ROOM]
        subprocess.run(words, stdin=given, stdout=out, stderr=subprocess.DEVNULL, check=True)
    asked = commands(asked_ids(options.program, folder))
    found = {name: [] for name in asked}
    for _ in range(options.runs):
        for name, (words, source) in asked.items():
            found[name].append(run(options.program, folder, words, source))
    return {name: (min(it[0] for it in runs), max(it[1] for it in runs)) for name, runs in found.items()}


def main():
    parser = argparse.ArgumentParser(description=__doc__, formatter_class=argparse.RawDescriptionHelpFormatter)
    parser.add_argument("--program", type=Path, default=PROGRAM)
    parser.add_argument("--shapes", default="linear,joins,conflict")
    parser.add_argument("--events", type=int, default=10000)
    parser.add_argument("--runs", type=int, default=5)
    options = parser.parse_args()
    print("| events | command | seconds | MB | times `replay` |")
    print("|---|---|---|---|---|")
    for shape in options.shapes.split(","):
        with tempfile.TemporaryDirectory() as folder:
            found = measure(options, shape, Path(folder))
        base = found["replay"][0]
        for name, (seconds, megabytes) in found.items():
            print(f"| {shape} | {name} | {seconds:.3f} | {megabytes:.0f} | {seconds / base:.2f} |", flush=True)


if __name__ == "__main__":
    main()
