#!/usr/bin/env python3
"""Measures builds of `example_replay` side by side, and prints a table: instructions of an event, by callgrind (valgrind).

    measure_replay.py NAME=PATH [NAME=PATH ..] [--shapes linear,fork,..] [--events 1000,10000]

The logs are those of make_log.py, with 50 members and fifty events to a transaction. Instructions are told without
those of the start and of the base room. It stops where the answers of two builds differ. Builds with a proof are to be
compared with such builds alone: another compiler's options change the figures more than the bodies do."""

import argparse
import re
import subprocess
import sys
from pathlib import Path

from measure import log_of

SHAPES = "linear,fork,soft,joins,conflict,ladder"


def answers_and_instructions(program: str, log: bytes) -> tuple[bytes, int]:
    words = ["valgrind", "--tool=callgrind", "--callgrind-out-file=/dev/null", program, "hub.example"]
    ran = subprocess.run(words, input=log, capture_output=True, check=True)
    found = re.search(rb"refs:\s+([\d,]+)", ran.stderr)
    assert found, ran.stderr.decode()
    return ran.stdout, int(found[1].replace(b",", b""))


def of_each(programs: dict[str, str], log: bytes) -> list[int]:
    """The instructions of each program, which all give the same answers."""
    told = [answers_and_instructions(program, log) for program in programs.values()]
    if any(answers != told[0][0] for answers, _ in told):
        sys.exit("the answers of the programs differ")
    return [count for _, count in told]


def main() -> None:
    parser = argparse.ArgumentParser(description=__doc__, formatter_class=argparse.RawDescriptionHelpFormatter)
    parser.add_argument("programs", nargs="+", metavar="NAME=PATH")
    parser.add_argument("--shapes", default=SHAPES)
    parser.add_argument("--events", default="1000,10000")
    options = parser.parse_args()
    programs = {name: str(Path(path).resolve()) for name, path in (it.split("=", 1) for it in options.programs)}
    print("| shape | events | " + " | ".join(programs) + " |")
    print("|---|---|" + "---|" * len(programs))
    for shape in options.shapes.split(","):
        starts = of_each(programs, log_of(shape, 0))
        for events in map(int, options.events.split(",")):
            counts = of_each(programs, log_of(shape, events))
            each = (f"{(count - start) // events:,}" for count, start in zip(counts, starts))
            print(f"| {shape} | {events:,} | " + " | ".join(each) + " |", flush=True)


if __name__ == "__main__":
    main()
