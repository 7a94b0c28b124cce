#!/usr/bin/env python3
"""Makes the first table of docs/SPEED.md, of one program, beside a plain server's.

    speed_table.py [--program PATH] [--beside PATH] [--events 10000] [--members 500] [--profile ROW,..]

Rows are what a replayed event takes in logs of several shapes, by callgrind (valgrind) and in microseconds of a processor, what a
request takes, `check` of a large event, the memory of further events, and how long a server takes to open its rows beside
replaying them. Times are the least of five runs. The plain server is one in Rust with the same answers, without proof, whose
instructions were measured once and stand here, since it is not part of this repository; `--beside` names a program with the
words of `mx_federd replay`, whose times are then measured by turns with this one's. Of an `example_replay`, which has no subcommands,
the rows of `check` and of opening are left out.

`--profile` prints instead which libraries and which functions take the instructions of these rows: a shape, a kind of query,
`put` or `check`."""

import argparse
import re
import resource
import subprocess
import sys
import tempfile
from collections import Counter
from collections.abc import Iterable
from pathlib import Path

from measure import HERE, PROGRAM, log_of, replay, replays_alone, seconds_and_memory
from measure_requests import log_by
from measure_serve import Server, parts_of, processor_seconds

# What an event takes the plain server, at 10,000 events of a shape; of `fork`, `soft` and `joins` it is known that it takes no more
# than 105,200.
PLAIN_SHAPES = {"linear": 100_100, "fork": None, "soft": None, "joins": None, "conflict": 136_000, "ladder": 129_000}
# What a request takes it, in a room of 500 members, to three figures.
PLAIN_QUERIES = {"event": 17_300, "make_join": 20_000, "event_auth": 20_000, "state": 538_000}
PLAIN_PUT = 100_000
# What ruma-common takes for the event of `make_log.py --check-power`.
PLAIN_CHECK = 18_200_000
# The bytes of that event, of how many events the memory is compared, and how many members a large room has.
CHECKED_BYTES = 48_000
MEMORY_EVENTS = (10_000, 40_000)
MANY_MEMBERS = 5_000
# How many queries of a kind are asked, and of those whose reply grows with the room.
ASKED = {"event": 200, "make_join": 200, "event_auth": 200, "state": 20}
# The rows whose instructions a profile tells.
ROWS = (*PLAIN_SHAPES, "put", *ASKED, "check")
# How often a time is taken.
RUNS = 5
# The least share of a row's instructions with which a library or a function stands in a profile.
LEAST_SHARE = 0.01


def costs(words: list[str], text: bytes) -> Counter[str]:
    """The instructions of each function by itself, in a run of a program over a text."""
    with tempfile.NamedTemporaryFile() as told:
        callgrind = ["valgrind", "--tool=callgrind", f"--callgrind-out-file={told.name}", *words]
        subprocess.run(callgrind, input=text, stdout=subprocess.DEVNULL, stderr=subprocess.DEVNULL, check=True)
        annotate = ["callgrind_annotate", "--threshold=100", told.name]
        listed = subprocess.run(annotate, stdout=subprocess.PIPE, text=True, errors="replace", check=True).stdout
    found: Counter[str] = Counter()
    for line in listed.splitlines():
        parts = re.match(r"\s*([\d,]+) \([ \d.]+%\)\s+\S*?:(.*?)(?: \[[^\]]*\])?$", line)
        if parts:
            found[function_of(parts[2].strip())] += int(parts[1].replace(",", ""))
    return found


def function_of(symbol: str) -> str:
    """The function that a symbol is of, whatever its types are."""
    return re.sub(r"::<[^<>]*>|'\d+$", "", symbol)


class Measured:
    """The runs that a row is made of: its instructions are those of the second over those of the first, for each of so many."""

    def __init__(self, words: list[str], without: bytes, text: bytes, count: int) -> None:
        self.words, self.without, self.text, self.count = words, without, text, count

    def costs(self) -> Counter[str]:
        """The instructions of each function by itself."""
        start = costs(self.words, self.without) if self.without else Counter()
        whole = costs(self.words, self.text)
        return Counter({name: (count - start[name]) / self.count for name, count in whole.items()})

    def instructions(self) -> float:
        return sum(self.costs().values())


def checked_event() -> bytes:
    words = [sys.executable, str(HERE / "make_log.py"), "--check-power", str(CHECKED_BYTES)]
    return subprocess.run(words, stdout=subprocess.PIPE, check=True).stdout


def measured(program: Path, row: str, events: int, members: int) -> Measured:
    """The runs of a row, by its name."""
    words = replay(program)
    if row in PLAIN_SHAPES:
        return Measured(words, log_of(row, 0), log_of(row, events), events)
    if row == "put":
        one = ("--batch", 1, "--form", "call", "--events")
        return Measured(words, log_by(*one, 0), log_by(*one, events), events)
    if row == "check":
        return Measured([str(program), "check"], b"", checked_event(), 1)
    room = ("--events", events, "--members", members)
    return Measured(words, log_by(*room), log_by(*room, "--ask", ASKED[row], "--kind", row), ASKED[row])


def print_row(name: str, count: float, plain: float | None, form: str = ",.0f") -> None:
    times = f"{count / plain:.2f}" if plain else ""
    print(f"| {name} | {count:{form}} | {f'{plain:{form}}' if plain else ''} | {times} |", flush=True)


def instruction_rows(program: Path, events: int, members: int) -> None:
    def of(row: str, in_room_of: int = members) -> float:
        return measured(program, row, events, in_room_of).instructions()

    for shape, plain in PLAIN_SHAPES.items():
        print_row(f"an event of `{shape}`", of(shape), plain)
    print_row("a PUT of one event", of("put"), PLAIN_PUT)
    for kind, plain in PLAIN_QUERIES.items():
        print_row(f"a query `{kind}`", of(kind), plain)
    print_row(f"the same in a room of {MANY_MEMBERS:,} members", of("state", MANY_MEMBERS), None)
    if not replays_alone(program):
        print_row("`check` of a large event", of("check"), PLAIN_CHECK)


def memory_rows(program: Path) -> None:
    few, many = MEMORY_EVENTS
    for shape in ("linear", "joins", "conflict"):
        held = [seconds_and_memory(program, log_of(shape, events))[1] for events in MEMORY_EVENTS]
        print_row(f"bytes of a further event of `{shape}`", (held[1] - held[0]) * 1024 * 1024 / (many - few), None)


def seconds(program: Path, log: bytes) -> float:
    """The processor's seconds of a replay."""
    before = resource.getrusage(resource.RUSAGE_CHILDREN)
    subprocess.run(replay(program), input=log, stdout=subprocess.DEVNULL, check=True)
    after = resource.getrusage(resource.RUSAGE_CHILDREN)
    return after.ru_utime + after.ru_stime - before.ru_utime - before.ru_stime


def time_rows(program: Path, beside: Path | None, events: int) -> None:
    """What an event takes of a processor, by turns with the program beside."""
    programs = [it for it in (program, beside) if it]
    for shape in PLAIN_SHAPES:
        start, log = log_of(shape, 0), log_of(shape, events)
        runs = [[seconds(it, log) - seconds(it, start) for it in programs] for _ in range(RUNS)]
        least = [min(each) / events * 1e6 for each in zip(*runs)]
        print_row(f"microseconds of a processor, an event of `{shape}`", least[0], least[1] if beside else None, ".1f")


def opening_row(program: Path, events: int) -> None:
    """The processor's seconds until a server over its rows listens, beside those of a replay of their log."""
    log = log_of("linear", events)
    hosts, sends = parts_of(log)
    with tempfile.TemporaryDirectory() as folder:
        data = Path(folder) / "data"
        server = Server(program, data, hosts=hosts)
        for send in sends:
            server.send(*send)
        server.stop()
        opened, replayed = [], []
        for _ in range(RUNS):
            server = Server(program, data)
            opened.append(processor_seconds(server.process))
            server.stop()
            replayed.append(seconds(program, log))
    print_row(f"opening {events:,} rows, beside replaying them", min(opened), min(replayed), ".2f")


def library_of(function: str) -> str:
    """The library that a function is of; of one without a name of Rattle's, the C library's."""
    found = re.match(r"[<&\w]*?(\w+)::", function)
    return found[1] if found else "C"


def by_library(costs_of_functions: Counter[str]) -> Counter[str]:
    found: Counter[str] = Counter()
    for name, count in costs_of_functions.items():
        found[library_of(name)] += count
    return found


def print_columns(what: str, columns: dict[str, Counter[str]]) -> None:
    """What each of these takes of each row, the greatest shares first, where it is a share of some row that is worth a line."""
    shares = {row: {name: count / sum(each.values()) for name, count in each.items()} for row, each in columns.items()}
    greatest = {name: max(each.get(name, 0) for each in shares.values()) for each in columns.values() for name in each}
    print(f"\n| {what} | " + " | ".join(f"`{row}`" for row in columns) + " |\n|---|" + "---|" * len(columns))
    print("| all | " + " | ".join(f"{sum(each.values()):,.0f}" for each in columns.values()) + " |")
    for name in sorted(greatest, key=greatest.__getitem__, reverse=True):
        if greatest[name] >= LEAST_SHARE:
            print(f"| {name} | " + " | ".join(f"{each[name]:,.0f}" for each in columns.values()) + " |", flush=True)


def print_profiles(program: Path, rows: Iterable[str], events: int, members: int) -> None:
    columns = {row: measured(program, row, events, members).costs() for row in rows}
    print_columns("library", {row: by_library(each) for row, each in columns.items()})
    print_columns("function", {row: Counter({f"`{name}`": count for name, count in each.items()}) for row, each in columns.items()})


def main() -> None:
    parser = argparse.ArgumentParser(description=__doc__, formatter_class=argparse.RawDescriptionHelpFormatter)
    parser.add_argument("--program", type=Path, default=PROGRAM)
    parser.add_argument("--beside", type=Path)
    parser.add_argument("--events", type=int, default=10_000)
    parser.add_argument("--members", type=int, default=500)
    parser.add_argument("--profile", metavar="ROW,..")
    options = parser.parse_args()
    program = options.program.resolve()
    if options.profile:
        rows = options.profile.split(",")
        if unknown := [row for row in rows if row not in ROWS]:
            parser.error(f"no such row: {', '.join(unknown)}; there are {', '.join(ROWS)}")
        print_profiles(program, rows, options.events, options.members)
        return
    print("| | this server | plain server | times |\n|---|---|---|---|")
    instruction_rows(program, options.events, options.members)
    memory_rows(program)
    time_rows(program, options.beside, options.events)
    if not replays_alone(program):
        opening_row(program, options.events)


if __name__ == "__main__":
    main()
