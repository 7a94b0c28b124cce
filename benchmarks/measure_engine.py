#!/usr/bin/env python3
"""Measures an engine by 1, 2 and 4 seats, each in a thread of its own, beside a world on one thread, and prints tables.

    measure_engine.py [--program PATH] [--events 100000] [--shards 4] [--runs 5] [--instructions COUNT] [--log FILE]
                      [--cases world,engine 1,engine 2,engine 4]
    measure_engine.py --unpack

The program is built from the text engine_speed.txt, which says how. Its input are messages of four rooms of 50 members,
one room a shard where there are four, fifty to a transaction, the rooms in turn. With several seats each has rooms of its
own. The runs of the cases take turns. A run's seconds are those of the calls alone, by the program's clock. Its processor
seconds are those of the whole run, less the median run without calls. Beside them stand the shares of all processors' time
that other programs took meanwhile, and other machines (steal). With `--instructions` the calls of so many messages are
also counted under callgrind (of valgrind), less a run without them. `--log` keeps the input in this file."""

import argparse
import json
import os
import re
import statistics
import subprocess
import sys
import tempfile
from pathlib import Path

HERE = Path(__file__).resolve().parent
TOP = HERE.parent
PROGRAM = TOP / "crates/engine_speed/out/engine_speed"
ROOMS = 4
# Places in the line of all processors of /proc/stat.
IDLE, WAITING, STEAL = 3, 4, 7


def unpack():
    """Writes the files that the text holds, and the crate's line into crates.txt."""
    for part in ("\n" + (HERE / "engine_speed.txt").read_text()).split("\n=== ")[1:]:
        name, _, text = part.removesuffix("\n").partition("\n")
        file = TOP / name
        if name == "crates.txt":
            lines = file.read_text()
            file.write_text(lines if text in lines else f"{lines}{text}\n")
            continue
        file.parent.mkdir(parents=True, exist_ok=True)
        file.write_text(text + "\n")


def room_lines(number, events):
    """The create event of a room, and its transactions, one a line."""
    words = ["--room", f"!r{number}:s0.example", "--events", str(events // ROOMS), "--seed", str(number + 1)]
    made = subprocess.run([sys.executable, HERE / "make_log.py", *words], stdout=subprocess.PIPE, check=True)
    lines = [json.loads(line) for line in made.stdout.splitlines()]
    found = [line.get("event", line.get("pdus")) for line in lines if line["step"] in ("host", "open")]
    return [json.dumps(value, separators=(",", ":"), ensure_ascii=False) for value in found]


def jobs(events):
    rooms = [room_lines(number, events) for number in range(ROOMS)]
    return "".join(line + "\n" for turn in zip(*rooms) for line in turn).encode()


def processor_times():
    return list(map(int, Path("/proc/stat").read_text().split("\n", 1)[0].split()[1:9]))


def words_of(program, case, shards):
    mode, _, seats = case.partition(" ")
    return [str(program), mode, str(shards), seats or "1"]


class Run:
    """One run: the seconds of the calls, and the bytes of the replies; for the whole run the processor seconds, and the
    shares in per cent that other programs and other machines had of the processors' time."""

    def __init__(self, words, source):
        source.seek(0)
        before = processor_times()
        ran = subprocess.Popen(words, stdin=source, stdout=subprocess.PIPE)
        answer = ran.stdout.read()
        _, status, usage = os.wait4(ran.pid, 0)
        ran.returncode = os.waitstatus_to_exitcode(status)
        spent = [after - earlier for earlier, after in zip(before, processor_times())]
        if ran.returncode:
            sys.exit(f"the program ended with status {ran.returncode}")
        milliseconds, self.replied = map(int, answer.split())
        self.seconds = milliseconds / 1000
        self.processor = usage.ru_utime + usage.ru_stime
        busy = (sum(spent) - spent[IDLE] - spent[WAITING] - spent[STEAL]) / os.sysconf("SC_CLK_TCK")
        every = sum(spent) / os.sysconf("SC_CLK_TCK")
        self.others = 100 * max(0, busy - self.processor) / every
        self.steal = 100 * spent[STEAL] / sum(spent)


def instructions(words, source):
    source.seek(0)
    valgrind = ["valgrind", "--tool=callgrind", "--callgrind-out-file=/dev/null", *words]
    ran = subprocess.run(valgrind, stdin=source, stdout=subprocess.DEVNULL, stderr=subprocess.PIPE, check=True)
    return int(re.search(rb"refs:\s+([\d,]+)", ran.stderr)[1].replace(b",", b""))


def median(runs, name):
    return statistics.median(getattr(run, name) for run in runs)


def print_seconds(options, cases, source):
    found = {case: [] for case in ["read", *cases]}
    for _ in range(options.runs):
        for case, runs in found.items():
            runs.append(Run(words_of(options.program, case, options.shards), source))
    start = median(found.pop("read"), "processor")
    if len({run.replied for runs in found.values() for run in runs}) != 1:
        sys.exit("the cases do not answer alike")
    print("| case | best | median | processor seconds | other programs | steal |")
    print("|---|---|---|---|---|---|")
    for case, runs in found.items():
        best = min(run.seconds for run in runs)
        shares = f"{median(runs, 'others'):.0f}% | {median(runs, 'steal'):.0f}%"
        processor = median(runs, "processor") - start
        print(f"| {case} | {best:.2f} | {median(runs, 'seconds'):.2f} | {processor:.2f} | {shares} |", flush=True)


def print_instructions(options, source):
    start = instructions(words_of(options.program, "read", options.shards), source)
    print(f"| case | instructions an event, of {options.instructions:,} |")
    print("|---|---|")
    for case in ("world", "engine 1"):
        ran = instructions(words_of(options.program, case, options.shards), source)
        print(f"| {case} | {(ran - start) // options.instructions:,} |", flush=True)


def main():
    parser = argparse.ArgumentParser(description=__doc__, formatter_class=argparse.RawDescriptionHelpFormatter)
    parser.add_argument("--program", type=Path, default=PROGRAM)
    parser.add_argument("--events", type=int, default=100000)
    parser.add_argument("--shards", type=int, default=4)
    parser.add_argument("--runs", type=int, default=5)
    parser.add_argument("--cases", default="world,engine 1,engine 2,engine 4")
    parser.add_argument("--instructions", type=int, default=0)
    parser.add_argument("--log", type=Path)
    parser.add_argument("--unpack", action="store_true")
    options = parser.parse_args()
    if options.unpack:
        unpack()
        return
    with tempfile.TemporaryFile() as source:
        source.write(jobs(options.events))
        if options.log:
            source.seek(0)
            options.log.write_bytes(source.read())
        if options.runs:
            print_seconds(options, options.cases.split(","), source)
    if options.instructions:
        with tempfile.TemporaryFile() as source:
            source.write(jobs(options.instructions))
            print()
            print_instructions(options, source)


if __name__ == "__main__":
    main()
