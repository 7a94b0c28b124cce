#!/usr/bin/env python3
"""Runs what `rt ci` has built with each allocation refused in turn.

A program runs once: at each allocation that is to be refused a copy of it is made, which goes on without this one to its end
(faults/fail_alloc.c). What each copy leaves is looked at.

- `copies_end_as_runs`: a copy leaves what a run of its own does, in which the allocation of that number is refused.
- `mistakes_are_told`: a small program that goes wrong where one allocation is refused is found out, by that one's number.
- `served_requests`: of `serve`, for a transaction of two rooms, one of a child before its parent and two queries, a request is
  answered, or told that no memory is left, or, for a few allocations of its connection, that is closed; and the same request
  is answered when it comes again. The files then have each event and each reply once.
- `tests_of_crates`: each test of a crate whose name ends in or_no_memory accepts the right answer and the memory refusal, and
  nothing else.
- `check_of_an_event`: `check` on its example prints its lines, or only `memory` on standard error, with status 1.
- `replayed_rows`: `replay` of each log of examples/rows ends so too, after the answers to the lines that were read, or one line
  is answered by a memory error. The other answers are then those of the log without that line, or, where the step was done
  but not its answer, those of the log. Of a request that sends a transaction some first events may have been done, and
  its transaction ID is given up."""

import http.client
import json
import os
import signal
import subprocess
import sys
import time
from collections import defaultdict
from collections.abc import Callable, Iterator, Sequence
from concurrent.futures import ThreadPoolExecutor
from contextlib import contextmanager
from pathlib import Path
from tempfile import TemporaryFile
from typing import BinaryIO

from suite import TOP, LeftOut, program, run_tests
from event_logs import Base, Log, quoted, state_path
from matrix_events import A, ACCEPTED, Event, Json, canonical, create, error, id_of, join, message
from program import compiled
from running_server import REPLIES, Request, Server, getting, host_line, rows_of, sending

# What a run leaves: its exit status, less than 0 where a signal ended it, its standard output and its standard error.
Left = tuple[int, bytes, bytes]
SECONDS = 60
WORKERS = os.cpu_count() or 1
NO_MEMORY = {"errcode": "M_UNKNOWN", "error": "memory"}
REFUSED = (b'{"error":"memory"}', b'{"body":{"errcode":"M_UNKNOWN","error":"memory"},"status":503}')
# A request has few allocations whose refusal closes its connection: those that read its bytes, hand it over to a worker, and write
# its reply. Of all others it is told.
MOST_CLOSED = 32
# A program with more allocations fails its test, but for these logs, of which as many are refused, evenly spread.
MOST_RUNS = 20_000
SAMPLED = {
    "long_chain": 2_000, "resolution_of_65_states": 4_000, "long_chain_of_power_levels": 1_000,
    "long_chain_with_removals": 1_000, "order_of_power_events": 1_500, "order_on_the_mainline": 1_500,
    "limits_of_history_queries": 1_500,
}


@contextmanager
def streams(source: bytes) -> Iterator[tuple[BinaryIO, BinaryIO, BinaryIO]]:
    """Files for a run's standard input, which is there, for its standard output and its standard error."""
    with TemporaryFile() as given, TemporaryFile() as out, TemporaryFile() as err:
        given.write(source)
        given.seek(0)
        yield given, out, err


def content(file: BinaryIO) -> bytes:
    """All that is in a file."""
    file.seek(0)
    return file.read()


class Task:
    """A command, its input, and what a run with a refused allocation may leave."""

    def __init__(self, name: str, words: Sequence[object], source: bytes = b"", most: int | None = None) -> None:
        self.name = name
        self.words = [str(word) for word in words]
        self.source = source
        self.most = most
        self.seconds = SECONDS

    def run(self, **variables: str) -> Left:
        """What a run with these variables leaves."""
        env = {**os.environ, "LD_PRELOAD": str(compiled("fail_alloc")), **variables}
        with streams(self.source) as (given, out, err):
            ran = subprocess.run(self.words, stdin=given, stdout=out, stderr=err, env=env, timeout=self.seconds)
            return ran.returncode, content(out), content(err)

    def copies(self, numbers: range) -> Iterator[tuple[int, Left]]:
        """What is left with each of these allocations refused, behind its number, and at last, behind 0, with none refused."""
        read_end, write_end = os.pipe()
        each = f"{numbers.start} {numbers.step} {self.seconds} {write_end}"
        env = {**os.environ, "LD_PRELOAD": str(compiled("fail_alloc")), "FAIL_ALLOC_EACH": each}
        with streams(self.source) as (given, out, err), open(read_end, "rb") as report:
            ran = subprocess.Popen(self.words, stdin=given, stdout=out, stderr=err, env=env, pass_fds=[write_end])
            os.close(write_end)
            for line in report:
                number, status, out_size, err_size = map(int, line.split())
                yield number, (os.waitstatus_to_exitcode(status), report.read(out_size), report.read(err_size))
            yield 0, (ran.wait(), content(out), content(err))

    def accepts(self, status: int, out: bytes, err: bytes) -> bool:
        """Whether a run may leave this."""
        return status == 0


class Check(Task):
    """`check`, or anything that prints all of its output or `memory`."""

    def __init__(self, name: str, words: Sequence[object], source: bytes, wanted: bytes, most: int | None = None) -> None:
        super().__init__(name, words, source, most)
        self.wanted = wanted

    def accepts(self, status: int, out: bytes, err: bytes) -> bool:
        """Whether a run may leave this."""
        return (status, out, err) in ((0, self.wanted, b""), (1, b"", b"memory\n"))


class Lines(Check):
    """Anything that prints lines as it goes, all or those before `memory`."""

    def accepts(self, status: int, out: bytes, err: bytes) -> bool:
        """Whether a run may leave this."""
        is_cut = (status, err) == (1, b"memory\n") and out.endswith(b"\n") and self.wanted.startswith(out)
        return is_cut or super().accepts(status, out, err)


def first_events_of(line: bytes) -> Iterator[bytes]:
    """Lines that send the first events of the transaction that this line sends, if it sends one, under another number."""
    try:
        call = json.loads(line)
        path, _, _ = call["target"].rpartition("/send/")
        events = json.loads(call["body"])["pdus"] if path else []
    except (KeyError, TypeError, ValueError):
        return
    for count in range(1, len(events) + 1):
        body = json.dumps({"pdus": events[:count]})
        yield json.dumps({**call, "target": path + "/send/number-that-is-given-up", "body": body}).encode() + b"\n"


class Replay(Lines):
    """`replay` of a log, which may also answer one line by a memory error."""

    def __init__(self, log: Path) -> None:
        answers = log.with_name(log.stem + ".answers.jsonl").read_bytes()
        words = [program(), "replay", "--name", "hub.example", "--shards", "2"]
        super().__init__(log.stem, words, log.read_bytes(), answers, SAMPLED.get(log.stem))
        self.lines = self.source.splitlines(keepends=True)

    def accepts(self, status: int, out: bytes, err: bytes) -> bool:
        """Whether a run may leave this."""
        if super().accepts(status, out, err):
            return True
        lines = out.split(b"\n")
        refused = [k for k, line in enumerate(lines) if line in REFUSED]
        if status != 0 or err or len(refused) != 1:
            return False
        k = refused[0]
        rest, whole = lines[:k] + lines[k + 1:], self.wanted.split(b"\n")
        return rest == whole[:k] + whole[k + 1:] or any(rest == answers for answers in self.others(k))

    def others(self, k: int) -> Iterator[list[bytes]]:
        """The other answers where line k did nothing, or only some of what it asks."""
        yield self.answers(self.lines[:k] + self.lines[k + 1:])
        for line in first_events_of(self.lines[k]):
            answers = self.answers(self.lines[:k] + [line] + self.lines[k + 1:])
            yield answers[:k] + answers[k + 1:]

    def answers(self, lines: Sequence[bytes]) -> list[bytes]:
        """The answers to a log of these lines."""
        ran = subprocess.run(self.words, input=b"".join(lines), stdout=subprocess.PIPE, check=True)
        return ran.stdout.split(b"\n")


def numbers_of(task: Task, folder: Path) -> tuple[int, range]:
    """How many allocations a program makes, and the numbers of those that are to be refused."""
    count = folder / "count"
    task.run(FAIL_ALLOC_COUNT=str(count))
    number = int(count.read_text())
    if task.most is None:
        return number, range(1, number + 1)
    return number, range(1, number + 1, max(1, number // task.most))


def ends_of(task: Task, numbers: range) -> dict[Left, list[int]]:
    """All that is left by runs with one of these allocations refused, or with none, each with the numbers of the runs."""
    ends = defaultdict(list)
    for number, left in task.copies(numbers):
        ends[left].append(number)
    return ends


def fault_of(task: Task, left: Left, numbers: Sequence[int]) -> str | None:
    """What these runs have left that they may not."""
    status, out, err = left
    if task.accepts(*left) and (status == 0 or 0 not in numbers):
        return None
    told = ", ".join(str(number or "none") for number in numbers[:8]) + (", .." if len(numbers) > 8 else "")
    how = "no end" if status == -signal.SIGALRM else f"status {status}, {err[:200]!r}, {out[-200:]!r}"
    return f"allocation {told} refused: {how}"


def faults_of(task: Task, numbers: range, pool: ThreadPoolExecutor) -> list[str]:
    """What runs with one of these allocations refused have left that they may not. Each was refused once."""
    ends = defaultdict(list)
    parts = [numbers[first::WORKERS] for first in range(min(WORKERS, len(numbers)))]
    for part in pool.map(lambda part: ends_of(task, part), parts):
        for left, told in part.items():
            ends[left] += told
    faults = [fault for fault in pool.map(lambda end: fault_of(task, end[0], sorted(end[1])), ends.items()) if fault]
    wanted, told = [0] * len(parts) + [*numbers], sorted(number for told in ends.values() for number in told)
    return faults if told == wanted else [*faults, f"{len(told)} ends of {len(wanted)}"]


def refuse_each(tasks: Sequence[Task], folder: Path) -> None:
    """Refuses the allocations of each program in turn. Each run leaves what it may."""
    failed = []
    assert tasks, "nothing to run"
    with ThreadPoolExecutor(WORKERS) as pool:
        for task in tasks:
            count, numbers = numbers_of(task, folder)
            is_counted = 0 < len(numbers) <= MOST_RUNS
            faults = faults_of(task, numbers, pool) if is_counted else [f"{count} allocations"]
            print(f"  {task.name}: {len(numbers)} of {count} allocations refused" + (f": FAILED: {faults[0]}" if faults else ""), flush=True)
            failed += [task.name] if faults else []
    assert not failed, failed


class RefusingServer:
    """A server of two rooms, one allocation of which is refused at a time."""

    def __init__(self, folder: Path) -> None:
        self.number, self.count, self.data = folder / "number", folder / "count", folder / "data"
        self.base, self.other = Base(Log()), create(room="!s:a.example")
        variables = {"LD_PRELOAD": str(compiled("fail_alloc")), "FAIL_ALLOC_NUMBER": str(self.number), "FAIL_ALLOC_COUNT": str(self.count)}
        hosts = [host_line(self.base.create), host_line(self.other)]
        self.server = Server(self.data, "--shards", "2", hosts=hosts, env={**os.environ, **variables})
        self.refuse(0)
        base = self.base
        self.joined = join(A, [self.other], [self.other], room="!s:a.example")
        # The events in the order in which they are to be kept, and the reply to each transaction.
        self.events, self.replies = [base.create, self.other], {}
        events = [base.join_a, base.levels, base.rules, base.join_b, base.join_c, self.joined]
        request, reply = self.sent("base", events, events)
        assert self.server.ask(*request) == (200, canonical(reply))
        self.made = 0

    def refuse(self, number: int) -> int:
        """From now on the allocation of this number is refused, or none for 0. How many there were since the last call."""
        self.number.write_text(str(number))
        self.count.unlink(missing_ok=True)
        self.server.process.send_signal(signal.SIGUSR1)
        while not self.count.exists() or not self.count.read_text():
            time.sleep(0.0005)
        return int(self.count.read_text())

    def sent(self, txn: str, events: Sequence[Event], accepted: Sequence[Event]) -> tuple[Request, Json]:
        """A transaction of these events, and its reply: these are accepted, and the others lack events that they cite."""
        reply = {"pdus": {id_of(made): ACCEPTED if made in accepted else error("missing events") for made in events}}
        self.events += [made for made in accepted if made not in self.events]
        self.replies[txn] = reply
        return sending("a.example", txn, events), reply

    def transaction(self) -> tuple[Request, Json]:
        """A transaction of one new message in each of the rooms, and its reply."""
        self.made += 1
        text = "m%d" % self.made
        events = [
            message(A, [self.base.join_c], self.base.of_a, text),
            message(A, [self.joined], [self.other, self.joined], text, room="!s:a.example"),
        ]
        return self.sent("t%d" % self.made, events, events)

    def child_before_parent(self) -> tuple[Request, Json]:
        """A transaction of a child and its parent, of which another one has had the parent kept, and its reply."""
        self.made += 1
        parent = message(A, [self.base.join_c], self.base.of_a, "p%d" % self.made)
        child = message(A, [parent], self.base.of_a, "c%d" % self.made)
        request, reply = self.sent("t%d" % self.made, [child, parent], [parent])
        assert self.server.ask(*request) == (200, canonical(reply))
        return self.sent("u%d" % self.made, [child, parent], [child, parent])

    def state_ids(self) -> tuple[Request, Json]:
        """A query for the ids of a state, and its reply."""
        base = self.base
        chain = sorted(id_of(it) for it in (base.create, base.join_a, base.levels))
        state = [id_of(it) for it in (base.create, base.rules, base.join_a, base.levels)]
        return getting("b.example", state_path("state_ids", base.join_b)), {"auth_chain_ids": chain, "pdu_ids": state}

    def no_event(self) -> tuple[Request, Json]:
        """A query for an event that is not there, and its reply."""
        return getting("b.example", "v1/event/" + quoted("$" + "x" * 43)), {"errcode": "M_NOT_FOUND", "error": "not found"}

    def reply(self, request: Request) -> Json:
        """The body of the reply to a request; none where its connection was closed."""
        try:
            _, told = self.server.ask(*request)
        except (http.client.HTTPException, ConnectionError, AssertionError):
            return None
        return json.loads(told)

    def check_files(self) -> None:
        """The files of the server, which is stopped, have each event of a room once and in order, and each reply once."""
        rows = [row for name in ("shard-0.db", "shard-1.db") for row in rows_of(self.data, "SELECT room, event FROM kept2 ORDER BY place", name)]
        for room in (self.base.create["room_id"], self.other["room_id"]):
            wanted = [canonical(made).decode() for made in self.events if made["room_id"] == room]
            kept = [event for other, event in rows if other == room]
            assert kept == wanted, (room, len(kept), len(wanted))
        replies = [row[1:] for name in ("book-0.db", "book-1.db") for row in rows_of(self.data, REPLIES, name)]
        wanted = [("a.example", txn, canonical(reply).decode()) for txn, reply in self.replies.items()]
        assert sorted(replies) == sorted(wanted), (len(replies), len(wanted))


def refuse_each_of_a_request(server: RefusingServer, kind: Callable[[], tuple[Request, Json]]) -> None:
    """Refuses each allocation of a request in turn, until a request ends before so many. Each leaves what it may."""
    number, count, ends = 0, 0, []
    while count >= number:
        number += 1
        request, wanted = kind()
        server.refuse(number)
        told = server.reply(request)
        count = server.refuse(0)
        again = server.reply(request)
        assert told in (None, NO_MEMORY, wanted) and again == wanted, f"allocation {number} refused: {told}, and then {again}"
        ends.append("closed" if told is None else "told" if told == NO_MEMORY else "answered")
    assert number > 1, "no allocation was counted"
    assert "told" in ends and ends.count("closed") <= MOST_CLOSED, ends
    counts = ", ".join(f"{ends.count(end)} {end}" for end in ("told", "closed"))
    print(f"  serve {kind.__name__}: {number - 1} allocations refused, {counts}", flush=True)


def served_requests(folder: Path) -> None:
    """A request whose allocation is refused is answered, or told so, or closed, and answered when it comes again."""
    server = RefusingServer(folder)
    try:
        for kind in (server.transaction, server.child_before_parent, server.state_ids, server.no_event):
            refuse_each_of_a_request(server, kind)
    finally:
        server.server.stop()
    server.check_files()


def line_lengths(*mistake: object) -> Lines:
    """A small program that answers lines by their lengths, and makes this mistake."""
    program = compiled("line_lengths", "-pie", "-fPIE")
    return Lines("line_lengths", [program, *mistake], b"abc\n\nde fghij klmn\nop\n", b"3\n0\n13\n2\n")


def copies_end_as_runs(folder: Path) -> None:
    """With each of its allocations refused, a copy of a program leaves what a run of its own does."""
    for task in (line_lengths(), line_lengths("other", 8), check_task()):
        count, numbers = numbers_of(task, folder)
        assert count > 0, task.name
        with ThreadPoolExecutor(WORKERS) as pool:
            runs = list(pool.map(lambda number: task.run(FAIL_ALLOC=str(number)), numbers))
        *copies, last = task.copies(numbers)
        assert copies == list(enumerate(runs, 1)) and last == (0, task.run()), task.name
        print(f"  {task.name}: {count} allocations refused in runs of their own", flush=True)


def mistakes_are_told(folder: Path) -> None:
    """A program that goes wrong where one allocation is refused is told, with that one's number, and so is one with threads."""
    count, numbers = numbers_of(line_lengths(), folder)
    hows = {"other": "status 0, ", "quiet": "status 1, b'', ", "crash": "status -6, ", "hang": "no end"}
    with ThreadPoolExecutor(WORKERS) as pool:
        assert not faults_of(line_lengths(), numbers, pool)
        for mistake, how in hows.items():
            for number in (10, count):
                task = line_lengths(mistake, number)
                task.seconds = 1
                faults = faults_of(task, numbers, pool)
                assert len(faults) == 1 and faults[0].startswith(f"allocation {number} refused: {how}"), faults
        faults = faults_of(line_lengths("threads", 0), numbers, pool)
        assert len(faults) == 2 and faults[0].startswith("allocation none") and "status 6" in faults[0], faults


def tests_of_crates(folder: Path) -> None:
    """Each test of a crate whose name ends in or_no_memory passes whichever allocation is refused."""
    tasks = []
    for built in sorted(TOP.glob("crates/*/out/*_tests")):
        if os.access(built, os.X_OK):
            listed = subprocess.run([built, "--list"], stdin=subprocess.DEVNULL, stdout=subprocess.PIPE, text=True)
            names = [line.removesuffix(": test") for line in listed.stdout.split("\n")]
            tasks += [Task(f"{built.name} {name}", [built, name]) for name in names if name.endswith("or_no_memory")]
    if not tasks:
        raise LeftOut("no tests of the crates are built")
    refuse_each(tasks, folder)


def check_task() -> Check:
    """`check` on its example."""
    example = TOP / "crates/mx_federd"
    return Check("check", [program(), "check"], (example / "stdin").read_bytes(), (example / "stdout").read_bytes())


def check_of_an_event(folder: Path) -> None:
    """`check` prints its lines, or only `memory`."""
    refuse_each([check_task()], folder)


def replayed_rows(folder: Path) -> None:
    """`replay` of each row's log prints its answers, ends early with `memory`, or answers one line so."""
    logs = sorted((TOP / "examples/rows").glob("*.jsonl"))
    refuse_each([Replay(log) for log in logs if not log.name.endswith(".answers.jsonl")], folder)


TESTS = [copies_end_as_runs, mistakes_are_told, served_requests, tests_of_crates, check_of_an_event, replayed_rows]

if __name__ == "__main__":
    sys.exit(run_tests(TESTS, "refused allocations"))
