#!/usr/bin/env python3
"""`mx_federd serve` is ended at each write of a file in turn, with what was written until then, or with all or some of what
was not brought to the disk lost, and has its calls on files and on connections fail one at a time. Each time it is started
again, and asked what it had answered, and for what it had not. tests/faults/fail_call.c ends the program and makes the calls
fail; lost_power.py says what a loss of power leaves."""

import contextlib
import json
import os
import random
import shutil
import signal
import sys
import tempfile
import time
from collections.abc import Iterator, Sequence
from pathlib import Path

from suite import TOP, run_tests
from event_logs import Base, Log, quoted, state_path
from exchanges import STORAGE, Exchange, ExchangeOfTwoRooms, LongExchange, OldExchange, rows_in_copy
from lost_power import Loss, bring_all, lose_all, losing_some
from matrix_events import A, ACCEPTED, B, D, canonical, error, event, id_of, message
from program import compiled
from running_server import SECONDS, Refused, Reply, Request, Server, getting, host_line, sending, serving

# An exchange with more writes or more calls on connections than this fails its test.
MOST_CALLS = 1_000


class FailingServer(Server):
    """A server one of whose calls fails, or ends it."""

    def __init__(self, data: Path, on: str, how: str, number: int = 0, hosts: Sequence[bytes] = (),
                 words: Sequence[object] = (), **more: object) -> None:
        self.number, self.count = data.with_suffix(".number"), data.with_suffix(".count")
        variables = {
            "LD_PRELOAD": compiled("fail_call"), "FAIL_CALL_ON": on, "FAIL_CALL_HOW": how, "FAIL_CALL": number,
            "FAIL_CALL_NUMBER": self.number, "FAIL_CALL_COUNT": self.count, **more,
        }
        variables = {name: str(value) for name, value in variables.items()}
        super().__init__(data, *words, hosts=hosts, env={**os.environ, **variables})

    def fail(self, number: int) -> int:
        """From now on the call of this number fails, or none for 0. How many there were since the last time."""
        self.number.write_text(str(number))
        self.count.unlink(missing_ok=True)
        self.process.send_signal(signal.SIGUSR1)
        while not self.count.exists() or not self.count.read_text():
            time.sleep(0.0005)
        return int(self.count.read_text())


@contextlib.contextmanager
def new_directory(folder: Path) -> Iterator[Path]:
    """A directory of a server that is not there yet, and is taken away at the end."""
    with tempfile.TemporaryDirectory(dir=folder) as place:
        yield Path(place) / "data"


def ended_run(data: Path, how: str, number: int, exchange: Exchange, **more: object) -> tuple[dict[str, Reply], bool]:
    """Asks a server that is ended at this write: its replies, and whether it met the write."""
    try:
        server = FailingServer(data, "file", how, number, exchange.hosts, exchange.words, **more)
    except Refused as refused:
        assert refused.args[0] == -signal.SIGKILL, refused.args
        return {}, True
    replies = exchange.ask(server)
    ended = server.process.poll() is not None or len(replies) < len(exchange.sent)
    server.stop()
    return replies, ended


def ended_start(data: Path, how: str, number: int, exchange: Exchange, **more: object) -> bool:
    """Starts a server that is ended at this write, and asks it nothing: whether it met the write."""
    try:
        FailingServer(data, "file", how, number, words=exchange.words, **more).stop()
    except Refused as refused:
        assert refused.args[0] == -signal.SIGKILL, refused.args
        return True
    return False


def check_left(data: Path, exchange: Exchange, replies: dict[str, Reply], number: int) -> None:
    """What was left at this write, which is told where something is wrong."""
    try:
        exchange.check_again(data, replies)
    except Exception as failed:
        failed.add_note("ended at write %d, %d transactions answered" % (number, len(replies)))
        raise


def check_ended_at_each_write(folder: Path, how: str, exchange: Exchange, lose: Loss | None = None) -> int:
    """Counts upwards until no write is met any more: how many there were."""
    more = {"FAIL_CALL_SYNCED": 1} if lose else {}
    for number in range(1, MOST_CALLS):
        with new_directory(folder) as data:
            replies, ended = ended_run(data, how, number, exchange, **more)
            if lose:
                lose(data, number)
            check_left(data, exchange, replies, number)
        if not ended:
            return number - 1
    raise AssertionError("too many writes")


def ended_at_each_write(folder: Path) -> None:
    """The program is ended before each write in turn, from its first start on, in the middle of it, and after it."""
    counts = [check_ended_at_each_write(folder, how, Exchange()) for how in ("stop", "torn", "done")]
    assert min(counts) >= 30, counts
    print("ended at %d writes" % sum(counts))


def ended_at_each_write_of_two_shards(folder: Path) -> None:
    """The program, whose two shards and two books are written side by side, is ended before each write of a file in turn."""
    count = check_ended_at_each_write(folder, "stop", ExchangeOfTwoRooms())
    assert count >= 100, count
    print("ended at %d writes" % count)


def check_ended_starts(folder: Path, whole: Path, exchange: Exchange, replies: dict[str, Reply], how: str,
                       lose: Loss | None = None) -> int:
    """Ends a start over a copy of a directory at each write: how many there were."""
    for number in range(1, MOST_CALLS):
        with new_directory(folder) as data:
            shutil.copytree(whole, data)
            ended = lost_start(data, how, number, exchange, lose) if lose else ended_start(data, how, number, exchange)
            check_left(data, exchange, replies, number)
        if not ended:
            return number - 1
    raise AssertionError("too many writes")


def lost_start(data: Path, how: str, number: int, exchange: Exchange, lose: Loss, **more: object) -> bool:
    """The same as `ended_start`, over files that are on the disk, and what was not brought there until then is lost."""
    bring_all(data)
    ended = ended_start(data, how, number, exchange, FAIL_CALL_SYNCED=1, **more)
    lose(data, number)
    return ended


def ended_at_each_write_of_a_start(folder: Path) -> None:
    """The program is ended at each write of a start over files whose logs have all that was answered, and are copied."""
    exchange, whole = Exchange(), folder / "whole"
    with serving(whole, hosts=exchange.hosts) as server:
        replies = exchange.ask(server)
    counts = [check_ended_starts(folder, whole, exchange, replies, how) for how in ("stop", "torn", "done")]
    assert min(counts) >= 5, counts


def ended_at_each_write_of_a_move(folder: Path) -> None:
    """The program is ended at each write of a start over files of the first layout, in turn. The next start finds the same
    rows, in that layout or in the second one, and answers the same."""
    exchange, whole = OldExchange(), TOP / "examples/layouts/first"
    replies = {txn: exchange.reply_to(txn) for txn in exchange.events}
    counts = [check_ended_starts(folder, whole, exchange, replies, how) for how in ("stop", "torn", "done")]
    assert min(counts) >= 5, counts


def power_lost_at_each_write(folder: Path) -> None:
    """The program is ended before each write in turn, and what was not brought to the disk until then is gone."""
    count = check_ended_at_each_write(folder, "stop", Exchange(), lose_all)
    assert count >= 30, count
    print("power lost at %d writes" % count)


def power_lost_in_part_at_each_write(folder: Path) -> None:
    """The program over two shards is ended behind each write in turn, and some of what was not brought to the disk until then is
    gone, whichever was written first. The same happens to the next start, at some write."""
    exchange, chance, lose_some = ExchangeOfTwoRooms(), random.Random(1), losing_some(1)

    def lose_twice(data: Path, number: int) -> None:
        lose_some(data, number)
        lost_start(data, "done", chance.randrange(1, 150), exchange, lose_some)

    count = check_ended_at_each_write(folder, "done", exchange, lose_twice)
    assert count >= 100, count
    print("power lost in part at %d writes" % count)


def power_lost_in_part_in_a_start(folder: Path) -> None:
    """Some of what was not brought to the disk is gone at each write of a start over files whose logs are copied, and of one over
    files of the first layout."""
    exchange, whole = Exchange(), folder / "whole"
    with serving(whole, hosts=exchange.hosts) as server:
        replies = exchange.ask(server)
    counts = [check_ended_starts(folder, whole, exchange, replies, "done", losing_some(2))]
    old, whole = OldExchange(), TOP / "examples/layouts/first"
    replies = {txn: old.reply_to(txn) for txn in old.events}
    counts.append(check_ended_starts(folder, whole, old, replies, "done", losing_some(3)))
    assert min(counts) >= 20, counts
    print("power lost in part at %d writes" % sum(counts))


def power_lost_in_part_at_a_copy(folder: Path) -> None:
    """The same where a running server copies a log into its file, and writes that log anew: at some writes of the copy, and at
    more of those behind it."""
    exchange, first = LongExchange(), 0
    with new_directory(folder) as data:
        server = FailingServer(data, "file", "stop", 0, exchange.hosts)
        for txn in ("base", "long"):
            first += server.fail(0)
            assert server.ask(*exchange.sent[txn]) == exchange.reply_to(txn), txn
        first += server.fail(0)
        before = (data / "shard-0.db").stat().st_size
        assert server.ask(*exchange.sent["more"]) == exchange.reply_to("more")
        assert before < 100_000 < 3_000_000 < (data / "shard-0.db").stat().st_size, before
        last = first + server.fail(0)
        server.stop()
    numbers = random.Random(4).sample(range(first, last - 50), 8) + list(range(last - 50, last, 2))
    for number in numbers:
        with new_directory(folder) as data:
            replies, _ = ended_run(data, "done", number, exchange, FAIL_CALL_SYNCED=1)
            losing_some(4)(data, number)
            check_left(data, exchange, replies, number)
    print("power lost in part at %d writes" % len(numbers))


def left_out_syncs_are_noticed(folder: Path) -> None:
    """Where calls that bring something to the disk do nothing, and power is lost, these checks fail: of the logs of files, as if
    requests were answered before; of new files, before they have their names; of the directory; and, in a start, of the files
    that logs are copied into."""
    exchange, whole = Exchange(), folder / "whole"
    with serving(whole, hosts=exchange.hosts) as server:
        replies = exchange.ask(server)
    for name in ("-wal", ".new", "/data", ".db"):
        with new_directory(folder) as data:
            if name == ".db":
                shutil.copytree(whole, data)
                lost_start(data, "done", 0, exchange, lose_all, FAIL_CALL_LIES=name)
            else:
                ended_run(data, "done", 0, exchange, FAIL_CALL_SYNCED=1, FAIL_CALL_LIES=name)
                lose_all(data, 0)
            try:
                exchange.check_again(data, replies)
            except (AssertionError, Refused):
                continue
        raise AssertionError(name)


def one_failing_call(folder: Path) -> None:
    """Each write of a file fails in turn. A start that meets it is refused, and works when it comes again. A request that
    meets it is answered by 503; what was answered before stays, and the rest is answered once the program is started
    again."""
    exchange, refused_starts, refused_requests = Exchange(), 0, 0
    for number in range(1, MOST_CALLS):
        data, replies = folder / str(number), {}
        try:
            server = FailingServer(data, "file", "error", number, exchange.hosts)
            replies = exchange.ask(server)
            assert len(replies) == 2, replies
            met = server.fail(0) >= number
            server.stop()
        except Refused as refused:
            status, said = refused.args
            assert status == 1 and said.split(b"\n")[0] in (b"storage", b'{"error":"storage"}'), refused.args
            refused_starts, met = refused_starts + 1, True
        refused_requests += STORAGE in replies.values()
        exchange.check_again(data, replies)
        if not met:
            break
    assert refused_starts >= 5 and refused_requests >= 5, (refused_starts, refused_requests)


def failing_at(folder: Path, name: str, kept: int, shard_answers: bool) -> tuple[Exchange, Path, FailingServer]:
    """A server for which a write of t1 fails, so that t1 is answered by 503, so many of its messages are kept, and the
    shard still answers or does not."""
    exchange = Exchange()
    for number in range(1, MOST_CALLS):
        data = folder / f"{name}{number}"
        server = FailingServer(data, "file", "error", 0, exchange.hosts)
        assert server.ask(*exchange.first) == exchange.reply_to("base")
        before = len(rows_in_copy(data, "shard-0.db", "SELECT place FROM kept2"))
        server.fail(number)
        assert server.ask(*exchange.second) == STORAGE, "no write fails so"
        rows = len(rows_in_copy(data, "shard-0.db", "SELECT place FROM kept2")) - before
        shown = server.ask(*getting("b.example", state_path("state_ids", exchange.base.join_b)))
        if rows == kept and (shown != STORAGE) == shard_answers:
            return exchange, data, server
        server.stop()
    raise AssertionError("too many writes")


def second_message_not_kept(folder: Path) -> None:
    """What keeps the rows fails at t1's second message: t1 is answered by 503, the first message stays kept, and the shard
    answers so to each request until the program is started again. Then t1 is answered, with both."""
    exchange, data, server = failing_at(folder, "second", 1, False)
    for path in (state_path("state_ids", exchange.base.join_b), "v1/event/" + quoted(id_of(exchange.said[0]))):
        assert server.ask(*getting("b.example", path)) == STORAGE, path
    assert server.ask(*sending("b.example", "t2", [])) == (200, b'{"pdus":{}}')
    server.stop()
    with serving(data) as again:
        assert again.ask(*exchange.second) == exchange.reply_to("t1")


def reply_not_kept(folder: Path) -> None:
    """What keeps the replies fails as that to t1 is kept: it is answered by 503. Once the program is started again t1 gets
    both verdicts, of events that are known, and then the same bytes."""
    exchange, data, server = failing_at(folder, "reply", 2, True)
    assert server.ask(*exchange.empty("t1")) == STORAGE
    shown = server.ask(*getting("b.example", "v1/event/" + quoted(id_of(exchange.said[1]))))
    assert json.loads(shown[1])["pdus"] == [exchange.said[1]], shown
    server.stop()
    with serving(data) as again:
        told = again.ask(*exchange.second)
        assert told == exchange.reply_to("t1"), told
        assert again.ask(*exchange.empty("t1")) == told


def reply_not_kept_and_then_denied(folder: Path) -> None:
    """The same, and before t1 comes again another server sends an access list that denies its server: both texts tell
    that, of events that are kept."""
    exchange, data, server = failing_at(folder, "denied", 2, True)
    server.stop()
    base = exchange.base
    content = {"allow": ["*"], "deny": ["b.example"], "allow_ip_literals": True}
    denial = event("m.room.server_acl", A, [exchange.said[1]], base.of_a, content, "")
    with serving(data) as again:
        assert again.ask(*sending("a.example", "acl", [denial])) == (200, canonical({"pdus": {id_of(denial): ACCEPTED}}))
        told = again.ask(*exchange.second)
        assert told == (200, canonical({"pdus": {id_of(made): error("server acl") for made in exchange.said}})), told
        assert again.ask(*exchange.empty("t1")) == told


def later_state_judges_nothing_anew(folder: Path) -> None:
    """A message of a member who is banned beside it is soft failed, so that nothing follows it. The ban is taken back and
    the member joins again. Once the program is started again the room follows that join alone, though by its last state
    the message would be allowed."""
    base = Base(Log())
    said = message(B, [base.join_c], base.of_b, "before")
    ban = event("m.room.member", A, [said], [*base.of_a, base.join_b], {"membership": "ban"}, B)
    late = message(B, [said], base.of_b, "late")
    pardon = event("m.room.member", A, [ban], [*base.of_a, ban], {"membership": "leave"}, B)
    again = event("m.room.member", B, [pardon], [base.create, base.levels, base.rules, pardon], {"membership": "join"}, B)
    events = [base.join_a, base.levels, base.rules, base.join_b, base.join_c, said, ban, late, pardon, again]
    verdicts = 200, canonical({"pdus": {id_of(made): ACCEPTED for made in events}})
    target = f"v1/make_join/{quoted(base.create['room_id'])}/{quoted(D)}?ver=6"
    for txn in ("t1", "t2"):
        with serving(folder / "later", hosts=[host_line(base.create)]) as server:
            assert server.ask(*sending("a.example", txn, events)) == verdicts, txn
            status, told = server.ask(*getting("d.example", target))
            assert status == 200 and json.loads(told)["event"]["prev_events"] == [id_of(again)], (txn, told)


def a_start_without_room(folder: Path) -> None:
    """On a disk that has no room a server starts over its files, though their logs can't be copied. It answers what it has, and
    503 to what it would have to keep; with room again it keeps what comes."""
    exchange, data = Exchange(), folder / "data"
    long = [message(A, [exchange.base.join_c], exchange.base.of_a, "x" * 60_000 + str(number)) for number in range(5)]
    with serving(data, hosts=exchange.hosts) as server:
        assert server.ask(*exchange.first) == exchange.reply_to("base")
        assert server.ask(*sending("a.example", "long", long))[0] == 200
    # So much has to be copied, which makes the file longer.
    assert (data / "shard-0.db-wal").stat().st_size > 300_000 > (data / "shard-0.db").stat().st_size
    server = FailingServer(data, "file", "full")
    assert server.ask(*exchange.empty("base")) == exchange.reply_to("base")
    for made in [*exchange.events["base"], *long]:
        shown = server.ask(*getting("a.example", "v1/event/" + quoted(id_of(made))))
        assert json.loads(shown[1])["pdus"] == [made], shown
    assert server.ask(*exchange.second) == STORAGE
    server.stop()
    with serving(data) as server:
        assert server.ask(*exchange.second) == exchange.reply_to("t1")
        assert server.ask(*exchange.empty("base")) == exchange.reply_to("base")


def sent_in_two_parts(server: Server, request: Request) -> tuple[bool, bytes]:
    """Sends a request, the end of its body by itself: whether its connection was open until then, and what was told."""
    method, target, authorization, body = request
    is_whole, told = False, b""
    with contextlib.suppress(OSError), server.socket() as client:
        lines = [f"{method} {target} HTTP/1.1", "Host: x", f"Authorization: {authorization}", f"Content-Length: {len(body)}"]
        client.sendall("\r\n".join([*lines, "Connection: close", "", ""]).encode() + body[:50])
        client.settimeout(0.05)
        with contextlib.suppress(TimeoutError):
            told = client.recv(65536)
            assert told == b"", told
            raise ConnectionError
        client.settimeout(SECONDS)
        is_whole = True
        client.sendall(body[50:])
        while part := client.recv(65536):
            told += part
    return is_whole, told


def failing_connections(folder: Path) -> None:
    """Each call on a connection fails in turn, in an exchange whose body comes in two parts: the client is answered, or its
    connection is closed. Where it is closed before the second part was sent, nothing was kept. The next client is answered
    each time."""
    exchange = Exchange()
    data = folder / "connections"
    server = FailingServer(data, "socket", "error", 0, exchange.hosts)
    assert server.ask(*exchange.first) == exchange.reply_to("base")
    closed, last, count = 0, exchange.base.join_c, "SELECT place FROM kept2"
    for number in range(1, MOST_CALLS):
        made = message(B, [last], exchange.base.of_b, "m%d" % number)
        txn, wanted = "t%d" % number, (200, canonical({"pdus": {id_of(made): ACCEPTED}}))
        request = sending("b.example", txn, [made])
        rows = len(rows_in_copy(data, "shard-0.db", count))
        server.fail(number)
        is_whole, told = sent_in_two_parts(server, request)
        met = server.fail(0) >= number
        assert is_whole or len(rows_in_copy(data, "shard-0.db", count)) == rows, number
        assert not told or told.endswith(wanted[1]), (number, told)
        closed += not told
        assert server.ask(*request) == wanted, number
        assert server.ask(*sending("b.example", txn, [])) == wanted, number
        last = made
        if not met:
            break
    server.stop()
    assert not met and closed >= 3, (met, closed)


TESTS = [
    ended_at_each_write, ended_at_each_write_of_two_shards, ended_at_each_write_of_a_start, ended_at_each_write_of_a_move,
    power_lost_at_each_write, power_lost_in_part_at_each_write, power_lost_in_part_in_a_start, power_lost_in_part_at_a_copy,
    left_out_syncs_are_noticed, one_failing_call,
    second_message_not_kept, reply_not_kept, reply_not_kept_and_then_denied, later_state_judges_nothing_anew,
    a_start_without_room, failing_connections,
]

if __name__ == "__main__":
    sys.exit(run_tests(TESTS, "stops and faults"))
