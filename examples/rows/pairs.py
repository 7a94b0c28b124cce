#!/usr/bin/env python3
"""Prints the worked rows as pairs of an event and its answer, one JSON object a line: `examples/rows/pairs.py [ROW..]`.

`by` says how the event came: `host` (its room's first event), `next` (a step of a transaction), `send` (a request of a
transaction) or `send_join`. `answer` is what the log has to be answered for it. Malformed events, which have no entry in an
answer, are no pairs. The last line, on standard error, counts them."""

import json
import sys
from collections import Counter
from collections.abc import Iterator
from pathlib import Path
from typing import Any

FOLDER = Path(__file__).resolve().parent
sys.path.insert(0, str(FOLDER.parent.parent / "tests"))
sys.dont_write_bytecode = True
from matrix_events import canonical, id_of  # noqa: E402

Event = dict[str, Any]
Pair = tuple[str, Event, Any]


def by_id(events: Any) -> dict[str, Event]:
    """The events that have an id, by it; of several texts with one id the last."""
    found = {}
    for event in events if isinstance(events, list) else []:
        try:
            found[id_of(event)] = event
        except (AttributeError, KeyError, TypeError):
            continue
    return found


def read(line: bytes) -> dict[str, Any]:
    """A line as an object; an empty one where it is none."""
    try:
        value = json.loads(line)
    except ValueError:
        return {}
    return value if isinstance(value, dict) else {}


def request_pairs(line: dict[str, Any], answer: dict[str, Any]) -> Iterator[Pair]:
    """The pairs of a request that brings events."""
    target, told = line.get("target", ""), answer.get("body", {})
    body = read(line.get("body", "").encode())
    if "/v1/send/" in target:
        yield from (("send", event, told["pdus"][name]) for name, event in by_id(body.get("pdus")).items() if name in told.get("pdus", {}))
    elif "/send_join/" in target:
        yield from (("send_join", event, {} if answer["status"] == 200 else told) for event in by_id([body]).values())


def pairs(log: Path) -> Iterator[Pair]:
    """The pairs of a log, in the order of its lines."""
    opened: dict[Any, dict[str, Event]] = {}
    answers = log.with_name(log.stem + ".answers.jsonl")
    for line, answer in zip(map(read, log.read_bytes().split(b"\n")), map(read, answers.read_bytes().splitlines())):
        key = line.get("origin"), line.get("txn")
        if line.get("step") == "host":
            yield from (("host", event, answer) for event in by_id([line.get("event")]).values())
        elif "open" in answer:
            opened[key] = by_id(line["pdus"])
        elif "reply" in answer:
            yield "next", opened[key][answer["id"]], answer["reply"]
        elif "status" in answer:
            yield from request_pairs(line, answer)


def main() -> None:
    """Prints the pairs of the rows that are named, or of all."""
    counts: Counter[str] = Counter()
    logs = [it for it in sorted(FOLDER.glob("*.jsonl")) if not it.name.endswith(".answers.jsonl")]
    for log in logs:
        if len(sys.argv) > 1 and log.stem not in sys.argv[1:]:
            continue
        for by, event, answer in pairs(log):
            counts[by] += 1
            sys.stdout.buffer.write(canonical({"row": log.stem, "by": by, "event_id": id_of(event), "event": event, "answer": answer}) + b"\n")
    print(f"{sum(counts.values())} pairs: " + ", ".join(f"{count} by {by}" for by, count in sorted(counts.items())), file=sys.stderr)


if __name__ == "__main__":
    main()
