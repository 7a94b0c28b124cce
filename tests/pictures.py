#!/usr/bin/env python3
"""Tests the picture that `mx_federd audit --dot` writes of a room whose types mean harm: its labels, and what Graphviz draws of
it. Without Graphviz the second is left out."""

import functools
import shutil
import subprocess
import sys
from xml.etree import ElementTree

from suite import LeftOut, run_tests
from event_logs import Base, Log
from matrix_events import A, ACCEPTED, ROOM, Event, event, id_of
from program import run

ODD = [
    "m.room.mes&#115;age", "&#1;", "a\uffffb\ufffec", "\uffff\uffff", "\u0001\t\u001f", 'a"b\\\\n', "</text>", "\uffee\ufffd",
    "&amp;&lt;", "\uffff",
]


def shown(text: str) -> str:
    """A text as a label shows it: a space stands for what XML has no place for."""
    return "".join(" " if ord(it) < 32 or it in "\ufffe\uffff" else it for it in text)


@functools.cache
def picture() -> tuple[list[Event], bytes]:
    """The events of those types, and the picture of their room."""
    log = Log()
    base = Base(log)
    made = [event(kind, A, [base.join_c], base.of_a, {}) for kind in ODD]
    log.transaction("a.example", "odd", *((it, ACCEPTED) for it in made))
    status, drawn, err = run("audit", "--name", "hub.example", "--room", ROOM, "--dot", source=log.text())
    assert status == 0 and drawn is not None, err
    return made, drawn


def box(number: int, made: Event) -> str:
    """The line of the picture for the event of this number."""
    label = shown(made["type"]).replace("&", "&amp;").replace("\\", "\\\\").replace('"', '\\"')
    return f'  e{number} [label="{label}\\n{A}\\n{id_of(made)[:9]}", fillcolor="#d5e8d4", peripheries=2];'


def labels_of_a_picture() -> None:
    """Each event has its box, whose label has the type with what means harm in it escaped."""
    made, drawn = picture()
    lines = drawn.decode().split("\n")
    lacking = [box(6 + at, it) for at, it in enumerate(made) if box(6 + at, it) not in lines]
    assert not lacking, lacking


def drawn_by_graphviz() -> None:
    """Graphviz draws the picture, the drawing is XML, and each label stands in it."""
    if shutil.which("dot") is None:
        raise LeftOut("there is no Graphviz")
    made, drawn = picture()
    svg = subprocess.run(["dot", "-Tsvg"], input=drawn, stdout=subprocess.PIPE, timeout=60, check=True).stdout
    said = [it.text.replace("\u00a0", " ") for it in ElementTree.fromstring(svg).iter("{http://www.w3.org/2000/svg}text")]
    lacking = [it["type"] for it in made if shown(it["type"]) not in said]
    assert not lacking, lacking


TESTS = [labels_of_a_picture, drawn_by_graphviz]

if __name__ == "__main__":
    sys.exit(run_tests(TESTS, "pictures"))
