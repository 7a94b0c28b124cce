"""JSON as it is taken from other servers, server names, and the lines on standard error."""
import contextlib
import json
import re
import sys
from typing import Any

from canonicaljson import encode_canonical_json

Json = dict[str, Any]
SERVER_NAME = re.compile(r"(?P<host>\[[0-9A-Fa-f:.]{2,45}\]|[A-Za-z0-9.-]{1,230})(?::(?P<port>[0-9]{1,5}))?")


def say(line: str) -> None:
    """Tells the operator, in one line, of something that was refused or given up. That nobody takes it does no harm."""
    shown = "".join(it if it.isprintable() else "?" for it in line[:500])
    with contextlib.suppress(OSError):
        print(shown.encode("ascii", "backslashreplace").decode(), file=sys.stderr, flush=True)


def read_json(text: bytes) -> Any:
    """The value of a text. ValueError where it is not UTF-8 or not JSON, has a key twice, or has no canonical form."""
    try:
        value = json.loads(text.decode("utf-8"), object_pairs_hook=_object, parse_constant=_refuse)
        encode_canonical_json(value)
    except RecursionError:
        raise ValueError("nested too deep") from None
    return value


def read_object(text: bytes) -> Json:
    value = read_json(text)
    if not isinstance(value, dict):
        raise ValueError("not an object")
    return value


def is_server_name(name: object) -> bool:
    return isinstance(name, str) and SERVER_NAME.fullmatch(name) is not None


def server_of(user: object) -> str:
    """The server of a user ID, or of a room ID; ValueError where it has none."""
    server = user.partition(":")[2] if isinstance(user, str) else ""
    if not is_server_name(server):
        raise ValueError("no server in %r" % (user,))
    return server


def _object(pairs: list[tuple[str, Any]]) -> Json:
    made = dict(pairs)
    if len(made) != len(pairs):
        raise ValueError("a key stands twice")
    return made


def _refuse(word: str) -> None:
    raise ValueError(word + " is no number")
