"""Tests of the front: requests and their events."""

import json

from front_servers import (
    FEDERATION, KEYS, NO_REPLY, OTHER, SIGNATURE, World, a_message, accepted, authorization, in_a_world, is_refused,
    is_unsigned, signature_of, told,
)
from event_logs import NAME, quoted
from matrix_events import B, canonical, content_hash, id_of, join
from running_server import Server, host_line
from signedjson.key import generate_signing_key

# ---- requests

@in_a_world
def good_transaction(world: World) -> None:
    """The hub's reply comes back byte for byte; a number that is sent again has the same one."""
    world.fill()
    made = a_message(world)
    assert world.send("t1", [made]) == (200, accepted([made]))
    assert world.send("t1", []) == (200, accepted([made]))
    assert world.at_hub("PUT", FEDERATION + "v1/send/t1", "a.example", b'{"pdus":[]}') == (200, accepted([made]))
    path = FEDERATION + "v1/event/" + quoted(id_of(made))
    assert told(world.ask("GET", path, "b.example"))[1]["pdus"] == [made]
    query = FEDERATION + "v1/state_ids/%s?event_id=%s" % (quoted(made["room_id"]), quoted(id_of(made)))
    assert world.ask("GET", query, "b.example") == world.at_hub("GET", query, "b.example")
    assert world.ask("GET", path + "x", "b.example") == world.at_hub("GET", path + "x", "b.example")


@in_a_world
def wrong_key(world: World) -> None:
    """A request that another key signed, or one that its server does not have, is refused, and that is said on standard error."""
    world.fill()
    assert is_unsigned(world.send("t1", [], key=OTHER), "Unable to verify")
    assert is_unsigned(world.send("t1", [], key=KEYS["b.example"]))
    assert is_unsigned(world.send("t1", [], key=generate_signing_key("2")), "no key ed25519:2")
    assert world.send("t1", [])[0] == 200
    world.front.wait_for_line("send/t1")


@in_a_world
def another_destination(world: World) -> None:
    """Signed for another server: refused where the header says so, and where it lies about it."""
    content = {"pdus": []}
    target = FEDERATION + "v1/send/t1"
    assert is_unsigned(world.ask("PUT", target, "a.example", content, destination="b.example"), "wrong destination")
    header = authorization("PUT", target, "a.example", content, KEYS["a.example"], destination="b.example")
    lie = header.replace('destination="b.example"', 'destination="%s"' % NAME)
    assert is_unsigned(world.raw("PUT", target, [("Authorization", lie)], canonical(content)))
    assert is_unsigned(world.raw("PUT", target, [("Authorization", header.replace(',destination="b.example"', ""))],
                                 canonical(content)))


@in_a_world
def changed_on_its_way(world: World) -> None:
    """A body, a path, a query or a method that is not the signed one."""
    world.fill()
    target, content = FEDERATION + "v1/send/t1", {"pdus": [a_message(world)]}
    header = [("Authorization", authorization("PUT", target, "a.example", content, KEYS["a.example"]))]
    assert is_unsigned(world.raw("PUT", target, header, canonical({"pdus": [a_message(world, "other")]})))
    assert is_unsigned(world.raw("PUT", target, header, b""))
    assert is_unsigned(world.raw("PUT", target + "0", header, canonical(content)))
    assert is_unsigned(world.raw("PUT", target + "?x", header, canonical(content)))
    assert is_unsigned(world.raw("POST", target, header, canonical(content)))
    path = FEDERATION + "v1/event/" + quoted(id_of(world.base.create))
    header = [("Authorization", authorization("GET", path, "a.example", None, KEYS["a.example"]))]
    assert world.raw("GET", path, header)[0] == 200
    assert is_unsigned(world.raw("GET", path, header, b"{}"))
    spaced = json.dumps(content, indent=3).encode()
    assert world.ask("PUT", target, "a.example", content, text=spaced) == (200, accepted(content["pdus"]))


@in_a_world
def bodies_that_readers_differ_on(world: World) -> None:
    """Keys that stand twice, numbers and texts with no canonical form, encodings: nothing that the signature is not of."""
    world.fill()
    for text in (b'{"pdus":[],"pdus":[]}', b'{"pdus":[],"x":NaN}', b'{"pdus":[],"x":1e999}', b'{"pdus":[],"x":"\\ud800"}',
                 b'{"pdus":[],"x":"\xff"}', b"\xef\xbb\xbf{}", "{}".encode("utf-16"), b"[" * 100_000, b"{", b'"\x01"',
                 b'{"pdus":[],"x":' + b"9" * 5000 + b"}"):
        assert is_refused(world.ask("PUT", FEDERATION + "v1/send/t1", "a.example", {"pdus": []}, text=text), 400, "M_NOT_JSON")
    large = {"pdus": [], "x": 2 ** 60}
    assert world.ask("PUT", FEDERATION + "v1/send/t2", "a.example", large) == (200, b'{"pdus":{}}')
    float_in_event = {**a_message(world), "depth": 1.5}
    assert world.send("t3", [float_in_event, 7, a_message(world)]) == (200, accepted([a_message(world)]))
    assert is_refused(world.send("t4", [a_message(world, str(it)) for it in range(51)]), 400, "M_BAD_JSON")
    assert is_refused(world.ask("PUT", FEDERATION + "v1/send/t4", "a.example", {"pdus": 3}), 400, "M_BAD_JSON")
    assert is_refused(world.ask("PUT", FEDERATION + "v1/send/t4", "a.example", [1]), 400, "M_BAD_JSON")
    over = b" " * (8 * 1024 * 1024) + b"{}"
    assert is_refused(world.ask("PUT", FEDERATION + "v1/send/t4", "a.example", {}, text=over), 413, "M_TOO_LARGE")


@in_a_world
def spellings_of_the_header(world: World) -> None:
    """The forms that the specification allows, and those that it does not."""
    path = FEDERATION + "v1/event/$x"
    header = authorization("GET", path, "a.example", None, KEYS["a.example"])
    named = dict(it.split("=", 1) for it in header.removeprefix("X-Matrix ").split(","))
    named = {name: it.strip('"') for name, it in named.items()}
    form = "origin=%(origin)s,destination=%(destination)s,key=%(key)s,sig=%(sig)s" % named
    good = [header, "x-matrix " + form, "X-Matrix   " + form.replace(",", " , ").replace("=", "=", 1),
            header.replace("origin=", "Origin = "), header + ',more="a,b"', header + ",",
            header.replace('"a.example"', '"a\\.example"'), header.replace(',destination="%s"' % NAME, "")]
    for it in good:
        assert world.raw("GET", path, [("Authorization", it)])[0] == 404, it
    bad = ["", "X-Matrix", "Bearer x", "X-Matrix " + form.replace("a.example", "b.example"), "Basic " + form,
           header + ',origin="b.example"', 'X-Matrix origin="b.example",' + form, header.replace('"a.example"', '"a.example'),
           header.replace('"a.example"', '"a.example\\""'), header.replace("ed25519:1", "ed25519:"), header + " x",
           header.replace('"a.example"', '"a.example:x"'), header.replace('sig="', 'sig="A')]
    for it in bad:
        assert is_unsigned(world.raw("GET", path, [("Authorization", it)])), it
    assert is_unsigned(world.raw("GET", path)), "no header"


@in_a_world
def forged_headers(world: World) -> None:
    """The origin that the hub is told is the one whose signature was checked, whatever else the request has."""
    world.fill()
    path = FEDERATION + "v1/event/" + quoted(id_of(world.base.create))
    good = authorization("GET", path, "a.example", None, KEYS["a.example"])
    forged = good.replace("a.example", "b.example")
    for headers in ([forged, good], [good, forged]):
        assert is_unsigned(world.raw("GET", path, [("Authorization", it) for it in headers]), "two origins")
    second = good.replace('key="ed25519:1"', 'key="ed25519:2"')
    assert world.raw("GET", path, [("Authorization", second), ("Authorization", good)])[0] == 200
    assert is_unsigned(world.raw("GET", path, [("Authorization", good)] * 5))
    own = authorization("GET", path, NAME, None, OTHER)
    assert is_unsigned(world.raw("GET", path, [("Authorization", own)]))
    content = {"origin": "b.example", "pdus": [a_message(world)]}
    target = FEDERATION + "v1/send/t1?origin=b.example"
    assert world.ask("PUT", target, "a.example", content) == (200, accepted(content["pdus"]))
    at_hub = [world.at_hub("PUT", FEDERATION + "v1/send/t1", it, b'{"pdus":[]}')[1] for it in ("a.example", "b.example")]
    assert at_hub == [accepted(content["pdus"]), b'{"pdus":{}}'], at_hub


@in_a_world
def targets_of_other_forms(world: World) -> None:
    """A target reaches the hub as it was signed or not at all, and events come by no path but the two."""
    for target in ("/_matrix/federation/v1/event/$x#y", "/_matrix/federation/v1/event/$x?"):
        assert is_refused(world.ask("GET", target, "a.example"), 400, "M_INVALID_PARAM"), target
    for target in ("/_matrix/federation/v1/%73end/t1", "/_matrix/federation/v1/send/t1/", "/_matrix/federation/v1/send/",
                   "/_matrix/federation/v2/send_join/x", "/_matrix/federation/v1/../v1/send/t1", "/x"):
        assert is_refused(world.ask("PUT", target, "a.example", {"pdus": []}), 404, "M_UNRECOGNIZED"), target
        world.front.wait_for_line("PUT %s: unknown path" % target)
    for target in ("http://x/_matrix/federation/v1/event/$x", "/_matrix/client/versions", "*"):
        assert is_refused(world.ask("GET", target, "a.example"), 404, "M_UNRECOGNIZED"), target
    path = "/_matrix/federation/v1/event/%2Fa%2f%21"
    assert world.ask("GET", path, "a.example") == world.at_hub("GET", path, "a.example")
    assert world.ask("DELETE", path, "a.example") == world.at_hub("DELETE", path, "a.example")
    for target in ("/_matrix/federation/v1/make_join/%21no%3Aa.example/%40b%3Ab.example?ver=6&ver=7", "/_matrix/federation/x"):
        assert world.ask("GET", target, "b.example") == world.at_hub("GET", target, "b.example")


@in_a_world
def hub_that_is_down(world: World) -> None:
    """Status 502, and the same request is answered once the hub is there again."""
    world.fill()
    made = a_message(world)
    port = world.hub.port
    world.hub.stop()
    assert world.send("t1", [made]) == NO_REPLY
    world.front.wait_for_line("server behind")
    world.hub = Server(world.folder / "hub", port=port, hosts=[host_line(world.base.create)])
    assert world.send("t1", [made]) == (200, accepted([made]))


# ---- events

@in_a_world
def forged_event_among_good_ones(world: World) -> None:
    """Events whose signature is of another key, another server or none are refused by name, and the others of the transaction kept."""
    world.fill()
    good = [a_message(world, str(it)) for it in range(3)]
    by_other = {**good[0], "content": {"body": "forged"}}
    by_other["hashes"] = {"sha256": content_hash(by_other)}
    by_other["signatures"] = {"a.example": {"ed25519:1": signature_of(by_other, "a.example", OTHER)}}
    other_server = {**a_message(world, "of b"), "sender": B}
    other_server = {**other_server, "hashes": {"sha256": content_hash(other_server)}}
    other_server["signatures"] = {"b.example": {"ed25519:1": signature_of(other_server, "b.example", KEYS["a.example"])},
                                  "a.example": {"ed25519:1": signature_of(other_server, "a.example", KEYS["a.example"])}}
    unsigned = {**a_message(world, "none"), "signatures": {}}
    odd = {**a_message(world, "odd"), "signatures": {"a.example": ["ed25519:1"]}}
    unknown = {**a_message(world, "key"), "signatures": {"a.example": {"ed25519:9": "AAAA", "rsa:1": "A"}}}
    bad = [by_other, other_server, unsigned, odd, unknown]
    wanted = {**{id_of(it): {} for it in good}, **{id_of(it): SIGNATURE for it in bad}}
    assert told(world.send("t1", [good[0], *bad, *good[1:]])) == (200, {"pdus": wanted})
    altered = {**a_message(world, "said"), "content": {"body": "never said"}}
    assert world.send("t2", [altered]) == (200, accepted([altered])), "a signature is over the redacted form"
    shown = told(world.ask("GET", FEDERATION + "v1/event/" + quoted(id_of(altered)), "b.example"))[1]["pdus"]
    assert shown == [{**altered, "content": {}}], shown


@in_a_world
def forged_join(world: World) -> None:
    """A join whose signature does not hold is refused, and the same one with a true signature accepted."""
    world.fill()
    user = "@b2:b.example"
    made = join(user, [world.base.join_b], [world.base.create, world.base.levels, world.base.rules])
    path = FEDERATION + "v2/send_join/%s/%s" % (quoted(made["room_id"]), quoted(id_of(made)))
    bad = {**made, "signatures": {"b.example": {"ed25519:1": signature_of(made, "b.example", OTHER)}}}
    assert told(world.ask("PUT", path, "b.example", bad)) == (403, {"errcode": "M_FORBIDDEN", "error": "signature"})
    assert world.ask("PUT", path, "b.example", made)[0] == 200


TESTS = [
    good_transaction, wrong_key, another_destination, changed_on_its_way, bodies_that_readers_differ_on,
    spellings_of_the_header, forged_headers, targets_of_other_forms, hub_that_is_down, forged_event_among_good_ones,
    forged_join,
]
