#!/usr/bin/env python3
"""The fewest requests to which the program answers otherwise than the model of gate/model.py. It is called by gate/shrinks.py.

usage: gate/shrunk_sessions.py [FAULT]   (by a Python that has hypothesis; over the program in crates/bundled/out/)

hypothesis makes sessions, and when one is answered otherwise it leaves out of it and makes smaller what it can. Prints a line for
each request of what is left, and then what differs; or nothing, if all are answered as the model says. With the name of a fault
the model has that fault.
"""
import contextlib
import functools
import json
import re
import sys
from unittest import mock

sys.dont_write_bytecode = True

from hypothesis import find, settings  # noqa: E402
from hypothesis import strategies as st  # noqa: E402
from hypothesis.errors import NoSuchExample  # noqa: E402

import model  # noqa: E402

# The same sessions at each run, and nothing of them is kept.
SETTINGS = settings(max_examples=300, derandomize=True, database=None, deadline=None)
MOST_REQUESTS, SHARDS = 20, 4
# That of no bundles, and one of none.
DIGESTS = [model.Store().digest(), bytes(model.DIGEST_BYTES)]

# JSON as it is written: names twice in an object, halves of surrogates, and numbers at the limits and in all forms.
LETTERS = ["a", "é", '"', "\\", "\n", "\x01", "\x7f", "\u2028", "\U0001f511", "\ud83d", "\udd11"]
NUMBERS = ["0", "1", "2", "7", str(model.MOST), str(model.MOST + 1), "-1", "-0", "1.5", "7.0", "7e0", "1e-400", "1e400", "07", "+7", "NaN"]
RSA = {"kty": '"RSA"', "use": '"jwt-svid"', "kid": '"k"', "n": '"AQAB"', "e": '"AQAB"', "x5c": '["MAA="]'}
EC = {"kty": '"EC"', "use": '"x509-svid"', "crv": '"P-256"', "x": f'"{"A" * 43}"', "y": f'"{"A" * 43}"', "x5c": '["MAA="]', "kid": '"l"'}


def texts():
    letters = st.lists(st.sampled_from(LETTERS), max_size=3).map("".join)
    return st.builds(json.dumps, letters, ensure_ascii=st.booleans())


def objects(members):
    return members.map(lambda some: "{" + ",".join(f'"{name}":{value}' for name, value in some) + "}")


def arrays(values):
    return values.map(lambda some: f"[{','.join(some)}]")


def inside(values):
    names = st.sampled_from(["keys", "kid", "x"])
    return arrays(st.lists(values, max_size=2)) | objects(st.lists(st.tuples(names, values), max_size=3))


VALUES = st.recursive(st.sampled_from(["null", "true", *NUMBERS, '"RSA"', '"AQAB"', '["MAA="]']) | texts(), inside, max_leaves=4)


def mostly(strategy, other):
    """Nine of ten are of the first. (What hypothesis makes smaller, it takes from the first.)"""
    return st.sampled_from(range(10)).flatmap(lambda it: other if it == 9 else strategy)


@st.composite
def with_changes(draw, members):
    """An object of these members, of which some are left out, and in which others stand besides, also of the same names."""
    some = list(draw(members).items())
    for _ in range(draw(mostly(st.just(0), st.integers(1, 3)))):
        place = draw(st.integers(0, len(some)))
        if place < len(some) and draw(st.booleans()):
            del some[place]
        else:
            names = [*(name for name, _ in some), "keys", "kid", "spiffe_sequence", "other"]
            some.insert(place, (draw(st.sampled_from(names)), draw(VALUES)))
    return draw(objects(st.just(some)))


def entries():
    others = [{**RSA, "use": '"x509-svid"'}, {**RSA, "n": '"Aw"'}, {**RSA, "kid": '"l"'}, EC, {**EC, "use": '"jwt-svid"'}]
    return with_changes(st.sampled_from([RSA, *others]))


def documents():
    keys = st.just("[]") | arrays(st.lists(mostly(entries(), VALUES), max_size=2))
    numbers = mostly(st.sampled_from(NUMBERS[:5]), VALUES)
    members = st.fixed_dictionaries({"keys": mostly(keys, VALUES)}, optional={"spiffe_sequence": numbers, "spiffe_refresh_hint": numbers})
    return mostly(with_changes(members), VALUES)


def payloads():
    """The payload of a request, mostly of one that can be done."""
    named = mostly(st.sampled_from([b"\1a", b"\1a", b"\1b"]), st.sampled_from([b"\0", b"\1A", b"\2a"]))
    text = lambda it: it.encode(errors="surrogatepass")
    expected = mostly(st.sampled_from([b"\0", b"\2", *map(model.told, (0, 1, 2, 7))]), st.sampled_from([b"\3", b"\1"]))
    request = lambda letter, *rest: st.tuples(st.just(letter), named, *rest).map(b"".join)
    sets = request(b"S", documents().map(text))
    others = st.one_of(request(b"R"), request(b"G"), request(b"A", entries().map(text)), request(b"C", expected, documents().map(text)))
    whole = st.sampled_from([b"F", b"V\2", b"V\3", b"V\1", *(b"U" + it for it in DIGESTS), b"V\4", b"Fx", b"U", b"M", b"Mx", b"Z", b"S"])
    return mostly(st.sampled_from([sets, sets, others]).flatmap(lambda it: it), whole)


# Faults of a model, by what is put in the place of what.

ASKED = model.Store.asked


def without_tombstones(store, *words):
    """What a store answers that keeps nothing of a removed bundle."""
    store.tombstones.clear()
    return ASKED(store, *words)


# (a dict keeps the last)
with_the_first = functools.partial(json.loads, object_pairs_hook=lambda pairs: dict(reversed(pairs)))

FAULTS = {
    "tombstones": mock.patch.object(model.Store, "asked", without_tombstones),
    "members": mock.patch.object(json, "loads", with_the_first),
    "surrogates": mock.patch.object(model, "ESCAPE", re.compile("(?!)")),
}


def difference(session):
    """What is answered otherwise than the model says, or nothing."""
    try:
        model.compared(SHARDS, session, set())
    except AssertionError as error:
        return str(error)
    return ""


def shrunk():
    """A session that is answered otherwise, with as few requests as can be, or none."""
    try:
        session = find(st.lists(payloads(), min_size=1, max_size=MOST_REQUESTS), lambda it: bool(difference(it)), settings=SETTINGS)
    except NoSuchExample:
        return []
    # (hypothesis gives up after a while)
    for place in reversed(range(len(session))):
        fewer = session[:place] + session[place + 1:]
        session = fewer if difference(fewer) else session
    return session


def main(words):
    with FAULTS[words[0]] if words else contextlib.nullcontext():
        session = shrunk()
        if session:
            print(*map(repr, session), difference(session), sep="\n")


if __name__ == "__main__":
    main(sys.argv[1:])
