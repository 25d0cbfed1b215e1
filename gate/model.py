#!/usr/bin/env python3
"""A model of the store in Python, made of docs/FORMATS.md alone, and random sessions each of whose replies it foretells.

usage: gate/model.py           the sessions of the gate (over the program that rt ci or rt run has built in crates/bundled/out/)
       gate/model.py SEED..    others

The proof says that a session answers as the definition says. Here a second reading of the same page says the same.
"""
import base64
import functools
import hashlib
import json
import math
import random
import re
import sys

sys.dont_write_bytecode = True

from checks import frame, replies_of, run_checks, run_words  # noqa: E402

SECONDS = 300
SEEDS = [1, 2, 3, 4]
REQUESTS = 6000
MOST = 2**64 - 1
MOST_TEXT, MOST_AUTHORITIES, MOST_NESTING = 1_048_576, 1024, 127
DIGEST_BYTES = 32
NAME = set(b"abcdefghijklmnopqrstuvwxyz0123456789.-_")
COORDINATE = {"P-256": 32, "P-384": 48, "P-521": 66}
# The answers that the sessions of the gate have to show, so that nothing is left out: all that a session can give but 22.
WANTED = {*b"supdfaevm", 1, 3, *range(10, 22), 23, 30, 31, 32, 33, 34, 35, 36, 51}


class Refused(Exception):
    """A refusal: its number, and its numbers as they stand in the frame."""

    def __init__(self, number, *places):
        super().__init__(number)
        self.payload = bytes([number]) + b"".join(it.to_bytes(4, "big") if isinstance(it, int) else it for it in places)


# Documents

# A pair of surrogates, each in an escape; half of one, which has a group; any other escape.
ESCAPE = re.compile(r"\\u[dD][89abAB]..\\u[dD][c-fC-F]..|(\\u[dD][89a-fA-F]..)|\\.")


def not_json(text):
    raise ValueError(text)


def double(text):
    value = float(text)
    return not_json(text) if math.isinf(value) else value


def whole(text):
    """A number without a fraction or an exponent: a whole number if it is in digits only, or is less than 0."""
    value = double(text)
    return value if text == "-0" else int(text)


def tree_of(text):
    """The tree of a JSON text. (Python's reader takes some more for JSON.)"""
    tree = json.loads(text, parse_constant=not_json, parse_float=double, parse_int=whole)
    return not_json(text) if any(it[1] for it in ESCAPE.finditer(text)) else tree


def nesting(value):
    inside = value.values() if isinstance(value, dict) else value if isinstance(value, list) else []
    return isinstance(value, (dict, list)) + max(map(nesting, inside), default=0)


def parsed(text):
    """The tree of a document or of a JWK."""
    if len(text) > MOST_TEXT:
        raise Refused(10)
    try:
        tree = tree_of(text.decode())
    except (ValueError, RecursionError):
        raise Refused(11) from None
    if nesting(tree) > MOST_NESTING:
        raise Refused(11)
    return tree


def number(value, refusal):
    if value is None or type(value) is int and 0 <= value <= MOST:
        return value
    raise Refused(refusal)


def decoded(text, alphabet, is_padded):
    """The bytes of a text of strict base64, or None."""
    if not isinstance(text, str) or not set(text.rstrip("=") if is_padded else text) <= set(alphabet):
        return None
    plain = text.rstrip("=").translate(str.maketrans("-_", "+/"))
    try:
        data = base64.b64decode(plain + "=" * (-len(plain) % 4), validate=True)
    except ValueError:
        return None
    again = base64.b64encode(data).decode()
    return data if (again if is_padded else again.rstrip("=")) == text.translate(str.maketrans("-_", "+/")) else None


LETTERS = "ABCDEFGHIJKLMNOPQRSTUVWXYZabcdefghijklmnopqrstuvwxyz0123456789"


def has_member(entry, member, sizes):
    data = decoded(entry.get(member), LETTERS + "-_", False)
    return data is not None and len(data) in sizes


def authority(entry, place):
    """The members of an entry that are kept, or None if it is ignored."""
    if not isinstance(entry, dict):
        raise Refused(16, place)
    kind, use = entry.get("kty"), entry.get("use")
    if kind not in ("EC", "RSA") or use not in ("x509-svid", "jwt-svid"):
        return None
    if kind == "EC":
        curve = entry.get("crv")
        if isinstance(curve, str) and curve not in COORDINATE:
            return None
        members = {"x": [COORDINATE.get(curve)], "y": [COORDINATE.get(curve)]} if isinstance(curve, str) else {"x": []}
    else:
        members = {"n": range(1, 1025), "e": range(1, 1025)}
    if not all(has_member(entry, member, sizes) for member, sizes in members.items()):
        raise Refused(17, place)
    kept = {it: entry[it] for it in ("kty", "use", *(["crv"] if kind == "EC" else []), *members)}
    if use == "x509-svid":
        chain = entry.get("x5c")
        if not isinstance(chain, list) or len(chain) != 1 or not decoded(chain[0], LETTERS + "+/", True):
            raise Refused(18, place)
        return {**kept, "x5c": chain}
    key_id = entry.get("kid")
    if not isinstance(key_id, str) or not 1 <= len(key_id.encode()) <= 255:
        raise Refused(19, place)
    return {**kept, "kid": key_id}


def takes_key_id(authorities, new):
    """Whether another key has its `kid` already."""
    return any(it.get("kid") == new.get("kid") and it != new for it in authorities if "kid" in it)


def bundle(text):
    """The bundle of a document."""
    tree = parsed(text)
    if not isinstance(tree, dict):
        raise Refused(12)
    if not isinstance(tree.get("keys"), list):
        raise Refused(13)
    found = {"keys": []}
    for member, refusal in (("spiffe_sequence", 14), ("spiffe_refresh_hint", 15)):
        if number(tree.get(member), refusal) is not None:
            found[member] = tree[member]
    for place, entry in enumerate(tree["keys"]):
        new = authority(entry, place)
        if new is None or new in found["keys"]:
            continue
        if takes_key_id(found["keys"], new):
            raise Refused(20, place)
        if len(found["keys"]) == MOST_AUTHORITIES:
            raise Refused(21)
        found["keys"].append(new)
    if len(canonical(found)) > MOST_TEXT:
        raise Refused(10)
    return found


def canonical(found):
    return json.dumps(found, sort_keys=True, separators=(",", ":"), ensure_ascii=False).encode()


# The store

def told(sequence):
    return b"\0" if sequence is None else b"\1" + sequence.to_bytes(8, "big")


class Store:
    """What a session answers."""

    def __init__(self, version=1):
        # A bundle by each name that has one, and the sequence of a removed one by each name that has had one.
        self.bundles, self.tombstones, self.version = {}, {}, version

    def answer(self, payload):
        """The payloads of a reply."""
        try:
            return self.read(payload)
        except Refused as refused:
            return [refused.payload]

    def read(self, payload):
        letter, rest = payload[:1], payload[1:]
        if letter == b"F" and not rest:
            return self.all()
        if letter == b"U" and self.version == 3 and len(rest) == DIGEST_BYTES:
            return [b"e"] if rest == self.digest() else self.all()
        if payload == b"M" and self.version == 3:
            # (one session by itself counts nothing)
            return [b"m"]
        if letter == b"V" and rest in (b"\1", b"\2", b"\3"):
            self.version = rest[0]
            return [b"v" + rest]
        size = 1 + rest[0] if rest else 0
        name, rest = rest[1:size], rest[size:]
        is_named = size > 0 and len(name) == size - 1
        if letter not in b"SARGC" or not letter or not is_named or letter in b"RG" and rest or letter == b"C" and self.version == 1:
            raise Refused(51)
        expected, rest = self.expectation(rest) if letter == b"C" else (None, rest)
        if not name:
            raise Refused(1)
        if not set(name) <= NAME:
            raise Refused(3, next(at for at, byte in enumerate(name) if byte not in NAME))
        return [self.asked(letter, name, expected, rest)]

    def all(self):
        """The payloads of a reply to a fetch-all."""
        items = sorted((name, canonical(it)) for name, it in self.bundles.items())
        return [b"a" + len(items).to_bytes(8, "big"), *(b"i" + bytes([len(name)]) + name + text for name, text in items)]

    def digest(self):
        """The SHA-256 of all bytes of that reply."""
        return hashlib.sha256(b"".join(map(frame, self.all()))).digest()

    def expectation(self, rest):
        size = {0: 1, 1: 9, 2: 1}.get(rest[0] if rest else -1, 0)
        if not size or len(rest) < size:
            raise Refused(51)
        return rest[:size], rest[size:]

    def asked(self, letter, name, expected, text):
        if letter in b"SC":
            return self.set(name, expected, bundle(text))
        if letter == b"A":
            new = authority(parsed(text), 0)
            if new is None:
                raise Refused(23)
            return self.append(name, new)
        if name not in self.bundles:
            raise Refused(30)
        if letter == b"G":
            return b"f" + canonical(self.bundles[name])
        removed = self.bundles.pop(name)
        if "spiffe_sequence" in removed:
            self.tombstones[name] = removed["spiffe_sequence"]
        return b"d"

    def set(self, name, expected, new):
        held = self.bundles.get(name)
        fits = b"\0" if held is None else told(held["spiffe_sequence"]) if "spiffe_sequence" in held else b"\2"
        if expected not in (None, fits):
            raise Refused(36, fits)
        if new == held:
            return b"u"
        before = self.tombstones.get(name) if held is None else held.get("spiffe_sequence")
        if before is not None and new.get("spiffe_sequence", before) < before:
            raise Refused(31, before.to_bytes(8, "big"))
        self.tombstones.pop(name, None)
        self.bundles[name] = new
        return b"s"

    def append(self, name, new):
        held = self.bundles.get(name)
        if held is None:
            raise Refused(30)
        if new in held["keys"]:
            return b"u"
        if takes_key_id(held["keys"], new):
            raise Refused(32)
        if len(held["keys"]) == MOST_AUTHORITIES:
            raise Refused(33)
        sequence = held.get("spiffe_sequence")
        if sequence == MOST:
            raise Refused(35)
        more = {**held, "keys": [*held["keys"], new]}
        if sequence is not None:
            more["spiffe_sequence"] = sequence + 1
        if len(canonical(more)) > MOST_TEXT:
            raise Refused(34)
        self.bundles[name] = more
        return b"p" + told(more.get("spiffe_sequence"))


# Random requests

# What is written into a document as it stands there: numbers in other forms, and what is no JSON.
AS_THEY_STAND = ["#NaN", "#-Infinity", "#1e400", "#-1e400", "#1e-400", "#-0", "#7e0", "#7.0", "#07", "#+7", "#" + 400 * "9"]

# What stands behind a name that is written without it.
AGAIN = "#again"


class Requests:
    """Requests at random: most of them can be done, and some are wrong in one place."""

    def __init__(self, seed):
        self.random = random.Random(seed)
        # What has been asked all of them so far, and the digest that it had when a digest was last made.
        self.store = Store()
        self.last_digest = self.store.digest()

    def is_rare(self, share=0.02):
        return self.random.random() < share

    def encoded(self, size, is_url=True):
        data = self.random.randbytes(size)
        return (base64.urlsafe_b64encode(data).decode().rstrip("=") if is_url else base64.b64encode(data).decode())

    def anything(self):
        some = [None, True, 0, -1, 1.5, MOST, MOST + 1, "", "x", "EC", "RSA", "sig", [], {}, ["MAA="], ["MAA"], ["MAB="], "AQAB", "AQB", "A",
                "é\u2028\"\\\n\x7f", ["MAA=", "MAA="], {"kty": "EC"}, "\U0001f511", "\ud83d", "\udd11", *AS_THEY_STAND]
        return self.random.choice(some)

    def entry(self):
        """A JWK, of few keys and key IDs, so that some meet again."""
        pick = self.random.choice
        curve = pick(["P-256", "P-256", "P-384", "P-521", "P-999"])
        size = COORDINATE.get(curve, 32)
        point = "A" * -(-size * 8 // 6) if self.is_rare(0.5) else self.encoded(size)
        entry = {"kty": pick(["EC", "RSA"]), "use": pick(["x509-svid", "jwt-svid"]), "crv": curve, "x": point, "y": point,
                 "n": pick(["AQAB", "Aw", self.encoded(256), self.encoded(pick([1, 1024]))]), "e": "AQAB",
                 "x5c": [pick(["MAA=", self.encoded(pick([1, 2, 3, 300]), False)])], "kid": pick(["k", "l", "é\"\\\x01\u2028", "m" * 255])}
        for member in list(entry):
            if self.is_rare(0.01):
                entry[member] = self.anything()
            elif self.is_rare(0.01):
                del entry[member]
        if self.is_rare(0.05):
            entry[pick(["kid", "n", "x", "alg"])] = pick(["", "é" * 128, self.encoded(1025), self.encoded(size + 1), "AR"])
        members = list(entry.items())
        self.random.shuffle(members)
        return dict(members)

    def document(self):
        pick = self.random.choice
        tree = {"keys": [self.entry() if not self.is_rare() else self.anything() for _ in range(pick([0, 0, 1, 2, 3]))]}
        if not self.is_rare(0.3):
            tree["spiffe_sequence"] = pick([0, 1, 2, 3, 4, 5, 6, 7, MOST]) if not self.is_rare() else self.anything()
        if self.is_rare(0.3):
            tree["spiffe_refresh_hint"] = pick([0, 60, MOST]) if not self.is_rare(0.1) else self.anything()
        if self.is_rare(0.01):
            tree["keys"] = self.anything()
        if self.is_rare(0.01):
            tree["other"] = json.loads("[" * 126 + "]" * 126) if self.is_rare(0.5) else json.loads("[" * 127 + "]" * 127)
        return tree if not self.is_rare(0.01) else self.anything()

    def with_one_twice(self, tree):
        """The tree, one of whose objects has a member twice: a second name of it is written as the first is."""
        if not isinstance(tree, dict) or not tree:
            return tree
        name = self.random.choice(list(tree))
        if name == "keys" and isinstance(tree[name], list) and not self.is_rare(0.2):
            return {**tree, name: [self.with_one_twice(it) for it in tree[name]]}
        members = [*tree.items(), (name + AGAIN, self.anything())]
        self.random.shuffle(members)
        return dict(members)

    def text(self, tree):
        """JSON of the tree, in one of many layouts; or what is not JSON. Now and then an object has a member twice."""
        layout = self.random.choice([{}, {"indent": 1}, {"ensure_ascii": False}, {"separators": (",", ":")}])
        text = json.dumps(self.with_one_twice(tree) if self.is_rare(0.05) else tree, **layout)
        text = re.sub('"#([^"]*)"', r"\1", text.replace(AGAIN, "")).encode(errors="surrogatepass")
        if self.is_rare():
            cut = self.random.randrange(len(text))
            text = self.random.choice([text[:cut], text + b"}", text[:cut] + b"\xff" + text[cut:], b""])
        return text

    def digest(self):
        """Mostly that of what the store holds; else that of what it held before, one of nothing, or what is no digest."""
        now, before = self.store.digest(), self.last_digest
        self.last_digest = now
        other = [before, before, now[:-1] + bytes([now[-1] ^ 1]), bytes(DIGEST_BYTES), self.random.randbytes(DIGEST_BYTES)]
        bad = [now[:-1], now + b"\0", now.hex().encode(), b""]
        return self.random.choice(bad) if self.is_rare(0.1) else self.random.choice(other) if self.is_rare(0.3) else now

    def next(self):
        """The next request, which the store is asked."""
        payload = self.payload()
        self.store.answer(payload)
        return payload

    def payload(self):
        pick = self.random.choice
        name = pick([b"a", b"b", b"a.example", b"x" * 255])
        if self.is_rare():
            name = pick([b"", b"a/b", b"A", b"\xff", b"a" * 254 + b"@"])
        named = bytes([len(name)]) + name
        letter = pick(b"SSSSAAAARRGGGCCCFUUVM")
        if letter == ord("V"):
            payload = b"V" + pick([b"\1", b"\2", b"\2", b"\3", b"\3", b"\3", b"\4"])
        elif letter in b"FM":
            payload = bytes([letter])
        elif letter == ord("U"):
            payload = b"U" + self.digest()
        elif letter in b"RG":
            payload = bytes([letter]) + named
        elif letter == ord("A"):
            payload = b"A" + named + self.text(self.entry())
        else:
            expected = pick([b"\0", b"\2", told(pick([0, 1, 2, 3, 4, 5, 6, 7]))]) if letter == ord("C") else b""
            payload = bytes([letter]) + named + expected + self.text(self.document())
        if self.is_rare():
            payload = pick([payload + b"x", payload[: self.random.randrange(1, len(payload) + 1)], pick(b"ZTcu\0").to_bytes(1, "big") + payload[1:]])
        return payload


def limits():
    """Requests at the limits of documents and bundles."""
    rsa = lambda kid, modulus="AQAB": {"kty": "RSA", "use": "jwt-svid", "n": modulus, "e": "AQAB", "kid": kid}
    text = lambda tree: json.dumps(tree, separators=(",", ":")).encode()
    many = [rsa(f"k{number}") for number in range(MOST_AUTHORITIES)]
    yield b"S\1a" + text({"keys": many})
    yield b"A\1a" + text(rsa("more"))
    yield b"A\1a" + text(many[0])
    yield b"S\1a" + text({"keys": [*many, many[0], rsa("more")]})
    for size in (MOST_TEXT, MOST_TEXT + 1):
        yield b"S\1b" + b'{"keys":[]}'.ljust(size)
    # An authority takes 1,677 bytes of the text: there is room for 625, and so for no more after the last of these sets.
    wide = [rsa(f"k{number:0254}", "A" * 1364) for number in range(640)]
    for count in range(623, 626):
        yield b"S\1c" + text({"keys": wide[:count]})
        yield b"A\1c" + text(wide[-1])
        yield b"G\1c"
    yield b"F"


def with_digests(payloads):
    """The same, and then a fetch-all unless the bundles have the digest that they have, one unless they have another, and counts."""
    store = Store()
    for payload in payloads:
        store.answer(payload)
    return [*payloads, b"V\3", b"U" + store.digest(), b"U" + bytes(DIGEST_BYTES), b"M"]


def compared(shards, payloads, codes):
    """Runs a session, and compares each of its replies. Keeps the codes that came."""
    store = Store()
    status, out, err = run_words("run", "--shards", str(shards), given=b"".join(map(frame, payloads)), seconds=SECONDS)
    assert (status, err) == (0, b""), (status, err)
    found = list(replies_of(out))
    for place, payload in enumerate(payloads):
        wanted = b"".join(map(frame, store.answer(payload)))
        came = found[place] if place < len(found) else b""
        assert came == wanted, f"request {place}, {payload[:300]!r}: {came[:300]!r}, and not {wanted[:300]!r}"
        codes.add(wanted[4])
    assert len(found) == len(payloads), "a reply too much"
    return f"; {len(payloads)} replies"


def all_answers(codes):
    """The sessions have all answers that they should have, and no others."""
    assert codes == WANTED, f"answers that no session has, or that none should have: {sorted(codes ^ WANTED)}"


def random_payloads(seed):
    requests = Requests(seed)
    return [requests.next() for _ in range(REQUESTS)]


def checks(words):
    codes, found = set(), {}
    for number, seed in enumerate(list(map(int, words)) or SEEDS):
        found[f"random session {seed}"] = lambda shards=[1, 4, 16][number % 3], seed=seed: compared(shards, random_payloads(seed), codes)
    found["limits"] = lambda: compared(4, with_digests(list(limits())), codes)
    return found if words else found | {"all_answers": functools.partial(all_answers, codes)}


if __name__ == "__main__":
    sys.exit(run_checks(checks(sys.argv[1:])))
