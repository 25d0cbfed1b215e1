#!/usr/bin/env python3
"""Requests and replies as lines, by docs/FORMATS.md: what `encode` and `decode` make of random sessions is foretold.

usage: gate/lines.py   (over the program that rt ci or rt run has built in crates/bundled/out/)

The sessions, and the replies to them, are those of gate/model.py.
"""
import functools
import sys

sys.dont_write_bytecode = True

from checks import frame, run_checks, run_words  # noqa: E402
from model import SECONDS, SEEDS, Refused, Store, random_payloads  # noqa: E402

MOST_RUNS = 50
VERBS = {ord("S"): b"set", ord("C"): b"setif", ord("A"): b"append", ord("R"): b"remove", ord("G"): b"get"}
WORDS = {ord("s"): b"stored", ord("u"): b"unchanged", ord("d"): b"removed", ord("e"): b"same", 22: b"memory", 56: b"shut"}
# The numbers that stand beside those of refusals: how many bytes each has.
BESIDE = {3: [4], **dict.fromkeys(range(16, 21), [4]), 31: [8]}


def expectation(data):
    """What a set expects, as a word; and what follows it."""
    if data[0] == 1:
        return b"%d" % int.from_bytes(data[1:9], "big"), data[9:]
    return (b"none" if data[0] else b"absent"), data[1:]


def request_line(payload):
    """The line of a request, or None if it has none."""
    if payload in (b"F", b"M"):
        return b"fetch" if payload == b"F" else b"stats"
    if payload in (b"V\1", b"V\2", b"V\3"):
        return b"version %d" % payload[1]
    try:
        # (a session in version 3 tells which payloads are requests)
        Store(version=3).read(payload)
    except Refused as refused:
        if refused.payload == bytes([51]):
            return None
    if payload[0] == ord("U"):
        return b"fetch unless " + payload[1:].hex().encode()
    name, rest = payload[2:2 + payload[1]], payload[2 + payload[1]:]
    words = [VERBS[payload[0]], name]
    if payload[0] == ord("C"):
        expected, rest = expectation(rest)
        words.append(expected)
    if payload[0] in b"SCA":
        words.append(rest)
    has_line = b" " not in name and b"\n" not in name + rest and not rest.startswith(b"@")
    return b" ".join(words) if has_line else None


def numbers(data, sizes):
    for size in sizes:
        yield b"%d" % int.from_bytes(data[:size], "big")
        data = data[size:]


def reply_line(payload):
    """The line of a reply, or of a frame of one."""
    code, rest = payload[0], payload[1:]
    if code in WORDS:
        return WORDS[code]
    if code in b"fm":
        return (b"found " if code == ord("f") else b"stats ") + rest
    if code == ord("i"):
        return b"bundle " + rest[1:1 + rest[0]] + b" " + rest[1 + rest[0]:]
    if code == ord("p"):
        return b"appended " + (b"%d" % int.from_bytes(rest[1:], "big") if rest[0] else b"-")
    if code in b"av":
        return (b"all " if code == ord("a") else b"version ") + b"%d" % int.from_bytes(rest, "big")
    beside = [expectation(rest)[0]] if code == 36 else numbers(rest, BESIDE.get(code, []))
    return b" ".join([b"refused", b"%d" % code, *beside])


def ran(command, given):
    status, out, err = run_words(command, given=given, seconds=SECONDS)
    assert (status, err) == (0, b""), (status, err)
    return out


def is_alike(what, found, wanted):
    for place, (one, other) in enumerate(zip(found.split(b"\n"), wanted.split(b"\n"))):
        assert one == other, f"{what} {place}: {one[:300]!r}, and not {other[:300]!r}"
    assert found == wanted, f"{what}: another number of lines"


def requests_as_lines(seed):
    """Those that have lines, as lines and back."""
    payloads = random_payloads(seed)
    pairs = [(payload, request_line(payload)) for payload in payloads]
    framed = b"".join(frame(payload) for payload, line in pairs if line is not None)
    lines = b"".join(line + b"\n" for _, line in pairs if line is not None)
    is_alike("decode", ran("decode", framed), lines)
    assert ran("encode", lines) == framed, "encode gives other frames"
    return f"; {sum(line is not None for _, line in pairs)} of them"


def requests_without_lines(seed):
    """What stands before one that has no line is written, and then it is a fault."""
    lacking = [it for it in random_payloads(seed) if it[:1] in (b"S", b"C", b"A", b"R", b"G", b"F", b"U", b"M", b"V") and request_line(it) is None]
    for payload in lacking[:MOST_RUNS]:
        ended = run_words("decode", given=frame(b"F") + frame(payload))
        assert ended == (1, b"fetch\n", b"fault 76 1\n"), (payload[:300], ended)
    return f"; {len(lacking[:MOST_RUNS])} of them"


def replies_as_lines(seed):
    """The reply to each request."""
    store = Store()
    given = [reply for payload in random_payloads(seed) for reply in store.answer(payload)]
    is_alike("decode", ran("decode", b"".join(map(frame, given))), b"".join(reply_line(it) + b"\n" for it in given))
    return f"; {len(given)} of them"


CHECKS = {
    f"{check.__name__} of session {seed}": functools.partial(check, seed)
    for seed in SEEDS
    for check in (requests_as_lines, requests_without_lines, replies_as_lines)
}


if __name__ == "__main__":
    sys.exit(run_checks(CHECKS))
