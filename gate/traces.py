#!/usr/bin/env python3
"""Random runs of the machine, and a check of each order that `trace` prints: it is a linearization, by a model in Python.

usage: gate/traces.py           the runs of the gate (over the program that rt ci or rt run has built in crates/bundled/out/)
       gate/traces.py SEED..    others

That each run has a linearization, and that this one is printed, is proved. Here it is looked at from outside: each operation
that took effect stands in the order once, and no other; each has a moment between its first and its last event, one after the
other; and the model of gate/model.py, asked one operation after another in that order, gives each reply.
"""
import collections
import functools
import hashlib
import random
import sys

sys.dont_write_bytecode = True

from checks import EMPTY, dump_of, run_checks, run_words  # noqa: E402
from lines import reply_line  # noqa: E402
from model import Store  # noqa: E402

SEEDS = range(1, 301)
NAMES = [b"a", b"b", b"c", b"d"]
KEY = b'{"use":"jwt-svid","kty":"RSA","kid":"%s","n":"AQAB","e":"AQAB"}'
# Those of maps that many a run has had: of no bundle, or of one or two empty ones.
DIGESTS = [hashlib.sha256(dump_of(dict.fromkeys(it, EMPTY))).digest() for it in ("", "", "a", "b", "c", "d", "ab", "cd")]
FAILED = (b"moved", b"held", b"worn", b"memory")
# What the runs of the gate have to show: operations that were answered so, that failed so, or that are not finished.
WANTED = {b"stored", b"unchanged", b"removed", b"appended", b"found", b"all", b"same", b"refused", b"moved", b"held", b"memory", b"-"}

Record = collections.namedtuple("Record", "payload caller first last reply")


def document(pick):
    sequence = pick([b"", b"", b',"spiffe_sequence":%d' % pick(range(4))])
    return b'{"keys":[%s]%s}' % (b",".join({KEY % pick([b"k", b"l"]) for _ in range(pick([0, 0, 1]))}), sequence)


def operation(pick):
    """The words of an operation, and its payload."""
    name = pick(NAMES)
    named = bytes([len(name)]) + name
    kind = pick(["set", "set", "set", "setif", "append", "remove", "get", "fetch", "fetch", "unless"])
    if kind == "fetch":
        return b"fetch", b"F"
    if kind == "unless":
        digest = pick(DIGESTS)
        return b"fetch unless " + digest.hex().encode(), b"U" + digest
    if kind in ("remove", "get"):
        return b"%s %s" % (kind.encode(), name), kind[:1].upper().encode() + named
    if kind == "append":
        key = KEY % pick([b"k", b"l", b"m"])
        return b"append %s %s" % (name, key), b"A" + named + key
    text = document(pick)
    if kind == "set":
        return b"set %s %s" % (name, text), b"S" + named + text
    word, data = pick([(b"absent", b"\0"), (b"none", b"\2"), (b"2", b"\1" + (2).to_bytes(8, "big"))])
    return b"setif %s %s %s" % (name, word, text), b"C" + named + data + text


def events(seed):
    """Lines of events, of which most fit, and the payload of each that begins an operation."""
    chance = random.Random(seed)
    pick, callers = chance.choice, range(1, chance.choice([2, 3, 4, 6]) + 1)
    found, busy = [], set()
    for _ in range(chance.choice([10, 40, 120, 120, 400])):
        caller, kind = pick(callers), chance.random()
        if kind < 0.04 or caller not in busy:
            words, payload = operation(pick)
            found.append((b"begin %d %s" % (caller, words), payload))
            busy.add(caller)
        elif kind < 0.75:
            found.append((b"step %d" % caller, None))
        elif kind < 0.97:
            found.append((b"end %d" % caller, None))
            busy.discard(caller)
        else:
            found.append((b"quit %d %s" % (caller, pick([b"memory", b"held 1 7"])), None))
            busy.discard(caller)
    return found


def traced(given, shards, rounds):
    """The records and the order that the program prints."""
    lines = b"".join(line + b"\n" for line, _ in given)
    status, out, err = run_words("trace", "--shards", str(shards), "--rounds", str(rounds), given=lines)
    assert (status, err) == (0, b""), (status, err)
    *lines, order = out.split(b"\n")[:-1]
    records = []
    for number, line in enumerate(lines):
        words = line.split(b" ", 9)
        assert words[:8:2] == [b"record", b"caller", b"first", b"last"] and int(words[1]) == number and words[8] == b"reply", line
        first, last = int(words[5]), None if words[7] == b"-" else int(words[7])
        records.append(Record(given[first][1], int(words[3]), first, last, words[9]))
    assert order.split(b" ")[0] == b"order", order
    return records, list(map(int, order.split(b" ")[1:]))


def whole(given, records):
    """Each record begins and ends with an event of its caller, and no operation is left out."""
    busy_until = {}
    firsts = {it.first: it for it in records}
    for place, (line, payload) in enumerate(given):
        caller = int(line.split(b" ")[1])
        record = firsts.get(place)
        if record:
            assert payload and record.caller == caller and busy_until.get(caller, -1) < place, f"record of event {place}"
            busy_until[caller] = len(given) if record.last is None else record.last
        else:
            assert payload is None or busy_until.get(caller, -1) > place, f"event {place} begins an operation without a record"
    for record in records:
        if record.last is not None:
            line = given[record.last][0]
            assert record.last > record.first and line.startswith((b"end %d" % record.caller, b"quit %d " % record.caller)), line


def text_of(payloads):
    """The reply to an operation, as a trace tells it."""
    head, *items = payloads
    return b" ".join([reply_line(head), *(reply_line(it).partition(b" ")[2] for it in items)])


def linearized(given, records, order):
    took_effect = {number for number, it in enumerate(records) if it.reply != b"-" and not it.reply.startswith(FAILED)}
    unfinished = {number for number, it in enumerate(records) if it.reply == b"-"}
    assert len(set(order)) == len(order) and took_effect <= set(order) <= took_effect | unfinished, "operations in the order"
    store, moment = Store(version=3), -1
    for number in order:
        record = records[number]
        moment = max(moment + 1, record.first)
        assert moment <= (len(given) - 1 if record.last is None else record.last), f"record {number} has no moment of its own"
        reply = text_of(store.answer(record.payload))
        assert record.reply in (b"-", reply), f"record {number}: {record.reply!r}, and the model says {reply!r}"


def is_linearization(seed, shown):
    """What the program prints of this run is one. Keeps which answers are shown."""
    given = events(seed)
    records, order = traced(given, [1, 2, 3, 4][seed % 4], [1, 2][seed // 4 % 2])
    whole(given, records)
    linearized(given, records, order)
    shown.update(it.reply.split(b" ")[0] for it in records)


def all_answers(shown):
    """The runs have all answers that they should have, and no others."""
    assert set(shown) == WANTED, f"answers that no run has, or that none should have: {sorted(set(shown) ^ WANTED)}"
    print(f"{shown.total()} operations are as the model says", flush=True)


def checks(words):
    shown = collections.Counter()
    found = {f"run {seed}": functools.partial(is_linearization, seed, shown) for seed in list(map(int, words)) or SEEDS}
    return found if words else found | {"all_answers": functools.partial(all_answers, shown)}


if __name__ == "__main__":
    sys.exit(run_checks(checks(sys.argv[1:]), is_quiet=True))
