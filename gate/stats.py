#!/usr/bin/env python3
"""What a server has counted, as `bundled stats` shows it, after requests that are known.

usage: gate/stats.py   (over the program that rt ci or rt run has built in crates/bundled/out/)

The names are those of docs/FORMATS.md, and the numbers are counted here. Whether the text for Prometheus is one, promtool says.
"""
import random
import re
import shutil
import subprocess
import sys

sys.dont_write_bytecode = True

from checks import (  # noqa: E402
    EMPTY, ENTRY, ROOT, SECONDS, Beside, Lasting, Room, Server, bytes_of, dump_of, frame, frame_of, named, numbered, part, received, replies_of,
    run_checks, run_words, unused_port,
)

REQUESTS = ("set", "set_if", "append", "remove", "get", "fetch", "fetch_unless", "version", "stats", "other")
NUMBERS = (1, 3, *range(10, 24), *range(30, 37), 40, 41, 42, 51, 56)
FIRST = ("seconds", "connections_open", "connections_opened", "bytes_read", "bytes_written", "asked_again", "changes", "domains", "marks")
NAMES = [*FIRST, *(f"requests_{name}" for name in REQUESTS), *(f"refused_{number}" for number in NUMBERS)]
# What `stats` itself sends before it is answered, and what it has been sent by then: the version is set first.
GREETING, GREETED, ASKED = frame(b"V\3"), frame(b"v\3"), frame(b"M")

# Requests, with what each is counted as, the bytes of its reply, and the number of it if it is a refusal.
EXCHANGES = [
    (named(b"S", "a", EMPTY), "set", frame(b"s"), None),
    (named(b"S", "a", EMPTY), "set", frame(b"u"), None),
    (named(b"S", "a", b"{"), "set", frame(b"\x0b"), 11),
    (named(b"S", "A", EMPTY), "set", frame(b"\3" + bytes(4)), 3),
    (named(b"A", "a", ENTRY), "append", frame(b"p\0"), None),
    (named(b"R", "a"), "remove", frame(b"d"), None),
    (named(b"R", "a"), "remove", frame(b"\x1e"), 30),
    (named(b"G", "a"), "get", frame(b"\x1e"), 30),
    (named(b"S", "a", EMPTY), "set", frame(b"s"), None),
    (named(b"G", "a"), "get", frame(b"f" + EMPTY), None),
    (frame(b"C\1a\0" + EMPTY), "set_if", frame(b"\x33"), 51),
    (frame(b"V\2"), "version", frame(b"v\2"), None),
    (frame(b"C\1a\0" + EMPTY), "set_if", frame(b"\x24\2"), 36),
    (frame(b"C\1b\0" + EMPTY), "set_if", frame(b"s"), None),
    (frame(b"F"), "fetch", frame(b"a" + (2).to_bytes(8, "big")) + frame(b"i\1a" + EMPTY) + frame(b"i\1b" + EMPTY), None),
    (frame(b"M"), "stats", frame(b"\x33"), 51),
    (frame(b"U" + bytes(32)), "fetch_unless", frame(b"\x33"), 51),
    (frame(b"Z"), "other", frame(b"\x33"), 51),
]
CHANGES, DOMAINS = 5, 2

STORED, UNCHANGED, REMOVED, NO_DOMAIN = frame(b"s"), frame(b"u"), frame(b"d"), frame(b"\x1e")
# What a conditional set expects, and what 36 says was found: no bundle, one without a sequence, or one of a sequence.
ABSENT, UNNUMBERED = b"\0", b"\2"


def of_sequence(sequence):
    return b"\1" + sequence.to_bytes(8, "big")


def stale(sequence):
    return frame(b"\x1f" + sequence.to_bytes(8, "big"))


def not_expected(found):
    return frame(b"\x24" + found)


def set_if(name, expected, document):
    return named(b"C", name, expected + document)


# Requests, each with its reply, and how many domains and marks there are then.
STEPS = [
    # A new name counts, and a name that has a bundle already does not.
    (named(b"S", "a", numbered(3)), STORED, 1, 0),
    (named(b"S", "a", numbered(3)), UNCHANGED, 1, 0),
    (named(b"S", "a", numbered(2)), stale(3), 1, 0),
    (named(b"S", "a", numbered(4)), STORED, 1, 0),
    (named(b"S", "b", EMPTY), STORED, 2, 0),
    (named(b"A", "a", ENTRY), frame(b"p" + of_sequence(5)), 2, 0),
    (named(b"A", "a", ENTRY), UNCHANGED, 2, 0),
    # A bundle with a sequence leaves a mark. What is refused leaves it there, and a set takes it away.
    (named(b"R", "a"), REMOVED, 1, 1),
    (named(b"R", "a"), NO_DOMAIN, 1, 1),
    (named(b"G", "a"), NO_DOMAIN, 1, 1),
    (named(b"A", "a", ENTRY), NO_DOMAIN, 1, 1),
    (named(b"S", "a", numbered(4)), stale(5), 1, 1),
    (set_if("a", ABSENT, numbered(4)), stale(5), 1, 1),
    (set_if("a", of_sequence(5), numbered(6)), not_expected(ABSENT), 1, 1),
    (named(b"S", "a", numbered(5)), STORED, 2, 0),
    # A bundle without a sequence leaves no mark.
    (named(b"R", "b"), REMOVED, 1, 0),
    # The same of conditional sets: of a new name, over a mark, and over a bundle.
    (named(b"R", "a"), REMOVED, 0, 1),
    (set_if("c", ABSENT, numbered(1)), STORED, 1, 1),
    (named(b"R", "c"), REMOVED, 0, 2),
    (set_if("a", ABSENT, EMPTY), STORED, 1, 1),
    (named(b"S", "c", EMPTY), STORED, 2, 0),
    (set_if("c", UNNUMBERED, numbered(2)), STORED, 2, 0),
    (set_if("c", of_sequence(1), EMPTY), not_expected(of_sequence(2)), 2, 0),
    # A bundle that has lost its sequence leaves no mark, either.
    (named(b"S", "c", EMPTY), STORED, 2, 0),
    (named(b"R", "c"), REMOVED, 1, 0),
    # What is no name, and what is no document.
    (named(b"S", "A", EMPTY), frame(b"\3" + bytes(4)), 1, 0),
    (named(b"S", "b", b"{"), frame(b"\x0b"), 1, 0),
    (named(b"S", "d", numbered(0)), STORED, 2, 0),
    (named(b"R", "d"), REMOVED, 1, 1),
]
# How many of them change something, and how many domains and marks there are at the end.
STEPS_CHANGES = sum(reply[4] in b"spd" for _, reply, _, _ in STEPS)
STEPS_DOMAINS, STEPS_MARKS = STEPS[-1][2:]

# The bundles of a dump, two of which leave a mark once they are removed.
LOADED = {"w": numbered(7), "x": EMPTY, "y": numbered(0), "z": EMPTY}
# Servers in both forms, of one worker and of several. In the second form each worker is with one client: if as many are connected
# as there are workers, each of them has a worker of its own.
FORMS = [(kind, workers, *words) for kind, words in ((Lasting, ()), (Server, ("--connections", "3"))) for workers in (1, 4)]


def told(port):
    """What is counted, by the names in their order; and how many bytes the reply had that told it."""
    status, out, err = run_words("stats", "--port", str(port))
    assert (status, err) == (0, b""), (status, err)
    counts = [line.split(" ") for line in out.decode().splitlines()]
    assert [name for name, _ in counts] == NAMES, counts
    # (of a frame's length, its code, and as many bytes as the lines have, but for the last line feed)
    return {name: int(number) for name, number in counts}, len(frame(b"m")) + len(out) - 1


def counted(exchanges=(), **others):
    """What is counted after these exchanges, in whatever version they were, and then by one that asks for it."""
    counts = dict.fromkeys(NAMES, 0)
    for request, kind, reply, number in exchanges:
        counts[f"requests_{kind}"] += 1
        counts["bytes_read"] += len(request)
        counts["bytes_written"] += len(reply)
        if number:
            counts[f"refused_{number}"] += 1
    counts["requests_version"] += 1
    counts["bytes_read"] += len(GREETING + ASKED)
    counts["bytes_written"] += len(GREETED)
    counts["connections_open"] = 1
    for name, number in others.items():
        counts[name] += number
    return counts


def replied(stream, request):
    """The frame that comes for a request."""
    stream.sendall(request)
    return frame_of(stream)


def greeted(server, count):
    """So many connections, whose sessions are in version 3 and stand side by side."""
    streams = server.connections(count)
    for stream in streams:
        assert replied(stream, GREETING) == GREETED
    return streams


def standing(stream):
    """How many domains and marks there are, as a session in version 3 is told."""
    counts = dict(word.split("=") for word in replied(stream, ASKED)[5:].decode().split(" "))
    return int(counts["domains"]), int(counts["marks"])


def steps_are_counted(streams, loaded=0):
    """Each step is asked by the next connection, and then the one after that is told how many there are, beside those of a dump."""
    for place, (request, reply, domains, marks) in enumerate(STEPS):
        asked, other = streams[place % len(streams)], streams[(place + 1) % len(streams)]
        found = replied(asked, request), standing(other)
        assert found == (reply, (loaded + domains, marks)), (place, request, found)


def is_as(found, wanted):
    """But for the seconds."""
    assert found.pop("seconds") < SECONDS * 10, found
    wanted.pop("seconds")
    assert found == wanted, {name: (found[name], wanted[name]) for name in found if found[name] != wanted[name]}


def each_request_is_counted():
    """By one worker and by several, of which each has some of the clients."""
    for workers in ("1", "4"):
        server = Lasting("--workers", workers)
        found, size = told(server.port)
        is_as(found, counted(connections_opened=1))
        replies = b"".join(reply for _, _, reply, _ in EXCHANGES)
        assert server.ask(b"".join(request for request, *_ in EXCHANGES)) == replies
        asked_before = {"requests_version": 1, "requests_stats": 1, "bytes_read": len(GREETING + ASKED), "bytes_written": len(GREETED) + size}
        is_as(told(server.port)[0], counted(EXCHANGES, connections_opened=3, changes=CHANGES, domains=DOMAINS, **asked_before))


def domains_and_marks():
    """How many there are after each step, whichever worker makes it, with a log and without one. At its end a server that lasts says
    how many domains there are, too."""
    for kind, workers, *words in FORMS:
        for log in ((), ("--log",)):
            with part(kind=kind.__name__, workers=workers, log=log):
                server = kind("--workers", str(workers), *words, *log)
                streams = greeted(server, workers)
                assert standing(streams[0]) == (0, 0)
                steps_are_counted(streams)
                for stream in streams:
                    stream.close()
                counts, _ = told(server.port)
                assert (counts["domains"], counts["marks"], counts["changes"]) == (STEPS_DOMAINS, STEPS_MARKS, STEPS_CHANGES), counts
                if kind is Lasting:
                    assert server.ended()[1].endswith(f"domains {STEPS_DOMAINS}\n"), "ended otherwise"


def bundles_of_a_dump():
    """Those of --load are counted from the start, and are no changes. Each worker counts on from there, and at the end removes some
    of them."""
    dump = Room().write("dump", dump_of(LOADED))
    for kind, workers, *words in FORMS:
        with part(kind=kind.__name__, workers=workers):
            server = kind("--workers", str(workers), *words, "--load", dump)
            is_as(told(server.port)[0], counted(connections_opened=1, domains=len(LOADED)))
            streams = greeted(server, workers)
            steps_are_counted(streams, len(LOADED))
            for place, name in enumerate(LOADED):
                assert replied(streams[place % workers], named(b"R", name)) == REMOVED
            assert standing(streams[0]) == (STEPS_DOMAINS, STEPS_MARKS + 2), standing(streams[0])


def changes_beside_each_other():
    """Clients of four workers change the same names, so that one worker takes away what another has brought. Until they are done
    no count is below 0, and then the counts are what the store says of each name."""
    names, chance, documents = "abcdefgh", random.Random(1), (EMPTY, numbered(1), numbered(2), numbered(3))
    sets = [named(b"S", name, document) for name in names for document in documents]
    removals = [named(b"R", name) for name in names]
    requests = [[chance.choice(chance.choice((sets, removals))) for _ in range(500)] for _ in range(8)]
    server = Lasting("--workers", "4")
    [stream] = greeted(server, 1)

    def change(some):
        assert len(list(replies_of(server.ask(b"".join(some))))) == len(some)

    clients = [Beside(f"client {place}", change, it) for place, it in enumerate(requests)]
    while any(it.thread.is_alive() for it in clients):
        # (a number below 0 would be told as nearly 2^64, and no more can have come than was asked for)
        assert max(standing(stream)) <= sum(map(len, requests))
    for client in clients:
        client.join()
    counts = standing(stream)
    # A document of sequence 0 is refused by each bundle as not expected, and by each mark as stale.
    numbers = [replied(stream, set_if(name, ABSENT, numbered(0)))[4] for name in names]
    assert counts == (numbers.count(36), numbers.count(31)), (counts, numbers)


def reads_only():
    """At the port for reads a change is counted as what it asks for, and as 56, and no domain and no mark comes or goes by it; and
    counts are told there too."""
    server = Lasting("--workers", "1", "--read-port", "0")
    assert server.ask(named(b"S", "a", EMPTY), server.read_port) == frame(b"\x38")
    counts, _ = told(server.read_port)
    assert (counts["requests_set"], counts["refused_56"], counts["changes"], counts["domains"]) == (1, 1, 0, 0), counts
    assert server.ask(named(b"S", "a", numbered(1))) == STORED
    assert server.ask(named(b"R", "a"), server.read_port) == frame(b"\x38")
    counts, _ = told(server.read_port)
    assert (counts["changes"], counts["domains"], counts["marks"]) == (1, 1, 0), counts


def connections_that_are_open():
    """Those that are open, and all that were opened."""
    server = Lasting("--workers", "2")
    streams = server.connections(5)
    for stream in streams:
        stream.sendall(named(b"G", "a"))
        assert received(stream, 5) == frame(b"\x1e")
    counts, _ = told(server.port)
    assert (counts["connections_open"], counts["connections_opened"], counts["requests_get"]) == (6, 6, 5), counts


def one_client_after_the_other():
    """A server whose workers take their clients one after the other counts the same."""
    server = Server("--workers", "1", "--connections", "2")
    requests, replies = named(b"S", "a", EMPTY) + named(b"G", "b"), frame(b"s") + frame(b"\x1e")
    assert server.ask(requests) == replies
    exchanges = [(named(b"S", "a", EMPTY), "set", frame(b"s"), None), (named(b"G", "b"), "get", frame(b"\x1e"), 30)]
    is_as(told(server.port)[0], counted(exchanges, connections_opened=2, changes=1, domains=1))
    assert server.ended()[0] == 0


def as_prometheus_reads_it():
    """The same numbers, each metric with its help and its type, as promtool wants it."""
    server = Lasting("--workers", "2")
    server.ask(b"".join(request for request, *_ in EXCHANGES) + named(b"S", "c", numbered(1)) + named(b"R", "c"))
    counts, _ = told(server.port)
    assert (counts["domains"], counts["marks"]) == (DOMAINS, 1), counts
    status, out, err = run_words("stats", "--port", str(server.port), "--prometheus")
    assert (status, err) == (0, b""), (status, err)
    samples = dict(re.findall(r'^(\w+(?:\{\w+="\w+"\})?) (\d+)$', out.decode(), re.M))
    named_so = {f'bundled_requests_total{{request="{kind}"}}': f"requests_{kind}" for kind in REQUESTS[:7]}
    named_so |= {f'bundled_refused_total{{number="{number}"}}': f"refused_{number}" for number in NUMBERS}
    named_so |= {"bundled_changes_total": "changes", "bundled_connections_open": "connections_open", "bundled_asked_again_total": "asked_again"}
    named_so |= {"bundled_domains": "domains", "bundled_marks": "marks"}
    for sample, name in named_so.items():
        assert int(samples[sample]) == counts[name], (sample, samples[sample], counts[name])
    assert len(samples) == len(NAMES), samples
    kinds = dict(re.findall(r"^# TYPE (\w+) (\w+)$", out.decode(), re.M))
    gauges = sorted(metric for metric, kind in kinds.items() if kind == "gauge")
    assert gauges == ["bundled_connections_open", "bundled_domains", "bundled_marks", "bundled_uptime_seconds"], kinds
    checked = subprocess.run([shutil.which("promtool"), "check", "metrics"], input=out, capture_output=True, timeout=SECONDS)
    assert checked.returncode == 0, checked


def nobody_listens():
    """That is a fault, as of `ask`."""
    assert run_words("stats", "--port", str(unused_port())) == (1, b"", b"fault 78\n")


def the_docs_have_the_names():
    """FORMATS.md names each count that is told."""
    page = bytes_of(f"{ROOT}/docs/FORMATS.md").decode()
    lacking = [name for name in (*FIRST, *(f"requests_{kind}" for kind in REQUESTS)) if f"`{name}`" not in page]
    assert not lacking, lacking


CHECKS = {
    each_request_is_counted: [],
    domains_and_marks: [],
    bundles_of_a_dump: [],
    changes_beside_each_other: [],
    reads_only: [],
    connections_that_are_open: [],
    one_client_after_the_other: [],
    as_prometheus_reads_it: ["promtool"],
    nobody_listens: [],
    the_docs_have_the_names: [],
}

if __name__ == "__main__":
    sys.exit(run_checks(list(CHECKS), needs=CHECKS))
