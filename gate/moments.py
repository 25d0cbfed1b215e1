#!/usr/bin/env python3
"""Runs servers whose clients ask for all bundles and take them slowly, or not at all.

usage: gate/moments.py   (over the program that rt ci or rt run has built in crates/bundled/out/)

As long as a reply to a fetch-all is not stored whole, it keeps the bundles of its moment, also if they have been replaced since.
"""
import os
import select
import socket
import sys
import time

sys.dont_write_bytecode = True

from checks import SECONDS, Beside, Lasting, Room, dump_of, frame, named, received, rest_of, run_checks, wait_until  # noqa: E402

FETCH, STORED = frame(b"F"), frame(b"s")
# The store of these checks: so many domains, of about 8 KiB each.
DOMAINS = 512
# How many bytes of replies may be ready at once, and one more document after them.
READY = 196_608 + 8_700
# The memory of a server without a store.
BASE = 16 << 20


def document(generation):
    """A document of about 8 KiB, of which no other generation has an entry."""
    entries = [f'{{"kty":"RSA","use":"jwt-svid","kid":"{generation:04}-{number}","n":"AQ{"A" * 930}","e":"AQAB"}}' for number in range(8)]
    return f'{{"keys":[{",".join(entries)}]}}'.encode()


def set_all(server, generation):
    """Sets each bundle anew."""
    with server.connect() as stream:
        for domain in range(DOMAINS):
            stream.sendall(named(b"S", f"d{domain:03}", document(generation)))
            assert received(stream, len(STORED)) == STORED


def asks_for_all(server):
    """A client that asks for all bundles and takes nothing. Its reply has begun."""
    stream = server.connect()
    stream.sendall(FETCH)
    assert stream.recv(1, socket.MSG_PEEK)
    return stream


def is_over(stream):
    """Whether the server has left, of a client that may have much to take still."""
    waiting = select.poll()
    waiting.register(stream, select.POLLRDHUP)
    return bool(waiting.poll(0))


def takes_a_byte_a_second(stream):
    """Takes bytes one by one until the server has left."""
    while not is_over(stream):
        stream.recv(1)
        time.sleep(1)


def takes_steadily(server, until):
    """Takes replies whole, one after the other, until then; each has time enough."""
    with server.connect() as stream:
        while time.monotonic() < until:
            stream.sendall(FETCH)
            head = received(stream, 13)
            assert head == frame(b"a" + DOMAINS.to_bytes(8, "big")), head
            for domain in range(DOMAINS):
                item = named(b"i", f"d{domain:03}", server.canonical)
                assert received(stream, len(item)) == item
            time.sleep(0.2)


def replies_have_a_time():
    """A client that takes nothing of a long reply, or a byte a second, is given up when its time is over, though it is never idle
    for so long; one that takes each reply in time is served for longer than that."""
    seconds, room = 10, Room()
    server = Lasting("--workers", "1", "--idle", "3600", "--reply-seconds", str(seconds), "--log", port=f"{room.path}/socket")
    set_all(server, 0)
    with server.connect() as stream:
        stream.sendall(named(b"G", "d000"))
        stream.shutdown(socket.SHUT_WR)
        server.canonical = rest_of(stream)[5:]
    began = time.monotonic()
    silent, slow = asks_for_all(server), asks_for_all(server)
    drips = Beside("a byte a second", takes_a_byte_a_second, slow)
    steady = Beside("steadily", takes_steadily, server, began + 2 * seconds)
    wait_until(lambda: server.said().count("session fault 54") == 2, "two are given up", 2 * SECONDS)
    took = time.monotonic() - began
    # A tick of the server's may have begun before the first reply did.
    assert took > seconds - 1, took
    drips.join(2 * SECONDS)
    steady.join(2 * SECONDS)
    assert is_over(silent)
    status, out, err = server.ended()
    assert (status, err.count("session fault"), err.count("\nfault 54")) == (0, 2, 2), (status, out, err)
    return f": after {took:.0f} seconds of {seconds}"


def old_moments_are_left():
    """Clients ask for all, take nothing, and all bundles are set anew, again and again: only those that asked last stay. So the
    server has the bundles of few moments, in bytes."""
    generations, clients, moments, room, streams = 25, 40, 4, Room(), []
    given_back = {**os.environ, "MALLOC_MMAP_THRESHOLD_": "131072"}
    server = Lasting("--workers", "1", "--max-open", "2000", "--idle", "3600", "--reply-seconds", "600", "--moments", str(moments),
                     port=f"{room.path}/socket", env=given_back)
    for generation in range(generations):
        set_all(server, generation)
        streams += [asks_for_all(server) for _ in range(clients)]
        # Longer than a tick: what begins in one counts as one moment.
        time.sleep(0.5)
    wait_until(lambda: len(those_left(streams)) <= 2 * moments * clients, "the others are given up")
    store = DOMAINS * len(document(0))
    bound = BASE + (moments + 4) * store + len(those_left(streams)) * READY
    wait_until(lambda: 1024 * server.kilobytes() < bound, f"the server has less than {bound} bytes")
    had, last = 1024 * server.kilobytes(), streams[-1]
    assert last in those_left(streams), "who asked last is given up"
    whole = dump_of({f"d{domain:03}": document(0) for domain in range(DOMAINS)})
    assert len(received(last, len(whole))) == len(whole)
    return f": {had >> 20} MiB, {len(those_left(streams))} clients of {len(streams)}, {bound >> 20} MiB at most"


def those_left(streams):
    return [it for it in streams if not is_over(it)]


CHECKS = [replies_have_a_time, old_moments_are_left]


if __name__ == "__main__":
    sys.exit(run_checks(CHECKS))
