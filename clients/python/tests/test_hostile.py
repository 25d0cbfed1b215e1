# SPDX-License-Identifier: Apache-2.0
"""A server that an attacker runs: each call ends with an error of this
package, in time, and keeps no more than it was told to."""
import asyncio
import contextlib
import itertools
import socket
import threading
import time
import tracemalloc
import unittest

import hopslintel.aio
from hopslintel import (Client, DisconnectedError, HopslintelError,
                        ProtocolError, Request, TimedOutError, TooLongError)
from hopslintel.wire import DOMAIN_BYTES

from .support import (EMPTY, SAME, THREE, all_of, found, frame, take_payload,
                      wait_until)

MIB = 1_048_576
MANY = 2 ** 64 - 1
LIMIT = 60


class Attacker:
    """A server that writes what `answer` makes of each payload, piece by
    piece, to any number of connections. `greeting` comes before anything is
    asked."""

    def __init__(self, answer, greeting=b"", pause=0.0):
        self.answer, self.greeting, self.pause = answer, greeting, pause
        self.sent, self.greeted, self.ended = 0, 0, 0
        self.listener = socket.create_server(("127.0.0.1", 0))
        self.port = self.listener.getsockname()[1]
        threading.Thread(target=self.accept, daemon=True).start()

    def __enter__(self):
        return self

    def __exit__(self, *error):
        with contextlib.suppress(OSError):
            self.listener.shutdown(socket.SHUT_RDWR)
        self.listener.close()

    def accept(self):
        with contextlib.suppress(OSError):
            while True:
                stream = self.listener.accept()[0]
                threading.Thread(target=self.serve, args=[stream],
                                 daemon=True).start()

    def serve(self, stream):
        with stream, contextlib.suppress(OSError):
            stream.sendall(self.greeting)
            self.greeted += 1
            while True:
                payload = take_payload(stream)
                if not payload:
                    break
                for piece in self.answer(payload):
                    stream.sendall(piece)
                    self.sent += len(piece)
                    time.sleep(self.pause)
        self.ended += 1


def head(count):
    return frame(b"a" + count.to_bytes(8, "big"))


def domain(number, text):
    name = b"n%020d" % number
    return frame(b"i" + bytes([len(name)]) + name + text)


def endless(text, count=MANY):
    """A fetch-all that does not end, in order of the names."""
    return itertools.chain([head(count)],
                           (domain(it, text) for it in itertools.count()))


def drips(data):
    return (bytes([byte]) for byte in itertools.cycle(data))


def asking(client, call, *words, **named):
    """A call of either client."""
    if client is Client:
        def ask(port, settings):
            with Client.connect(port, **settings) as store:
                return getattr(store, call)(*words, **named)
    else:
        def ask(port, settings):
            async def run():
                async with await client.connect(port, **settings) as store:
                    return await getattr(store, call)(*words, **named)
            return asyncio.run(run())
    return ask


class HostileTest(unittest.TestCase):
    clients = [Client, hopslintel.aio.Client]

    def check(self, answer, error, call, *words, settings=(), pause=0.0,
              greeting=b""):
        """The call fails so, and well within its minute; so does another
        one."""
        for client in self.clients:
            for _ in range(2):
                with Attacker(answer, greeting, pause) as server:
                    begun = time.monotonic()
                    with self.assertRaises(error):
                        asking(client, call, *words)(
                            server.port, {"timeout": LIMIT, **dict(settings)})
                    self.assertLess(time.monotonic() - begun, LIMIT)

    def test_more_domains_than_there_is_room_for(self):
        """By their number, before any of them has come."""
        self.check(lambda _: [head(MANY)], TooLongError, "fetch_all")
        self.check(lambda _: [head(2 ** 23)], TooLongError, "fetch_all")

    def test_long_domains_without_an_end(self):
        """No more is taken than there is room for."""
        count = 10 * MIB // DOMAIN_BYTES - 5000
        for client in self.clients:
            with Attacker(lambda _: endless(b"x" * MIB, count)) as server:
                tracemalloc.start()
                with self.assertRaises(TooLongError):
                    asking(client, "fetch_all")(
                        server.port, {"timeout": LIMIT,
                                      "max_bytes": 10 * MIB})
                kept = tracemalloc.get_traced_memory()[1]
                tracemalloc.stop()
                self.assertLess(kept, 40 * MIB)

    def test_domains_without_an_end(self):
        """Up to the limit of the call."""
        self.check(lambda _: endless(EMPTY, 1_000_000), TimedOutError,
                   "fetch_all", settings=[("timeout", 0.5)], pause=0.0001)

    def test_a_limit_of_one_call(self):
        both = {"a": EMPTY, "b": EMPTY}
        size = 2 * (1 + len(EMPTY) + DOMAIN_BYTES)
        for client in self.clients:
            with Attacker(lambda _: [all_of(both)]) as server:
                ask = asking(client, "fetch_all", max_bytes=size)
                self.assertEqual(ask(server.port, {"max_bytes": 1}), both)
                ask = asking(client, "fetch_all", max_bytes=size - 1)
                self.assertRaises(TooLongError, ask, server.port, {})
        with Attacker(lambda _: [all_of(both)]) as server:
            with Client.connect(server.port, max_bytes=size - 1) as store:
                for request in [Request.fetch_all(),
                                Request.fetch_unless(bytes(32))]:
                    self.assertRaises(TooLongError, store.ask, request)

    def test_the_same_of_one_that_follows(self):
        with Attacker(lambda _: [all_of({"a": EMPTY})]) as server:
            with Client.connect(server.port, max_bytes=1) as store:
                changes = store.follow(1, on_error=print)
                self.assertRaises(TooLongError, next, changes)

    def test_drips(self):
        """Each byte comes in time, and the reply never."""
        settings = [("timeout", 0.5)]
        for data in [found(b"x" * 1000), b"\x00\x10\x00\x00"]:
            self.check(lambda _: drips(data), TimedOutError, "get", "a",
                       settings=settings, pause=0.01)
        for call in ["fetch_all", "stats"]:
            self.check(lambda _: drips(b"\x00\x10"), TimedOutError, call,
                       settings=settings, pause=0.01)
        self.check(lambda _: drips(b"\x00\x10"), TimedOutError, "pipeline",
                   [Request.get("a")] * 3, settings=settings, pause=0.01)

    def test_lengths_that_no_frame_has(self):
        for size in [0, MIB * 2, 2 ** 31, 2 ** 32 - 1]:
            length = size.to_bytes(4, "big")
            self.check(lambda _: [length, b"x" * 100], ProtocolError, "get",
                       "a")

    def test_the_wrong_order(self):
        one, two = domain(1, EMPTY), domain(2, EMPTY)
        for domains in [[two, one], [one, one]]:
            self.check(lambda _: [head(2), *domains], ProtocolError,
                       "fetch_all")

    def test_names_that_are_none(self):
        for name in [b"", b"../../x", b"A", b"a\x1b[2J", b"\xff"]:
            item = frame(b"i" + bytes([len(name)]) + name + EMPTY)
            self.check(lambda _: [head(1), item], ProtocolError, "fetch_all")

    def test_replies_to_another_request(self):
        """Of each call, all replies that another one may have."""
        replies = {"set": frame(b"s"), "append": frame(b"p\x00"),
                   "remove": frame(b"d"), "get": found(EMPTY),
                   "fetch_all": all_of({"a": EMPTY}), "same": SAME,
                   "version": THREE, "stats": frame(b"m")}
        words = {"set": ["a", EMPTY], "append": ["a", EMPTY],
                 "remove": ["a"], "get": ["a"]}
        for call in ["set", "append", "remove", "get", "fetch_all"]:
            for kind, reply in replies.items():
                if kind != call:
                    self.check(lambda _: [reply], ProtocolError, call,
                               *words.get(call, []))

    def test_counts_that_are_none(self):
        for line in [b"a", b"a=", b"=1", b"a=-1", b"a=1 ", b" a=1", b"a=1\n",
                     b"a=1  b=2", b"a=1 a=2", b"a=18446744073709551616",
                     b"a=" + b"0" * 21, b"a\x1b=1", b"a=0x1",
                     b"a=1 " * 16384 + b"b=1"]:
            self.check(lambda payload: [
                THREE if payload[:1] == b"V" else frame(b"m" + line)],
                ProtocolError, "stats")

    def test_replies_before_anything_was_asked(self):
        """They are not taken for the answer."""
        for greeting in [found(b"early"), b"\x00", found(b"x")[:7]]:
            for client in self.clients:
                with Attacker(lambda _: [found(EMPTY)], greeting) as server:
                    self.check_early(client, server)

    def check_early(self, client, server):
        def wait():
            wait_until(lambda: server.greeted)

        async def run():
            async with await client.connect(server.port) as store:
                await asyncio.get_running_loop().run_in_executor(None, wait)
                with self.assertRaises(ProtocolError):
                    await store.get("a")

        if client is not Client:
            asyncio.run(run())
            return
        with Client.connect(server.port) as store:
            wait()
            self.assertRaises(ProtocolError, store.get, "a")

    def test_what_comes_after_a_reply(self):
        """A second reply, whenever it comes, is never that of the next
        call."""
        def answer(payload):
            yield found(payload[2:])
            if payload[2:] == b"a":
                time.sleep(0.05)
                yield found(b"late")

        async def run(port):
            async with await hopslintel.aio.Client.connect(port) as store:
                self.assertEqual(await store.get("a"), b"a")
                await asyncio.get_running_loop().run_in_executor(
                    None, wait_until, lambda: server.sent >= 14)
                with self.assertRaises(ProtocolError):
                    await store.get("b")
                self.assertEqual(await store.get("c"), b"c")

        with Attacker(answer) as server:
            with Client.connect(server.port) as store:
                self.assertEqual(store.get("a"), b"a")
                wait_until(lambda: server.sent >= 14)
                self.assertRaises(ProtocolError, store.get, "b")
                self.assertEqual(store.get("c"), b"c")
        with Attacker(answer) as server:
            asyncio.run(run(server.port))

    def test_connections_that_end_at_once(self):
        """A new one is made once, and not again and again."""
        def ends(_):
            raise OSError("it ends")

        for client in self.clients:
            with Attacker(ends) as server:
                self.assertRaises(DisconnectedError,
                                  asking(client, "get", "a"), server.port, {})
                wait_until(lambda: server.ended > 0)
                self.assertLessEqual(server.ended, 2)


class NamesTest(unittest.TestCase):
    def test_what_they_say(self):
        """An error that shows what came shows no control of a terminal."""
        with Attacker(lambda _: [frame(b"\x7f\x1b[2J\xc2\x9b")]) as server:
            with Client.connect(server.port) as store:
                with self.assertRaises(HopslintelError) as caught:
                    store.get("a")
        self.assertTrue(str(caught.exception).isprintable())
