# SPDX-License-Identifier: Apache-2.0
"""The client for asyncio."""
import asyncio
import contextlib
import gc
import inspect
import math
import tempfile
import time
import unittest
import warnings

import hopslintel
from hopslintel import (Appended, Changes, DisconnectedError, Expect, Found,
                        GivenUpError, Moved, NoDomainError, ProtocolError,
                        Refused, RefusedError, Removed, Request, Stored,
                        TimedOutError, Unchanged, Version)
from hopslintel.aio import Client

from .support import (ASKS_THREE, EMPTY, ENTRY, KEPT, PROGRAM, SAME, STAYS,
                      THREE, UNKNOWN, Server, all_of, document, found, frame,
                      naming, nobody_listens, numbered, real, served,
                      served_at, unless)

GET, SET = b"G\x01a", b"S\x01a" + EMPTY
TWO = frame(b"v\x02")
HELD = frame(b"\x2a\0\0\0\1" + bytes(8))


async def wait_until(is_so):
    """Waits for it, at most a minute."""
    until = time.monotonic() + 60
    while not is_so():
        assert time.monotonic() < until
        await asyncio.sleep(0.001)


class InterfaceTest(unittest.TestCase):
    def test_it_is_that_of_the_client_that_blocks(self):
        """The same methods with the same words, and the same docs or one
        that refers to them."""
        names = [name for name in dir(hopslintel.Client)
                 if not name.startswith("_")]
        self.assertEqual(names, [name for name in dir(Client)
                                 if not name.startswith("_")])
        for name in names:
            here = inspect.signature(getattr(Client, name))
            there = inspect.signature(getattr(hopslintel.Client, name))
            self.assertEqual(list(here.parameters.values()),
                             list(there.parameters.values()), name)
            self.assertTrue(getattr(Client, name).__doc__, name)


class OperationsTest(unittest.IsolatedAsyncioTestCase):
    async def check_operations(self, store):
        self.assertEqual(await store.fetch_all(), {})
        with self.assertRaises(NoDomainError):
            await store.get("a")
        self.assertEqual(await store.set("b", document(ENTRY)), Stored())
        self.assertEqual(await store.append("b", ENTRY), Unchanged())
        self.assertEqual(await store.set("a", numbered(7)), Stored())
        self.assertEqual(await store.append("a", ENTRY), Appended(8))
        self.assertEqual(await store.get("a"),
                         document(KEPT, spiffe_sequence=8))
        self.assertEqual((await store.get_json("a"))["spiffe_sequence"], 8)
        with self.assertRaises(RefusedError) as caught:
            await store.set_if("a", Expect.ABSENT, numbered(9))
        self.assertEqual(caught.exception.reply, Refused(36, "NotExpected", 8))
        self.assertEqual(await store.set_if("a", 8, numbered(9)), Stored())
        self.assertEqual(await store.remove("b"), Removed())
        bundles = await store.fetch_all()
        self.assertEqual(bundles, {"a": numbered(9)})
        for known in [bundles, bundles.digest]:
            self.assertIsNone(await store.fetch_all(unless=known))
        again = await store.fetch_all(unless=bytes(32))
        self.assertEqual((again, again.digest), (bundles, bundles.digest))
        self.assertIsInstance(await store.stats(), dict)
        self.assertEqual(await store.version(1), Version(1))
        self.assertEqual(await store.ask(Request.get("b")),
                         Refused(30, "NoDomain"))

    async def test_over_tcp(self):
        with served() as port:
            async with await Client.connect(port) as store:
                await self.check_operations(store)

    async def test_over_a_unix_socket(self):
        with tempfile.TemporaryDirectory() as folder:
            with served_at("--socket", f"{folder}/all") as path:
                async with await Client.connect_unix(path) as store:
                    await self.check_operations(store)

    async def test_over_a_pipe(self):
        pipe = asyncio.subprocess.PIPE
        process = await asyncio.create_subprocess_exec(
            PROGRAM, "run", stdin=pipe, stdout=pipe)
        async with Client(process.stdout, process.stdin) as store:
            await self.check_operations(store)
        self.assertEqual(await asyncio.wait_for(process.wait(), 60), 0)

    async def test_a_pipeline(self):
        text = real("many")
        with served() as port:
            async with await Client.connect(port) as store:
                await store.set("a", text)
                requests = (Request.get("a") for _ in range(1000))
                replies = await store.pipeline(requests)
        self.assertEqual(replies, [Found(text)] * 1000)

    async def test_a_unix_socket_without_a_server(self):
        with self.assertRaises(DisconnectedError):
            await Client.connect_unix("/no/such/path")
        with nobody_listens() as port:
            with self.assertRaises(DisconnectedError):
                await Client.connect(port)


class TasksTest(unittest.IsolatedAsyncioTestCase):
    async def test_each_gets_its_own_reply(self):
        async def gets(store, name):
            for _ in range(100):
                self.assertEqual(await store.get(name), name.encode())
            requests = [Request.get(name)] * 130
            self.assertEqual(await store.pipeline(requests),
                             [Found(name.encode())] * 130)

        with naming() as port:
            async with await Client.connect(port) as store:
                await asyncio.gather(*[gets(store, it) for it in "abcd"])

    async def test_one_that_is_cancelled(self):
        """Its reply is not taken for that of the next one."""
        slow = [bytes([byte]) for byte in found(b"a" * 50)]
        with Server([slow], [found(b"b")]) as server:
            async with await Client.connect(server.port) as store:
                getting = asyncio.ensure_future(store.get("a"))
                await wait_until(server.has_been_asked)
                getting.cancel()
                with self.assertRaises(asyncio.CancelledError):
                    await getting
                self.assertEqual(await store.get("b"), b"b")

    async def test_one_that_is_cancelled_while_it_waits(self):
        """The one that has the connection is not disturbed."""
        slow = [bytes([byte]) for byte in found(b"a" * 20)]
        with Server([slow, found(b"c")]) as server:
            async with await Client.connect(server.port) as store:
                getting = asyncio.ensure_future(store.get("a"))
                await wait_until(server.has_been_asked)
                waiting = asyncio.ensure_future(store.get("b"))
                for _ in range(10):
                    await asyncio.sleep(0)  # it goes on until it waits
                waiting.cancel()
                self.assertEqual(await getting, b"a" * 20)
                with self.assertRaises(asyncio.CancelledError):
                    await waiting
                self.assertEqual(await store.get("c"), b"c")

    async def test_deadlines(self):
        drops = [bytes([byte]) for byte in found(b"x" * 1000)]
        for reply in [b"", frame(b"s")[:4], drops]:
            with Server([reply, STAYS]) as server:
                async with await Client.connect(server.port,
                                                timeout=2) as store:
                    begun = time.monotonic()
                    with self.assertRaises(TimedOutError):
                        await store.set("a", EMPTY)
                    self.assertLess(time.monotonic() - begun, 10)

    async def test_a_deadline_of_one_call(self):
        with Server([found(EMPTY), b"", STAYS], [found(b"b")]) as server:
            async with await Client.connect(server.port) as store:
                self.assertEqual(await store.get("a", timeout=math.inf),
                                 EMPTY)
                with self.assertRaises(TimedOutError):
                    await store.get("a", timeout=1)
                self.assertEqual(await store.get("b"), b"b")

    async def test_no_time_at_all(self):
        with Server([found(EMPTY)]) as server:
            async with await Client.connect(server.port) as store:
                for seconds in [0, -1]:
                    with warnings.catch_warnings(record=True) as given:
                        warnings.simplefilter("always")
                        with self.assertRaises(TimedOutError):
                            await store.get("a", timeout=seconds)
                    self.assertEqual(given, [])
                self.assertEqual(await store.get("a"), EMPTY)

    async def test_a_call_ends_if_the_client_is_closed(self):
        with Server([b"", STAYS]) as server:
            store = await Client.connect(server.port)
            getting = asyncio.ensure_future(store.get("a"))
            await wait_until(server.has_been_asked)
            await store.close()
            with self.assertRaises(DisconnectedError):
                await asyncio.wait_for(getting, 10)
            with self.assertRaises(DisconnectedError):
                await store.get("a")
            await store.close()


class RedialTest(unittest.IsolatedAsyncioTestCase):
    async def test_reads_are_asked_once_more(self):
        with Server([found(EMPTY)], [b""], [found(b"b")]) as server:
            async with await Client.connect(server.port) as store:
                self.assertEqual(await store.get("a"), EMPTY)
                with self.assertRaises(DisconnectedError):
                    await store.get("a")
                self.assertEqual(await store.get("a"), b"b")
        self.assertIn(server.asked, [[[GET], [GET], [GET]],
                                     [[GET, GET], [GET], [GET]]])

    async def test_changes_never_are(self):
        with Server([b""], [frame(b"s")]) as server:
            async with await Client.connect(server.port) as store:
                with self.assertRaises(DisconnectedError):
                    await store.set("a", EMPTY)
                self.assertEqual(server.asked, [[SET]])
                self.assertEqual(await store.set("a", EMPTY), Stored())
        self.assertEqual(server.asked, [[SET], [SET]])

    async def test_a_change_after_the_server_has_closed(self):
        """It is seen before anything is sent, whether the loop has seen it
        yet or not."""
        for pauses in [0, 5]:
            with Server([found(EMPTY)], [frame(b"s")]) as server:
                async with await Client.connect(server.port) as store:
                    await store.get("a")
                    until = time.monotonic() + 60
                    while not server.closed and time.monotonic() < until:
                        time.sleep(0.001)  # the loop does nothing
                    for _ in range(pauses):
                        await asyncio.sleep(0)
                    self.assertEqual(await store.set("a", EMPTY), Stored())
            self.assertEqual(server.asked, [[GET], [SET]])

    async def test_one_that_is_cancelled_anywhere(self):
        """After 200 that were cancelled after so many turns of the loop each
        call is answered, and right."""
        with naming(connections=1_000) as port:
            async with await Client.connect(port) as store:
                for number in range(200):
                    getting = asyncio.ensure_future(store.get(f"n{number}"))
                    for _ in range(number % 40):
                        await asyncio.sleep(0)
                    getting.cancel()
                    with contextlib.suppress(asyncio.CancelledError):
                        self.assertEqual(await getting, b"n%d" % number)
                    self.assertEqual(await store.get(f"m{number}"),
                                     b"m%d" % number)

    async def test_one_that_was_not_closed(self):
        with Server([STAYS]) as server:
            store = await Client.connect(server.port)
            transport = store._line.writer.transport
            with self.assertWarns(ResourceWarning):
                del store
                gc.collect()
            transport.abort()
            await asyncio.sleep(0)

    async def test_the_version_stays(self):
        with Server([TWO], [TWO, found(EMPTY)]) as server:
            async with await Client.connect(server.port) as store:
                await store.version(2)
                self.assertEqual(await store.get("a"), EMPTY)
        self.assertEqual(server.asked[1], [b"V\x02", GET])

    async def test_a_fetch_all_unless(self):
        """A session is put into version 3 once, also a new one; a server of
        before is asked for all."""
        one, known = {"a": EMPTY}, unless({"a": EMPTY})
        with Server([all_of(one), THREE, SAME, SAME],
                    [UNKNOWN, all_of(one), all_of(one), all_of({})],
                    [found(EMPTY), THREE, all_of({})]) as server:
            async with await Client.connect(server.port) as store:
                bundles = await store.fetch_all()
                for _ in range(4):
                    self.assertIsNone(await store.fetch_all(unless=bundles))
                self.assertEqual(await store.fetch_all(unless=bundles), {})
                self.assertEqual(await store.get("a"), EMPTY)
                self.assertEqual(await store.fetch_all(unless=bundles), {})
        self.assertEqual(server.asked, [
            [b"F", ASKS_THREE, known, known],
            [ASKS_THREE, b"F", b"F", b"F"], [GET, ASKS_THREE, known]])

    async def test_a_version_that_is_not_set(self):
        """The server is out of memory: nothing is asked, and later it is."""
        with Server([frame(b"\x16"), THREE, SAME]) as server:
            async with await Client.connect(server.port) as store:
                with self.assertRaises(GivenUpError):
                    await store.fetch_all(unless=bytes(32))
                self.assertIsNone(await store.fetch_all(unless=bytes(32)))
        self.assertEqual(server.asked[0][:2], [ASKS_THREE] * 2)

    async def test_retries(self):
        """Only of what others were in the way of."""
        with Server([HELD, HELD, found(EMPTY), frame(b"\x16")]) as server:
            async with await Client.connect(server.port, retries=2) as store:
                self.assertEqual(await store.get("a"), EMPTY)
                with self.assertRaises(GivenUpError):
                    await store.get("a")
        self.assertEqual(server.asked, [[GET] * 4])

    async def test_what_is_not_a_reply(self):
        with Server([frame(b"s"), STAYS], [found(b"b") + found(b"c"),
                                           STAYS]) as server:
            async with await Client.connect(server.port) as store:
                with self.assertRaises(ProtocolError):
                    await store.get("a")
                self.assertEqual(await store.get("b"), b"b")
                with self.assertRaises(ProtocolError):
                    await store.get("d")

    async def test_batches_of_a_pipeline(self):
        """Asked again if they are reads only."""
        with Server([found(b"1")], [found(b"2"), found(b"3")]) as server:
            async with await Client.connect(server.port) as store:
                replies = await store.pipeline([Request.get("a")] * 2)
                self.assertEqual(replies, [Found(b"2"), Found(b"3")])

    async def test_a_pipeline_that_ends_early(self):
        """What came before its end is given."""
        with Server([frame(b"s"), frame(b"s")[:3]]) as server:
            async with await Client.connect(server.port) as store:
                with self.assertRaises(DisconnectedError) as caught:
                    await store.pipeline([Request.set("a", EMPTY)] * 5)
                self.assertIn(caught.exception.replies, [[Stored()], []])


class FollowTest(unittest.IsolatedAsyncioTestCase):
    async def test_what_it_yields(self):
        one, told = {"a": EMPTY}, []
        moved = frame(b"\x29\0\0\0\1" + bytes(16))
        with Server([all_of({}), THREE, SAME, all_of(one), SAME, moved],
                    [UNKNOWN, all_of({}), frame(b"s")]) as server:
            async with await Client.connect(server.port, retries=0) as store:
                changes = store.follow(0.001, on_error=told.append)
                self.assertEqual(await changes.__anext__(),
                                 Changes({}, {}, {}, ()))
                self.assertEqual(await changes.__anext__(),
                                 Changes(one, one, {}, ()))
                self.assertEqual(await changes.__anext__(),
                                 Changes({}, {}, {}, ("a",)))
                self.assertIsInstance(told[0].reply, Moved)
                with self.assertRaises(ProtocolError):
                    await changes.__anext__()

    async def test_faults_are_raised(self):
        with Server([frame(b"\x16")]) as server:
            async with await Client.connect(server.port) as store:
                with self.assertRaises(GivenUpError):
                    await store.follow(0.001).__anext__()

    async def test_it_ends_with_the_client(self):
        """Between two fetch-alls, or inside of one."""
        for replies in [[all_of({}), STAYS], [STAYS]]:
            with Server(replies) as server:
                store = await Client.connect(server.port)
                yielded = asyncio.Event()

                async def close():
                    if len(replies) > 1:
                        await yielded.wait()
                    await wait_until(server.has_been_asked)
                    await store.close()

                closing = asyncio.ensure_future(close())
                begun = time.monotonic()
                async for _ in store.follow(60):
                    yielded.set()
                await closing
                self.assertLess(time.monotonic() - begun, 10)
