# SPDX-License-Identifier: Apache-2.0
"""New connections, and what is asked again over them."""
import os
import socket
import tempfile
import threading
import unittest

from hopslintel import (Client, DisconnectedError, Found, GivenUpError,
                        ProtocolError, Refused, Request, Stored,
                        TimedOutError, Version)

from .support import (ASKS_THREE, EMPTY, SAME, STAYS, THREE, UNKNOWN, Server,
                      all_of, found, frame, served_at, take_payload, unless,
                      wait_until)

GET, FETCH, SET = b"G\x01a", b"F", b"S\x01a" + EMPTY


class RedialTest(unittest.TestCase):
    def test_reads_are_asked_once_more(self):
        """If the connection is found closed, or ends inside the reply."""
        both = {"a": EMPTY, "b": EMPTY}
        for cut in [0, 3, 20]:
            for payload, call, reply in [
                    (GET, lambda it: it.get("a"), found(b"x" * 40)),
                    (FETCH, lambda it: it.fetch_all(), all_of(both))]:
                with Server([reply, reply[:cut]], [reply]) as server:
                    with Client.connect(server.port) as store:
                        first = call(store)
                        self.assertEqual(call(store), first)
                self.assertEqual(server.asked, [[payload] * 2, [payload]])

    def test_they_are_so_once(self):
        with Server([b""], [b""], [b""], [found(EMPTY)]) as server:
            with Client.connect(server.port) as store:
                for connections in [2, 3]:
                    self.assertRaises(DisconnectedError, store.get, "a")
                    self.assertEqual(server.asked, [[GET]] * connections)
                self.assertEqual(store.get("a"), EMPTY)
        self.assertEqual(server.asked, [[GET]] * 4)

    def test_changes_never_are(self):
        """The next call makes a new connection."""
        for payload, call in [
                (SET, lambda it: it.set("a", EMPTY)),
                (b"A\x01a{}", lambda it: it.append("a", {})),
                (b"R\x01a", lambda it: it.remove("a"))]:
            with Server([b""], [found(EMPTY)]) as server:
                with Client.connect(server.port) as store:
                    self.assertRaises(DisconnectedError, call, store)
                    self.assertEqual(server.asked, [[payload]])
                    self.assertEqual(store.get("a"), EMPTY)
            self.assertEqual(server.asked, [[payload], [GET]])

    def test_a_change_over_a_new_connection(self):
        """It was not sent before, so nothing is asked twice."""
        with Server([b""], [frame(b"s")]) as server:
            with Client.connect(server.port) as store:
                self.assertRaises(DisconnectedError, store.set, "a", EMPTY)
                self.assertEqual(store.set("a", EMPTY), Stored())
        self.assertEqual(server.asked, [[SET], [SET]])

    def test_a_change_after_the_server_has_closed(self):
        """It is seen before anything is sent, so nothing is in doubt."""
        for payload, call, reply in [
                (SET, lambda it: it.set("a", EMPTY), frame(b"s")),
                (b"A\x01a{}", lambda it: it.append("a", {}),
                 frame(b"p\x00")),
                (b"R\x01a", lambda it: it.remove("a"), frame(b"d")),
                (SET, lambda it: it.pipeline([Request.set("a", EMPTY)]),
                 frame(b"s"))]:
            with Server([found(EMPTY)], [reply]) as server:
                with Client.connect(server.port) as store:
                    store.get("a")
                    wait_until(lambda: server.closed == 1)
                    call(store)
            self.assertEqual(server.asked, [[GET], [payload]])

    def test_a_change_after_a_restart(self):
        """Of the program itself."""
        with tempfile.TemporaryDirectory() as folder:
            path = f"{folder}/socket"
            with served_at("--socket", path):
                store = Client.connect_unix(path)
                store.set("a", EMPTY)
            with store:
                self.assertRaises(DisconnectedError, store.set, "a", EMPTY)
                with served_at("--socket", path):
                    self.assertEqual(store.set("a", EMPTY), Stored())
                with served_at("--socket", path):
                    self.assertEqual(store.set("a", EMPTY), Stored())
                    store.close()

    def test_over_streams_it_is_told(self):
        """There is no other connection; and no request is sent."""
        reading, answers = os.pipe()
        requests, writing = os.pipe()
        store = Client(os.fdopen(reading, "rb"), os.fdopen(writing, "wb"))
        os.write(answers, found(EMPTY))
        self.assertRaises(ProtocolError, store.get, "a")
        os.close(answers)
        self.assertRaises(DisconnectedError, store.set, "a", EMPTY)
        store.close()
        self.assertEqual(os.read(requests, 100), b"")
        os.close(requests)

    def test_the_version_stays(self):
        """The new session is put into it before anything else."""
        two = frame(b"v\x02")
        with Server([two], [two, found(EMPTY)]) as server:
            with Client.connect(server.port) as store:
                self.assertEqual(store.version(2), Version(2))
                self.assertEqual(store.get("a"), EMPTY)
        self.assertEqual(server.asked, [[b"V\x02"], [b"V\x02", GET]])
        with Server([two], [frame(b"\x33"), found(EMPTY)]) as server:
            with Client.connect(server.port) as store:
                store.version(2)
                with self.assertRaises(Exception) as caught:
                    store.get("a")
                self.assertEqual(caught.exception.reply,
                                 Refused(51, "BadRequest"))

    def test_a_fetch_all_unless(self):
        """It puts each session into version 3 once, also a new one, and
        comes back to version 2 for nothing."""
        one, known = {"a": EMPTY}, unless({"a": EMPTY})
        with Server([all_of(one), THREE, SAME, frame(b"s"), SAME],
                    [THREE, SAME[:3]],
                    [THREE, all_of({}), found(EMPTY)]) as server:
            with Client.connect(server.port) as store:
                bundles = store.fetch_all()
                self.assertIsNone(store.fetch_all(unless=bundles))
                self.assertEqual(store.set_if("a", 7, EMPTY), Stored())
                self.assertIsNone(store.fetch_all(unless=bundles))
                with self.assertRaises(DisconnectedError):
                    store.fetch_all(unless=bundles)
                self.assertEqual(store.fetch_all(unless=bundles.digest), {})
                self.assertEqual(store.get("a"), EMPTY)
        set_if = b"C\x01a\x01" + bytes(7) + b"\x07" + EMPTY
        self.assertEqual(server.asked, [
            [FETCH, ASKS_THREE, known, set_if, known],
            [ASKS_THREE, known], [ASKS_THREE, known, GET]])

    def test_a_server_of_before(self):
        """It is asked for version 3 once a session, and then for all; the
        digests are compared here. Any call may find one of the two."""
        one, known = {"a": EMPTY}, unless({"a": EMPTY})
        old = [UNKNOWN, all_of(one), all_of(one), all_of({})]
        with Server([all_of(one), THREE, SAME], old,
                    [all_of(one), THREE, SAME]) as server:
            with Client.connect(server.port) as store:
                bundles = store.fetch_all()
                for _ in range(3):
                    self.assertIsNone(store.fetch_all(unless=bundles))
                self.assertEqual(store.fetch_all(unless=bundles), {})
                for _ in range(2):
                    self.assertIsNone(store.fetch_all(unless=bundles))
        self.assertEqual(server.asked, [
            [FETCH, ASKS_THREE, known], [ASKS_THREE, FETCH, FETCH, FETCH],
            [FETCH, ASKS_THREE, known]])

    def test_other_calls_find_a_server_of_before(self):
        """It need not have version 3, into which a fetch-all had put the
        session of before; but version 2, if there was a `set_if`."""
        two = frame(b"v\x02")
        with Server([THREE, SAME], [found(EMPTY), two, frame(b"s")],
                    [two, found(EMPTY)]) as server:
            with Client.connect(server.port) as store:
                store.fetch_all(unless=bytes(32))
                self.assertEqual(store.get("a"), EMPTY)
                store.set_if("a", 7, EMPTY)
                self.assertEqual(store.get("a"), EMPTY)
        self.assertEqual([asked[0] for asked in server.asked],
                         [ASKS_THREE, GET, b"V\x02"])

    def test_a_version_that_is_not_set(self):
        """The server is out of memory: nothing is asked, and later it is."""
        with Server([frame(b"\x16"), THREE, SAME]) as server:
            with Client.connect(server.port) as store:
                with self.assertRaises(GivenUpError):
                    store.fetch_all(unless=bytes(32))
                self.assertIsNone(store.fetch_all(unless=bytes(32)))
        self.assertEqual(server.asked, [[ASKS_THREE, ASKS_THREE,
                                         b"U" + bytes(32)]])

    def test_after_a_timeout(self):
        """The reply that comes too late is not taken for another one."""
        with Server([b"", STAYS], [found(b"b")]) as server:
            with Client.connect(server.port) as store:
                with self.assertRaises(TimedOutError):
                    store.get("a", timeout=1)
                self.assertEqual(store.get("b"), b"b")

    def test_batches_of_a_pipeline(self):
        """Asked again if they are reads only; else what came is given."""
        get, change = Request.get("a"), Request.set("a", EMPTY)
        with Server([found(b"1")], [found(b"2"), found(b"3")]) as server:
            with Client.connect(server.port) as store:
                self.assertEqual(store.pipeline([get, get]),
                                 [Found(b"2"), Found(b"3")])
        with Server([found(b"1")], [found(b"2")]) as server:
            with Client.connect(server.port) as store:
                with self.assertRaises(DisconnectedError) as caught:
                    store.pipeline([get, change, get])
                self.assertIn(caught.exception.replies, [[Found(b"1")], []])
        self.assertEqual(server.asked[0][:1], [GET])

    def test_a_unix_socket(self):
        def serve():
            for _ in range(2):
                stream, _ = listener.accept()
                with stream:
                    self.assertEqual(take_payload(stream), GET)
                    stream.sendall(found(EMPTY))

        with tempfile.TemporaryDirectory() as folder:
            path = f"{folder}/socket"
            with socket.socket(socket.AF_UNIX) as listener:
                listener.bind(path)
                listener.listen()
                serving = threading.Thread(target=serve, daemon=True)
                serving.start()
                with Client.connect_unix(path) as store:
                    for _ in range(2):
                        self.assertEqual(store.get("a"), EMPTY)
                serving.join(60)
            with self.assertRaises(DisconnectedError):
                Client.connect_unix(path)
