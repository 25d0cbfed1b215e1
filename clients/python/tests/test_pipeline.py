# SPDX-License-Identifier: Apache-2.0
"""Pipelines, and several clients of one server."""
import itertools
import json
import threading
import unittest

from hopslintel import (All, Client, DisconnectedError, Expect, Found,
                        ProtocolError, Refused, RefusedError, Removed,
                        Request, Stored, Version)

from .support import (EMPTY, answered_by, beside, document, frame, numbered,
                      over_a_pipe, real, run_together, served)


class PipelineTest(unittest.TestCase):
    def check_large_replies(self, store):
        """106 MB of replies to 10,000 requests, which take 190 kB."""
        text = real("many")
        store.set("many.example", text)
        requests = (Request.get("many.example") for _ in range(10_000))
        self.assertEqual(store.pipeline(requests), [Found(text)] * 10_000)

    def test_large_replies_over_a_pipe(self):
        with over_a_pipe() as store:
            self.check_large_replies(store)

    def test_large_replies_over_tcp(self):
        with served() as port, Client.connect(port) as store:
            self.check_large_replies(store)

    def test_large_requests_and_replies(self):
        """Each of them fills the buffers between the two by itself."""
        anchor = (b'{"e":"AQAB","kty":"RSA","n":"AQAB","use":"x509-svid",'
                  b'"x5c":["' + b"A" * 700_000 + b'"]}')
        requests, wanted = [], []
        for sequence in range(10):
            text = document(anchor, spiffe_sequence=sequence)
            requests += [Request.set("a", text), *[Request.get("a")] * 5]
            wanted += [Stored(), *[Found(text)] * 5]
        with over_a_pipe() as store:
            self.assertEqual(store.pipeline(requests), wanted)

    def test_replies_come_in_order(self):
        requests, wanted = [Request.version(2)], [Version(2)]
        for number in range(1000):
            name = f"n{number}"
            requests += [Request.set_if(name, Expect.ABSENT, numbered(number)),
                         Request.get(name), Request.get("none"),
                         Request.remove(name)]
            wanted += [Stored(), Found(numbered(number)),
                       Refused(30, "NoDomain"), Removed()]
        with over_a_pipe() as store:
            self.assertEqual(store.pipeline(requests), wanted)
            self.assertEqual(store.set_if("a", Expect.ABSENT, EMPTY),
                             Stored())

    def test_fetch_alls_among_others(self):
        with over_a_pipe() as store:
            replies = store.pipeline([
                Request.set("a", EMPTY), Request.fetch_all(),
                Request.remove("a"), Request.fetch_all()])
            self.assertEqual(replies, [Stored(), All({"a": EMPTY}),
                                       Removed(), All({})])

    def test_it_is_asked_when_it_is_called(self):
        """Though nobody looks at the replies."""
        with over_a_pipe() as store:
            store.pipeline(Request.set(f"n{number}", numbered(number))
                           for number in range(200))
            self.assertEqual(store.pipeline([]), [])
            self.assertEqual(len(store.fetch_all()), 200)

    def test_requests_that_fail(self):
        def requests():
            yield Request.get("a")
            raise KeyError("no more")

        with over_a_pipe() as store:
            self.assertRaises(KeyError, store.pipeline, requests())
            self.assertEqual(store.set("a", EMPTY), Stored())

    def test_a_server_that_ends(self):
        """The error has what came before its end."""
        with answered_by(frame(b"s"), frame(b"s")[:3]) as store:
            with self.assertRaises(DisconnectedError) as caught:
                store.pipeline([Request.set("a", EMPTY)] * 5)
            self.assertEqual(caught.exception.replies, [Stored()])
            self.assertRaises(DisconnectedError, store.get, "a")

    def test_a_batch_that_fails(self):
        """Of 130 requests 64 are sent at once."""
        with answered_by(*[frame(b"s")] * 64, frame(b"f")) as store:
            with self.assertRaises(ProtocolError) as caught:
                store.pipeline([Request.set("a", EMPTY)] * 130)
            self.assertEqual(caught.exception.replies, [Stored()] * 64)


class TogetherTest(unittest.TestCase):
    """Several clients of one server."""

    def test_a_fetch_all_shows_one_moment(self):
        """`a` is set before `b`, to 1, 2 and so on; each fetch-all shows
        both at the same sequence, or `a` ahead by one. The names are of two
        shards."""
        done = threading.Event()

        def write():
            with Client.connect(port, retries=1000) as store:
                for sequence in itertools.count(1):
                    store.set("a", numbered(sequence))
                    store.set("b", numbered(sequence))
                    if done.is_set():
                        break

        def sequence_of(name, bundles):
            text = bundles.get(name, numbered(0))
            return json.loads(text)["spiffe_sequence"]

        seen = set()
        with served("--shards", "4") as port:
            with beside(write):
                with Client.connect(port, retries=1000) as store:
                    for _ in range(1000):
                        bundles = store.fetch_all()
                        seen.add(tuple(sequence_of(it, bundles)
                                       for it in "ab"))
                done.set()
        self.assertLessEqual({first - second for first, second in seen},
                             {0, 1})
        self.assertGreater(len(seen), 1)

    def test_no_update_is_lost(self):
        """Two clients count in one document by `set_if`."""
        with served() as port:
            with Client.connect(port) as store:
                store.set("a", numbered(0))

            def count():
                with Client.connect(port, retries=1000) as store:
                    done = 0
                    while done < 200:
                        last = store.get_json("a")["spiffe_sequence"]
                        try:
                            store.set_if("a", last, numbered(last + 1))
                            done += 1
                        except RefusedError as error:
                            if error.reply.number != 36:
                                raise

            run_together(count, count)
            with Client.connect(port) as store:
                self.assertEqual(store.get("a"), numbered(400))
