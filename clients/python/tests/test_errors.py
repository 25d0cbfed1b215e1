# SPDX-License-Identifier: Apache-2.0
"""What is raised: of refusals, of broken replies, and of connections."""
import io
import os
import pickle
import unittest
import unittest.mock

from hopslintel import (MAX_PAYLOAD, Client, DisconnectedError, Expect,
                        GivenUpError, Held, HopslintelError, Moved,
                        NoDomainError, OutOfMemory, ProtocolError, Refused,
                        RefusedError, Request, Shut, Stored, TimedOutError,
                        Worn)

from .support import (EMPTY, ENTRY, STAYS, all_of, answered_by, found, frame,
                      nobody_listens)

# The answers that a quiet program does not give.
GIVEN_UP = [
    (frame(b"\x16"), OutOfMemory()),
    (frame(b"\x28\0\0\0\3"), Worn(3)),
    (frame(b"\x29\0\0\0\1" + bytes(7) + b"\2" + bytes(6) + b"\1\3"),
     Moved(1, 2, 259)),
    (frame(b"\x2a\0\0\0\1" + bytes(7) + b"\3"), Held(1, 3)),
    (frame(b"\x38"), Shut()),
]


class ErrorsTest(unittest.TestCase):
    def test_one_family(self):
        """Those of a connection are also what Python calls them."""
        for kind, others in [
                (RefusedError, []), (NoDomainError, [RefusedError]),
                (GivenUpError, []), (ProtocolError, []),
                (DisconnectedError, [ConnectionError, OSError]),
                (TimedOutError, [DisconnectedError, TimeoutError])]:
            for other in [HopslintelError, *others]:
                self.assertTrue(issubclass(kind, other), (kind, other))

    def test_they_can_be_pickled(self):
        for error in [
                *[RefusedError(Refused(36, "NotExpected", detail))
                  for detail in (None, 7, b"\x00", Expect.UNNUMBERED)],
                NoDomainError(Refused(30, "NoDomain")),
                *[GivenUpError(reply) for _, reply in GIVEN_UP],
                ProtocolError("why"), DisconnectedError("why"),
                TimedOutError("why")]:
            again = pickle.loads(pickle.dumps(error))
            self.assertIs(type(again), type(error))
            self.assertEqual(str(again), str(error))
            self.assertEqual(again.args, error.args)
            self.assertEqual(getattr(again, "reply", None),
                             getattr(error, "reply", None))

    def test_what_they_say(self):
        for error, text in [
                (RefusedError(Refused(31, "Stale", 7)), "refused 31 Stale 7"),
                (RefusedError(Refused(36, "NotExpected", Expect.ABSENT)),
                 "refused 36 NotExpected absent"),
                (RefusedError(Refused(57, "Unknown", b"\x00\x2a")),
                 "refused 57 Unknown 002a"),
                (NoDomainError(Refused(30, "NoDomain")),
                 "refused 30 NoDomain"),
                (GivenUpError(Held(3, 9)),
                 "given up 42: others had shard 3 in each try"),
                (GivenUpError(Shut()), "given up 56: this port is for reads "
                 "only, or a gate of the server is shut")]:
            self.assertEqual(str(error), text)

    def test_those_of_connecting(self):
        with nobody_listens() as port:
            with self.assertRaises(DisconnectedError) as caught:
                Client.connect(port)
        self.assertIsInstance(caught.exception.__cause__, OSError)
        self.assertRaises(DisconnectedError, Client.connect_unix, "/no/path")

    def test_numbers_that_are_not_known(self):
        """A refusal like any other, and the session goes on."""
        with answered_by(frame(b"\x39\x00\x2a"), frame(b"s")) as store:
            with self.assertRaises(RefusedError) as caught:
                store.set("a", EMPTY)
            self.assertEqual(caught.exception.reply,
                             Refused(57, "Unknown", b"\x00\x2a"))
            self.assertEqual(store.set("a", EMPTY), Stored())


class GivenUpTest(unittest.TestCase):
    def test_each_is_told(self):
        for data, reply in GIVEN_UP:
            with answered_by(data, data, retries=0) as store:
                self.assertEqual(store.ask(Request.fetch_all()), reply)
                with self.assertRaises(GivenUpError) as caught:
                    store.set("a", EMPTY)
                self.assertEqual(caught.exception.reply, reply)

    def test_only_what_others_were_in_the_way_of_is_asked_again(self):
        stored = frame(b"s")
        refusals = [(frame(b"\x1e"), Refused(30, "NoDomain"))]
        for data, reply in GIVEN_UP + refusals:
            is_final = not isinstance(reply, (Moved, Held))
            with answered_by(data, data, stored, retries=2) as store:
                answer = store.ask(Request.set("a", EMPTY))
                self.assertEqual(answer, reply if is_final else Stored())
            with answered_by(data, data, stored, retries=1) as store:
                self.assertEqual(store.ask(Request.set("a", EMPTY)), reply)

    def test_there_is_a_pause_before_each_retry(self):
        for data, reply in GIVEN_UP:
            is_final = not isinstance(reply, (Moved, Held))
            with unittest.mock.patch("time.sleep") as sleep:
                with answered_by(*[data] * 4, retries=3) as store:
                    store.ask(Request.set("a", EMPTY))
            slept = [call.args[0] for call in sleep.call_args_list]
            self.assertEqual(len(slept), 0 if is_final else 3)
            for seconds, most in zip(slept, [0.001, 0.002, 0.004]):
                self.assertTrue(0 <= seconds <= most, slept)

    def test_a_pipeline_asks_nothing_again(self):
        with answered_by(frame(b"\x16"), frame(b"s")) as store:
            replies = store.pipeline([Request.get("a"),
                                      Request.set("a", EMPTY)])
            self.assertEqual(replies, [OutOfMemory(), Stored()])


class BrokenRepliesTest(unittest.TestCase):
    def test_torn_replies(self):
        """A reply that is cut anywhere is an error."""
        for request, reply in [
                (Request.set("a", EMPTY), frame(b"s")),
                (Request.append("a", ENTRY),
                 frame(b"p\x01" + bytes(7) + b"\x09")),
                (Request.get("a"), found(EMPTY)),
                (Request.set("a", EMPTY), frame(b"\x1f" + bytes(8))),
                (Request.fetch_unless(bytes(32)), frame(b"e")),
                (Request.fetch_unless(bytes(32)), all_of({"a": EMPTY})),
                (Request.fetch_all(), all_of({"a": EMPTY, "b": EMPTY}))]:
            for size in range(len(reply)):
                with answered_by(reply[:size]) as store:
                    for _ in range(2):
                        with self.assertRaises(DisconnectedError):
                            store.ask(request)

    def test_what_is_not_a_reply(self):
        """The connection is dropped, though the server would go on."""
        for data in [frame(b"s\x00"), frame(b"\x40"), frame(b"v\x01"),
                     bytes(4), (MAX_PAYLOAD + 1).to_bytes(4, "big")]:
            with answered_by(data, found(EMPTY), STAYS) as store:
                self.assertRaises(ProtocolError, store.get, "a")
                self.assertRaises(DisconnectedError, store.get, "a")

    def test_a_reply_too_much(self):
        """It is not taken for the one to the next request."""
        with answered_by(found(b"a") + found(b"b"), STAYS) as store:
            self.assertEqual(store.get("a"), b"a")
            self.assertRaises(ProtocolError, store.get, "c")

    def test_the_longest_reply(self):
        text = b"x" * (MAX_PAYLOAD - 1)
        with answered_by(found(text)) as store:
            self.assertEqual(store.get("a"), text)


class StreamsTest(unittest.TestCase):
    def test_a_process_that_is_gone(self):
        """Both ends fail as a socket does, and so they stay."""
        store = Client(io.BytesIO(), io.BytesIO())
        for _ in range(2):
            self.assertRaises(DisconnectedError, store.get, "a")
        reading, writing = os.pipe()
        os.close(reading)
        store = Client(io.BytesIO(), os.fdopen(writing, "wb"))
        for _ in range(2):
            self.assertRaises(DisconnectedError, store.get, "a")

    def test_streams_that_give_little(self):
        """Unbuffered streams may take and give fewer bytes than asked."""

        class Slow(io.RawIOBase):
            def __init__(self, given=b""):
                self.given, self.taken = given, b""

            def readable(self):
                return True

            def writable(self):
                return True

            def readinto(self, room):
                size = min(len(room), 2, len(self.given))
                room[:size], self.given = self.given[:size], self.given[size:]
                return size

            def write(self, data):
                self.taken += bytes(data[:3])
                return len(data[:3])

        written = Slow()
        with Client(Slow(found(EMPTY)), written) as store:
            self.assertEqual(store.get("a"), EMPTY)
        self.assertEqual(written.taken, frame(b"G\x01a"))

    def test_streams_that_wait_for_as_much_as_was_asked_for(self):
        """No more is asked of them than has to come."""

        class Exact:
            def __init__(self, given):
                self.given = io.BytesIO(given)

            def fileno(self):
                raise io.UnsupportedOperation("fileno")

            def read(self, size):
                data = self.given.read(size)
                assert len(data) == size, "it would wait for ever"
                return data

            def close(self):
                pass

        both = all_of({"a": EMPTY, "b": EMPTY})
        with Client(Exact(found(EMPTY) + both), io.BytesIO()) as store:
            self.assertEqual(store.get("a"), EMPTY)
            self.assertEqual(store.fetch_all(), {"a": EMPTY, "b": EMPTY})
