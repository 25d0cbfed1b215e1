# SPDX-License-Identifier: Apache-2.0
"""The protocol without input and output."""
import hashlib
import unittest

from hopslintel import (MAX_PAYLOAD, All, Appended, Expect, Found, Held,
                        Moved, OutOfMemory, ProtocolError, Refused, Removed,
                        Request, Same, Shut, Stored, Unchanged, Version, Worn)
from hopslintel.session import Frames, Session, batches, pauses

from .support import EMPTY, ENTRY, THREE, UNKNOWN, all_of, found, frame

UNLESS = Request.fetch_unless(bytes(range(32)))

# Each reply, its bytes, and a request that it answers.
REPLIES = [
    ("00000001 73", Stored(), Request.set("a", EMPTY)),
    ("00000001 75", Unchanged(), Request.append("a", ENTRY)),
    ("00000001 64", Removed(), Request.remove("a")),
    ("00000002 70 00", Appended(None), Request.append("a", ENTRY)),
    ("0000000a 70 01 0000000000000102", Appended(258),
     Request.append("a", ENTRY)),
    ("0000000c 66 7b226b657973223a5b5d7d", Found(EMPTY), Request.get("a")),
    ("00000009 61 0000000000000000", All({}), Request.fetch_all()),
    ("00000009 61 0000000000000001 0000000e 69 01 61 7b226b657973223a5b5d7d",
     All({"a": EMPTY}), Request.fetch_all()),
    ("00000001 65", Same(), UNLESS),
    ("00000009 61 0000000000000001 0000000e 69 01 61 7b226b657973223a5b5d7d",
     All({"a": EMPTY}), UNLESS),
    ("00000002 76 02", Version(2), Request.version(2)),
    ("00000002 76 03", Version(3), Request.version(3)),
    ("00000005 03 00000004", Refused(3, "BadChar", 4), Request.get("abcdE")),
    ("00000009 1f 0000000000000007", Refused(31, "Stale", 7),
     Request.set("a", EMPTY)),
    ("00000002 24 00", Refused(36, "NotExpected", Expect.ABSENT),
     Request.set_if("a", 1, EMPTY)),
    ("00000002 24 02", Refused(36, "NotExpected", Expect.UNNUMBERED),
     Request.set_if("a", 1, EMPTY)),
    ("0000000a 24 01 0000000000000009", Refused(36, "NotExpected", 9),
     Request.set_if("a", 1, EMPTY)),
    ("00000001 16", OutOfMemory(), Request.get("a")),
    ("00000005 28 00000003", Worn(3), Request.remove("a")),
    ("00000015 29 00000001 0000000000000002 0000000000000103",
     Moved(1, 2, 259), Request.fetch_all()),
    ("0000000d 2a 00000001 0000000000000003", Held(1, 3), Request.get("a")),
    ("0000000d 2a 00000001 0000000000000003", Held(1, 3), UNLESS),
    ("00000001 33", Refused(51, "BadRequest"), UNLESS),
    ("00000001 38", Shut(), Request.set("a", EMPTY)),
    # Numbers that are not known are refusals, with the bytes that came.
    ("00000001 00", Refused(0, "Unknown"), Request.get("a")),
    ("00000001 02", Refused(2, "Unknown"), Request.get("a")),
    ("00000001 32", Refused(50, "Unknown"), Request.get("a")),
    ("00000003 39 002a", Refused(57, "Unknown", b"\x00\x2a"),
     Request.get("a")),
    ("00000002 3f ff", Refused(63, "Unknown", b"\xff"), Request.fetch_all()),
]


class RequestsTest(unittest.TestCase):
    def test_bytes_of_each_request(self):
        for request, payload in [
                (Request.set("a", EMPTY), b"S\x01a" + EMPTY),
                (Request.set("a", '{"keys":[]}'), b"S\x01a" + EMPTY),
                (Request.set("a", {"keys": []}), b"S\x01a" + EMPTY),
                (Request.set("a", bytearray(EMPTY)), b"S\x01a" + EMPTY),
                (Request.set("a", memoryview(EMPTY)), b"S\x01a" + EMPTY),
                (Request.append("a.b", ENTRY), b"A\x03a.b" + ENTRY),
                (Request.remove("a"), b"R\x01a"),
                (Request.get("a"), b"G\x01a"),
                (Request.get(""), b"G\x00"),
                (Request.fetch_all(), b"F"),
                (UNLESS, b"U" + bytes(range(32))),
                (Request.fetch_unless(bytearray(32)), b"U" + bytes(32)),
                (Request.version(2), b"V\x02"),
                (Request.set_if("a", Expect.ABSENT, EMPTY),
                 b"C\x01a\x00" + EMPTY),
                (Request.set_if("a", 258, EMPTY),
                 b"C\x01a\x01\0\0\0\0\0\0\x01\x02" + EMPTY),
                (Request.set_if("a", Expect.UNNUMBERED, EMPTY),
                 b"C\x01a\x02" + EMPTY)]:
            self.assertEqual(request.payload, payload)
            self.assertEqual(Session().ask(request), frame(payload))
            self.assertEqual(request.is_read, payload[:1] in [b"G", b"F",
                                                              b"U"])

    def test_what_has_no_frame(self):
        longest = b" " * (MAX_PAYLOAD - 3)
        self.assertEqual(len(Request.set("a", longest).payload), 1_049_000)
        for make in [
                lambda: Request.set("a", longest + b" "),
                lambda: Request.get("a" * 256),
                lambda: Request.set_if("a", -1, EMPTY),
                lambda: Request.set_if("a", 2 ** 64, EMPTY),
                lambda: Request.fetch_unless(bytes(31)),
                lambda: Request.fetch_unless(bytes(33)),
                lambda: Request.fetch_unless(b""),
                lambda: Request(b"")]:
            self.assertRaises(ValueError, make)


class SessionTest(unittest.TestCase):
    def test_replies_that_come_byte_by_byte(self):
        for text, reply, request in REPLIES:
            session, data = Session(), bytes.fromhex(text)
            session.ask(request)
            for at, byte in enumerate(data):
                self.assertIsNone(session.take())
                self.assertLessEqual(1, session.wanted)
                self.assertLessEqual(session.wanted, len(data) - at)
                session.feed(bytes([byte]))
            self.assertEqual(session.take(), reply)
            self.assertEqual(session.owed, 0)

    def test_replies_that_come_together(self):
        session = Session()
        sent = session.ask(*[request for _, _, request in REPLIES])
        self.assertEqual(sent, b"".join(
            frame(request.payload) for _, _, request in REPLIES))
        session.feed(b"".join(bytes.fromhex(text) for text, _, _ in REPLIES))
        for left, (_, reply, _) in zip(range(len(REPLIES), 0, -1), REPLIES):
            self.assertEqual(session.owed, left)
            self.assertEqual(session.take(), reply)
        self.assertIsNone(session.take())

    def test_what_was_not_asked_for(self):
        session = Session()
        session.ask(Request.get("a"))
        session.feed(found(EMPTY) + found(b"{}"))
        self.assertEqual(session.take(), Found(EMPTY))
        self.assertRaises(ProtocolError, session.ask, Request.get("b"))

    def test_what_is_not_a_reply(self):
        for payload in [
                b"s\x00", b"u\x00", b"d\x00", b"v", b"v\x01\x02", b"p",
                b"p\x02", b"p\x00\x00", b"p\x01" + bytes(7),
                b"p\x03" + bytes(8), b"a", b"a" + bytes(7), b"i\x01a" + EMPTY,
                b"S\x01a" + EMPTY, b"\x40", b"\x03", b"\x1f", b"e\x00",
                b"\x1f" + bytes(7), b"\x1f" + bytes(9), b"$", b"$\x01",
                b"$\x03", b"\x28", b"\x29" + bytes(19), b"\x2a" + bytes(13),
                b"\xff"]:
            for request in [Request.append("a", ENTRY), Request.get("a")]:
                session = Session()
                session.ask(request)
                session.feed(frame(payload))
                self.assertRaises(ProtocolError, session.take)

    def test_replies_to_other_requests(self):
        stored, none = frame(b"s"), frame(b"a" + bytes(8))
        one, two = found(EMPTY), frame(b"v\x02")
        for request, reply in [
                (Request.get("a"), stored), (Request.get("a"), none),
                (Request.get("a"), frame(b"a" + b"\xff" * 8)),
                (Request.set("a", EMPTY), one), (Request.remove("a"), two),
                (Request.fetch_all(), one), (Request.version(1), two),
                (Request.fetch_all(), frame(b"e")), (UNLESS, one),
                (Request.get("a"), frame(b"e")),
                (Request.append("a", ENTRY), stored)]:
            session = Session()
            session.ask(request)
            session.feed(reply)
            self.assertRaises(ProtocolError, session.take)

    def test_frames_of_a_fetch_all(self):
        """They are counted, and their names are names and rise strictly."""
        head = frame(b"a" + bytes(7) + b"\x02")
        first = frame(b"i\x01b" + EMPTY)
        for second in [b"i\x01a" + EMPTY, b"i\x01b" + EMPTY, b"i\x00" + EMPTY,
                       b"i\x01~" + EMPTY, b"i\x02b/" + EMPTY, b"i\x05ccc",
                       b"i", b"s", b"f" + EMPTY, b"a" + bytes(8), b"\x1e"]:
            session = Session()
            session.ask(Request.fetch_all())
            session.feed(head + first + frame(second))
            self.assertRaises(ProtocolError, session.take)
        session = Session()
        session.ask(Request.fetch_all())
        session.feed(all_of({"b": EMPTY, "b.": EMPTY}))
        self.assertEqual(session.take(), All({"b": EMPTY, "b.": EMPTY}))

    def test_digests(self):
        """Of the bytes that came; those that are written here are from
        `sha256sum`."""
        for bundles, digest in [
                ({}, "9cf4b161f3571e751912f9a78ae2015c"
                     "4fb288afe59c798f5452a18d6254c893"),
                ({"a": EMPTY}, "ce63fbe9ae39fbb5db7e5c7f35c4630b"
                               "6e662da041ff81ee66ff807889cc20a2")]:
            for request in [Request.fetch_all(), UNLESS]:
                session = Session()
                session.ask(request)
                for byte in all_of(bundles):
                    session.feed(bytes([byte]))
                self.assertEqual(session.take().digest,
                                 bytes.fromhex(digest))
        many = {f"n{number:04}": EMPTY * number for number in range(300)}
        session = Session()
        for _ in range(2):
            session.ask(UNLESS)
            session.feed(all_of(many))
            reply = session.take()
            self.assertEqual(reply.bundles, many)
            self.assertEqual(reply.digest,
                             hashlib.sha256(all_of(many)).digest())

    def test_versions(self):
        """As the replies tell them."""
        session = Session()
        self.assertEqual(session.version, 1)
        self.assertIsNone(session.refusal_of(3))
        for number, data, version in [
                (3, UNKNOWN, 1), (2, frame(b"v\x02"), 2),
                (2, frame(b"\x16"), 2), (3, THREE, 3),
                (1, frame(b"v\x01"), 1)]:
            session.ask(Request.version(number))
            session.feed(data)
            session.take()
            self.assertEqual(session.version, version)
            self.assertEqual(session.refusal_of(3),
                             Refused(51, "BadRequest"))
            self.assertIsNone(session.refusal_of(2))

    def test_lengths(self):
        for size in [0, MAX_PAYLOAD + 1, 2 ** 31, 2 ** 32 - 1]:
            frames = Frames()
            frames.feed(size.to_bytes(4, "big"))
            self.assertRaises(ProtocolError, frames.take)
        for size in [1, MAX_PAYLOAD]:
            frames = Frames()
            frames.feed(frame(b"x" * size)[:-1])
            self.assertIsNone(frames.take())
            self.assertEqual(frames.wanted, 1)
            frames.feed(b"x")
            self.assertEqual(frames.take(), b"x" * size)
            self.assertTrue(frames.is_empty)


class PolicyTest(unittest.TestCase):
    def test_batches(self):
        """At most 64 requests and 4096 bytes with their lengths, or one."""
        get, long = Request.get("a"), Request.set("a", b" " * 5000)
        half = Request.set("a", b" " * (2048 - 7))
        for requests, sizes in [
                ([], []), ([get], [1]), ([get] * 64, [64]),
                ([get] * 130, [64, 64, 2]), ([half] * 3, [2, 1]),
                ([get, half, half], [2, 1]), ([long, long], [1, 1]),
                ([get, long, get, get], [1, 1, 2])]:
            cut = list(batches(iter(requests)))
            self.assertEqual(list(map(len, cut)), sizes)
            self.assertEqual(sum(cut, []), requests)

    def test_pauses(self):
        """Of at most 1, 2, 4, .. and then 64 milliseconds."""
        for _ in range(100):
            slept = list(pauses(9))
            self.assertEqual(len(slept), 9)
            for seconds, most in zip(slept, [1, 2, 4, 8, 16, 32, 64, 64, 64]):
                self.assertTrue(0 <= seconds <= most / 1000, slept)
