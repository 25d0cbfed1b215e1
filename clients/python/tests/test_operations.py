# SPDX-License-Identifier: Apache-2.0
"""What each operation answers, over the built program."""
import hashlib
import json
import subprocess
import tempfile
import unittest

from hopslintel import (MAX_PAYLOAD, All, Appended, Client, Expect, Found,
                        NoDomainError, Refused, RefusedError, Removed,
                        Request, Same, Stored, Unchanged, Version)

from .support import (EMPTY, ENTRY, GREATEST, KEPT, OTHER, PROGRAM, THREE,
                      UNKNOWN, all_of, answered_by, document, found, frame,
                      numbered, over_a_pipe, real, served, served_at)


class OperationsTest(unittest.TestCase):
    """What each operation gives, over a pipe, TCP and a Unix socket."""

    def check_operations(self, store):
        self.assertEqual(store.fetch_all(), {})
        self.assertRaises(NoDomainError, store.get, "a")
        self.assertEqual(store.set("b", document(ENTRY)), Stored())
        self.assertEqual(store.set("b", {"keys": [json.loads(ENTRY)]}),
                         Unchanged())
        self.assertEqual(store.append("b", ENTRY), Unchanged())
        self.assertEqual(store.append("b", OTHER.replace(b'"k"', b'"l"')),
                         Appended(None))
        self.assertEqual(store.set("a", numbered(7)), Stored())
        self.assertEqual(store.append("a", ENTRY), Appended(8))
        self.assertEqual(store.get("a"),
                         document(KEPT, spiffe_sequence=8))
        self.assertEqual(store.get_json("a")["spiffe_sequence"], 8)
        self.assertEqual([*store.fetch_all()], ["a", "b"])
        self.assertEqual(store.remove("b"), Removed())
        self.assertEqual(store.fetch_all(),
                         {"a": document(KEPT, spiffe_sequence=8)})
        self.assertEqual(store.version(1), Version(1))

    def test_over_a_pipe(self):
        with over_a_pipe() as store:
            self.check_operations(store)

    def test_over_tcp(self):
        with served() as port, Client.connect(port) as store:
            self.check_operations(store)

    def test_over_a_unix_socket(self):
        with tempfile.TemporaryDirectory() as folder:
            with served_at("--socket", f"{folder}/all") as path:
                self.assertEqual(path, f"{folder}/all")
                with Client.connect_unix(path) as store:
                    self.check_operations(store)

    def test_set_if(self):
        with over_a_pipe() as store:
            self.assertEqual(store.set_if("a", Expect.ABSENT, numbered(7)),
                             Stored())
            for expected, found in [(Expect.ABSENT, 7), (8, 7),
                                    (Expect.UNNUMBERED, 7)]:
                with self.assertRaises(RefusedError) as caught:
                    store.set_if("a", expected, numbered(9))
                self.assertEqual(caught.exception.reply,
                                 Refused(36, "NotExpected", found))
            self.assertEqual(store.set_if("a", 7, EMPTY), Stored())
            self.assertEqual(store.set_if("a", Expect.UNNUMBERED, EMPTY),
                             Unchanged())
            for name, found in [("a", Expect.UNNUMBERED),
                                ("b", Expect.ABSENT)]:
                reply = store.ask(Request.set_if(name, 1, EMPTY))
                self.assertEqual(reply, Refused(36, "NotExpected", found))

    def test_real_bundles(self):
        names = ["many", "p521", "rotation", "rsa-4096", "spire-default",
                 "with-unknown", "withdrawn"]
        texts = {name: real(name) for name in names}
        with over_a_pipe() as store:
            for name in reversed(names):
                self.assertEqual(store.set(name, real(name, "json")),
                                 Stored())
            self.assertEqual(store.fetch_all(), texts)
            self.assertEqual([*store.fetch_all()], names)

    def test_stats(self):
        """What the program has counted; a session by itself counts
        nothing."""
        with served() as port, Client.connect(port) as store:
            store.set("a", EMPTY)
            for _ in range(3):
                store.get("a")
            counts = store.stats()
            self.assertEqual(counts["domains"], 1)
            self.assertEqual(counts["requests_get"], 3)
            self.assertEqual(counts["refused_30"], 0)
            self.assertTrue(all(type(it) is int for it in counts.values()))
        with over_a_pipe() as store:
            self.assertEqual(store.stats(), {})

    def test_stats_by_hand(self):
        line = b"m" + b"seconds=0 a_1=18446744073709551615"
        with answered_by(THREE, frame(line), frame(b"m"), UNKNOWN) as store:
            self.assertEqual(store.stats(),
                             {"seconds": 0, "a_1": 18446744073709551615})
            self.assertEqual(store.stats(), {})
            self.assertRaises(RefusedError, store.stats)
        with answered_by(UNKNOWN, found(EMPTY)) as store:
            for _ in range(2):
                self.assertRaises(RefusedError, store.stats)
            self.assertEqual(store.get("a"), EMPTY)

    def test_a_fetch_all_unless(self):
        """By a result of before, or by a digest; `bundled digest` writes the
        same one."""
        names = ["many", "rotation", "withdrawn"]
        texts = {name: real(name) for name in names}
        with served() as port, Client.connect(port) as store:
            none = store.fetch_all()
            self.assertEqual(none.digest, hashlib.sha256(all_of({})).digest())
            self.assertIsNone(store.fetch_all(unless=none))
            for name in names:
                store.set(name, real(name, "json"))
            some = store.fetch_all(unless=none)
            self.assertEqual(some, texts)
            self.assertEqual([*some], names)
            for known in [some, some.digest, bytearray(some.digest)]:
                self.assertIsNone(store.fetch_all(unless=known))
            digest = subprocess.run([PROGRAM, "digest"], input=all_of(texts),
                                    stdout=subprocess.PIPE, check=True).stdout
            self.assertEqual(digest, some.digest.hex().encode() + b"\n")
            for known in [none, bytes(32)]:
                again = store.fetch_all(unless=known)
                self.assertEqual((again, again.digest), (some, some.digest))
            # What a caller does to the dict is nobody else's matter.
            some.clear()
            self.assertIsNone(store.fetch_all(unless=some))
            store.remove("rotation")
            self.assertEqual([*store.fetch_all(unless=some)],
                             ["many", "withdrawn"])
            self.assertEqual(store.set_if("a", Expect.ABSENT, EMPTY),
                             Stored())

    def test_what_a_set_answers(self):
        """The sequence decides, also against that of a removed bundle."""
        with over_a_pipe() as store:
            for given, answer in [
                    (numbered(5), Stored()),
                    (numbered(4), Refused(31, "Stale", 5)),
                    (numbered(5), Unchanged()),
                    (document(ENTRY, spiffe_sequence=5), Stored()),
                    (document(ENTRY, spiffe_sequence=5,
                              spiffe_refresh_hint=60), Stored()),
                    (EMPTY, Stored()),
                    (numbered(1), Stored()),
                    (numbered(GREATEST), Stored())]:
                self.assertEqual(store.ask(Request.set("a", given)), answer)
            store.remove("a")
            for given, answer in [
                    (numbered(5), Refused(31, "Stale", GREATEST)),
                    (numbered(GREATEST), Stored())]:
                self.assertEqual(store.ask(Request.set("a", given)), answer)


class RefusalsTest(unittest.TestCase):
    def check(self, *rows):
        with over_a_pipe() as store:
            for request, reply in rows:
                self.assertEqual(store.ask(request), reply)

    def test_names_and_payloads(self):
        bad = Refused(51, "BadRequest")
        self.check(
            (Request.get(""), Refused(1, "Empty")),
            (Request.set("", b"[]"), Refused(1, "Empty")),
            (Request.get("ab.C"), Refused(3, "BadChar", 3)),
            (Request.remove("\u00e9"), Refused(3, "BadChar", 0)),
            (Request.append("a/b", b"[]"), Refused(3, "BadChar", 1)),
            (Request(b"Z"), bad), (Request(b"G\x02a"), bad),
            (Request(b"R\x01ab"), bad), (Request(b"F\x00"), bad),
            (Request.version(0), bad), (Request.version(4), bad),
            (Request(b"V"), bad), (Request(b"V\x03\x03"), bad),
            (Request.set_if("a", Expect.ABSENT, EMPTY), bad),
            (Request.fetch_unless(bytes(32)), bad),
            (Request.version(2), Version(2)),
            (Request.fetch_unless(bytes(32)), bad),
            (Request.version(3), Version(3)),
            (Request(b"U"), bad), (Request(b"U" + bytes(31)), bad),
            (Request(b"U" + bytes(33)), bad), (Request(b"Ua" * 32), bad),
            (Request.fetch_unless(bytes(32)), All({})),
            (Request.fetch_unless(hashlib.sha256(all_of({})).digest()),
             Same()),
            (Request(b"C\x01a\x03" + EMPTY), bad),
            (Request(b"C\x01a\x01" + EMPTY[:7]), bad),
            (Request(b"Z" * MAX_PAYLOAD), bad),
            (Request.fetch_all(), All({})))

    def test_documents(self):
        curve = b'{"kty":"EC","use":"jwt-svid","crv":"P-256","kid":"k"}'
        anchor = (b'{"kty":"RSA","use":"x509-svid","n":"AQAB","e":"AQAB",'
                  b'"x5c":["MAA"]}')
        kids = [ENTRY.replace(b'"k"', b'"k%d"' % n) for n in range(1025)]
        for given, refusal in [
                (EMPTY.ljust(1_048_577), Refused(10, "TooLong")),
                (b"", Refused(11, "NotJson")),
                (b"\xff", Refused(11, "NotJson")),
                (b"[]", Refused(12, "NotObject")),
                (b"{}", Refused(13, "NoKeys")),
                (numbered(-1), Refused(14, "BadSequence")),
                (numbered("1e0"), Refused(14, "BadSequence")),
                (numbered(GREATEST + 1), Refused(14, "BadSequence")),
                (document(b"5", spiffe_refresh_hint='"x"'),
                 Refused(15, "BadHint")),
                (document(ENTRY, b"5"), Refused(16, "BadEntry", 1)),
                (document(ENTRY, ENTRY, curve), Refused(17, "BadKey", 2)),
                (document(anchor), Refused(18, "BadX5c", 0)),
                (document(ENTRY.replace(b'"k"', b'""')),
                 Refused(19, "BadKid", 0)),
                (document(ENTRY, OTHER), Refused(20, "KidTwice", 1)),
                (document(*kids), Refused(21, "TooMany"))]:
            self.check((Request.set("a", given), refusal),
                       (Request.get("a"), Refused(30, "NoDomain")))

    def test_appends(self):
        kids = [ENTRY.replace(b'"k"', b'"k%d"' % n) for n in range(1024)]
        anchor = (b'{"use":"x509-svid","kty":"RSA","n":"AQAB","e":"AQAB",'
                  b'"x5c":["' + b"A" * 1_048_500 + b'"]}')
        self.check(
            (Request.append("a", ENTRY), Refused(30, "NoDomain")),
            (Request.set("a", document(ENTRY)), Stored()),
            (Request.append("a", b'{"kty":"OKP","use":"jwt-svid"}'),
             Refused(23, "PassedOver")),
            (Request.append("a", b"{"), Refused(11, "NotJson")),
            (Request.append("a", b"5"), Refused(16, "BadEntry", 0)),
            (Request.append("a", OTHER), Refused(32, "KidTaken")),
            (Request.set("a", document(*kids)), Stored()),
            (Request.append("a", ENTRY), Refused(33, "TooMany")),
            (Request.set("a", document(anchor)), Stored()),
            (Request.append("a", ENTRY), Refused(34, "TooLong")),
            (Request.set("a", numbered(GREATEST)), Stored()),
            (Request.append("a", ENTRY), Refused(35, "SequenceFull")),
            (Request.get("a"), Found(numbered(GREATEST))))

    def test_refusals_are_raised(self):
        with over_a_pipe() as store:
            for call, reply in [
                    (lambda: store.set("a", b"[]"), Refused(12, "NotObject")),
                    (lambda: store.remove("a"), Refused(30, "NoDomain")),
                    (lambda: store.version(9), Refused(51, "BadRequest"))]:
                with self.assertRaises(RefusedError) as caught:
                    call()
                self.assertEqual(caught.exception.reply, reply)
            self.assertEqual(store.fetch_all(), {})
