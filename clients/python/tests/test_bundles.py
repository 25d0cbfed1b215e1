# SPDX-License-Identifier: Apache-2.0
"""What is made for other programs, and what changed."""
import base64
import copy
import hashlib
import io
import json
import math
import pickle
import ssl
import subprocess
import tempfile
import threading
import time
import unittest

from hopslintel import (Bundles, Changes, Client, DisconnectedError,
                        GivenUpError, Moved, ProtocolError, bundle_map,
                        changes_between, dump, jwks, pem, x509_authorities)

from .support import (ASKS_THREE, EMPTY, ENTRY, KEPT, PROGRAM, SAME, STAYS,
                      THREE, UNKNOWN, Server, all_of, answered_by, beside,
                      document, frame, numbered, real, served, unless,
                      wait_until)

REAL = ["many", "p521", "rotation", "rsa-4096", "spire-default",
        "with-unknown", "withdrawn"]
MOVED = frame(b"\x29\0\0\0\1" + bytes(8) + bytes(8))


class FilesTest(unittest.TestCase):
    def test_a_dump(self):
        """By hand; and the program reads it, from a file and as a filter."""
        bundles = {"b": numbered(3), "a": EMPTY}
        data = (frame(b"a" + bytes(7) + b"\x02") + frame(b"i\x01a" + EMPTY)
                + frame(b"i\x01b" + numbered(3)))
        self.assertEqual(dump(bundles), data)
        self.assertEqual(dump({}), frame(b"a" + bytes(8)))
        migrated = subprocess.run([PROGRAM, "migrate"], input=data,
                                  stdout=subprocess.PIPE, check=True).stdout
        self.assertEqual(migrated, b"".join(map(frame, [
            b"V\x02", b"C\x01a\x00" + EMPTY, b"C\x01b\x00" + numbered(3)])))
        with tempfile.TemporaryDirectory() as folder:
            file = f"{folder}/dump"
            with open(file, "wb") as it:
                it.write(data)
            with served("--load", file) as port:
                with Client.connect(port) as store:
                    self.assertEqual(store.fetch_all(), bundles)
                    self.assertEqual(dump(store.fetch_all()), data)

    def test_a_bundle_map(self):
        self.assertEqual(
            bundle_map({"b": numbered(3), "a": EMPTY}),
            b'{"trust_domains":{"a":{"keys":[]},'
            b'"b":{"keys":[],"spiffe_sequence":3}}}\n')
        self.assertEqual(bundle_map({}), b'{"trust_domains":{}}\n')


class BundlesTest(unittest.TestCase):
    def test_a_dict_with_a_digest(self):
        """It is equal to a plain dict, and can be copied and pickled."""
        with answered_by(all_of({"a": EMPTY, "b": numbered(1)})) as store:
            bundles = store.fetch_all()
        self.assertIsInstance(bundles, Bundles)
        self.assertEqual(bundles, {"a": EMPTY, "b": numbered(1)})
        self.assertEqual(repr(bundles), repr(dict(bundles)))
        for again in [pickle.loads(pickle.dumps(bundles)),
                      copy.copy(bundles), copy.deepcopy(bundles),
                      Bundles(bundles, bundles.digest)]:
            self.assertEqual(again, bundles)
            self.assertEqual(again.digest,
                             hashlib.sha256(dump(bundles)).digest())

    def test_what_is_no_digest(self):
        """Nothing is sent."""
        with Server([b"s"]) as server:
            with Client.connect(server.port) as store:
                for known in [b"", bytes(31), bytes(33), {}, {"a": EMPTY}]:
                    with self.assertRaises((TypeError, ValueError)):
                        store.fetch_all(unless=known)
                with self.assertRaises(TypeError):
                    store.fetch_all(unless="0" * 32)
        self.assertEqual(sum(server.asked, []), [])


class AuthoritiesTest(unittest.TestCase):
    X509 = (b'{"e":"AQAB","kty":"RSA","n":"AQAB","use":"x509-svid",'
            b'"x5c":["%s"]}')

    def test_by_hand(self):
        """In the bundle's order, whatever form the document has."""
        text = document(self.X509 % b"MAA=", KEPT, self.X509 % b"MAE=")
        for bundle in [text, text.decode(), bytearray(text), memoryview(text),
                       json.loads(text)]:
            self.assertEqual(x509_authorities(bundle), [b"0\0", b"0\1"])
            self.assertEqual(pem(bundle), (
                b"-----BEGIN CERTIFICATE-----\nMAA=\n"
                b"-----END CERTIFICATE-----\n-----BEGIN CERTIFICATE-----\n"
                b"MAE=\n-----END CERTIFICATE-----\n"))
            self.assertEqual(jwks(bundle), {"keys": [{
                "kty": "RSA", "use": "sig", "kid": "k", "n": "AQAB",
                "e": "AQAB"}]})

    def test_a_bundle_without_authorities(self):
        for bundle in [EMPTY, document(b'{"use":"x"}', b'{"kty":"EC"}')]:
            self.assertEqual(x509_authorities(bundle), [])
            self.assertEqual(pem(bundle), b"")
            self.assertEqual(jwks(bundle), {"keys": []})
        self.assertEqual(pem(document(ENTRY)), b"")

    def test_lines_of_pem(self):
        """64 characters in each, and fewer in the last."""
        for size, lengths in [(1, [4]), (47, [64]), (48, [64]), (49, [64, 4]),
                              (96, [64, 64]), (100, [64, 64, 8])]:
            text = base64.b64encode(b"x" * size)
            lines = pem(document(self.X509 % text)).splitlines()
            self.assertEqual([len(line) for line in lines[1:-1]], lengths)
            self.assertEqual(b"".join(lines[1:-1]), text)

    def test_real_bundles(self):
        """Python's ssl writes the same lines, and reads them."""
        for name in REAL:
            authorities = x509_authorities(real(name))
            entries = json.loads(real(name))["keys"]
            wanted = [key for key in entries if key["use"] == "x509-svid"]
            self.assertEqual(len(authorities), len(wanted))
            text = "".join(map(ssl.DER_cert_to_PEM_cert, authorities))
            self.assertEqual(pem(real(name)).decode(), text)
            context = ssl.SSLContext(ssl.PROTOCOL_TLS_CLIENT)
            for authority in authorities:
                context.load_verify_locations(cadata=authority)
            keys = jwks(real(name))["keys"]
            self.assertEqual(len(keys) + len(wanted), len(entries))
            self.assertLessEqual({key["use"] for key in keys}, {"sig"})


class ChangesTest(unittest.TestCase):
    def test_between_two(self):
        before = {"a": EMPTY, "b": EMPTY, "c": EMPTY, "d": EMPTY}
        after = {"a": EMPTY, "b": numbered(1), "d": EMPTY, "e": EMPTY}
        self.assertEqual(changes_between(before, after), Changes(
            bundles=after, added={"e": EMPTY}, changed={"b": numbered(1)},
            removed=("c",)))
        self.assertTrue(changes_between(before, after))
        self.assertFalse(changes_between(before, dict(before)))
        for some in [{"a": EMPTY}, {"b": EMPTY}]:
            self.assertTrue(changes_between({}, some))
            self.assertTrue(changes_between(some, {}))


class FollowTest(unittest.TestCase):
    ONE, TWO = {"a": EMPTY}, {"a": numbered(2), "b": EMPTY}

    def test_intervals_that_are_none(self):
        """They are refused when it is called, and not later."""
        with answered_by(STAYS) as store:
            for seconds in [0, -1, math.nan, math.inf]:
                self.assertRaises(ValueError, store.follow, seconds)

    def test_what_it_yields(self):
        """First what is there, even if it is nothing; then changes only. So
        it is with a server of before, which knows no digests."""
        one, both = all_of(self.ONE), all_of(self.TWO)
        for replies in [
                [THREE, SAME, one, SAME, both, SAME, SAME, all_of({})],
                [UNKNOWN, all_of({}), one, one, both, both, both,
                 all_of({})]]:
            with answered_by(all_of({}), *replies, STAYS) as store:
                changes = store.follow(0.001, timeout=5)
                self.assertEqual(next(changes), Changes({}, {}, {}, ()))
                self.assertEqual(next(changes), Changes(
                    self.ONE, self.ONE, {}, ()))
                self.assertEqual(next(changes), Changes(
                    self.TWO, {"b": EMPTY}, {"a": numbered(2)}, ()))
                self.assertEqual(next(changes), Changes(
                    {}, {}, {}, ("a", "b")))

    def test_what_it_asks(self):
        """By the digest of what came last, whatever became of it."""
        with Server([all_of({}), THREE, SAME, all_of(self.TWO), MOVED, SAME,
                     STAYS]) as server:
            with Client.connect(server.port, retries=1) as store:
                changes = store.follow(0.001)
                next(changes).bundles["x"] = EMPTY
                next(changes).bundles.clear()

                def close():
                    wait_until(lambda: len(server.asked[0]) == 7)
                    store.close()

                with beside(close):
                    self.assertRaises(StopIteration, next, changes)
        none, two = unless({}), unless(self.TWO)
        self.assertEqual(server.asked, [[b"F", ASKS_THREE, none, none, two,
                                         two, two]])

    def test_the_interval(self):
        with answered_by(all_of(self.ONE), THREE, SAME, SAME, all_of({}),
                         STAYS) as store:
            begun = time.monotonic()
            changes = store.follow(0.1)
            next(changes)
            self.assertLess(time.monotonic() - begun, 10)
            next(changes)
            self.assertGreaterEqual(time.monotonic() - begun, 0.3)

    def test_faults_are_raised(self):
        with answered_by(all_of({}), THREE, MOVED, retries=0) as store:
            changes = store.follow(0.001)
            next(changes)
            self.assertRaises(GivenUpError, next, changes)
            self.assertRaises(StopIteration, next, changes)

    def test_faults_of_the_moment(self):
        """A restart of the server, among others, and then what changed."""
        told = []
        with Server([all_of(self.ONE), THREE, MOVED], [b""], [b""],
                    [THREE, frame(b"\x16")],
                    [UNKNOWN, all_of(self.TWO), frame(b"s")]) as server:
            with Client.connect(server.port, retries=0) as store:
                changes = store.follow(0.001, on_error=told.append)
                self.assertEqual(next(changes).added, self.ONE)
                self.assertEqual(next(changes).added, {"b": EMPTY})
                self.assertEqual([type(error) for error in told],
                                 [GivenUpError, DisconnectedError,
                                  DisconnectedError, GivenUpError])
                self.assertIsInstance(told[0].reply, Moved)
                self.assertRaises(ProtocolError, next, changes)

    def test_streams_that_have_ended(self):
        """There is no other connection, so it does not go on."""
        for on_error in [None, self.fail]:
            store = Client(io.BytesIO(all_of({})), io.BytesIO())
            changes = store.follow(0.001, on_error=on_error)
            self.assertEqual(next(changes).bundles, {})
            self.assertRaises(DisconnectedError, next, changes)

    def test_it_ends_with_the_client(self):
        """Soon, also if it waits for the next fetch-all or for a reply."""
        for replies in [[all_of({}), STAYS], [STAYS]]:
            for on_error in [None, lambda error: None]:
                begun = time.monotonic()
                with answered_by(*replies) as store:
                    timer = threading.Timer(0.1, store.close)
                    with beside(timer.run):
                        for _ in store.follow(60, on_error=on_error):
                            pass
                self.assertLess(time.monotonic() - begun, 10)

    def test_over_the_program(self):
        with served() as port:
            with Client.connect(port) as store, \
                    Client.connect(port) as other:
                changes = store.follow(0.01)
                self.assertEqual(next(changes).bundles, {})
                other.set("a", numbered(1))
                self.assertEqual(next(changes).added, {"a": numbered(1)})
                other.set("a", numbered(2))
                self.assertEqual(next(changes).changed, {"a": numbered(2)})
                other.remove("a")
                self.assertEqual(next(changes).removed, ("a",))
