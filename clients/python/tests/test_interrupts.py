# SPDX-License-Identifier: Apache-2.0
"""Exceptions that come from the handler of a signal, anywhere in a call."""
import contextlib
import gc
import random
import signal
import subprocess
import sys
import tempfile
import threading
import time
import unittest
import warnings

from hopslintel import (Client, Found, HopslintelError, Removed, Request,
                        Stored, TimedOutError, Unchanged)
from hopslintel.connection import Deadline
from hopslintel.turns import Turns

from .support import (EMPTY, STAYS, Server, answered_by, beside, found,
                      numbered, real, served_at)

ALARMS = hasattr(signal, "setitimer")
BUNDLES = {"a": numbered(1), "b": numbered(2), "many": real("many")}
# A call that waits for ever, as for a lock that is held, ends as an error.
LIMIT = 60


class Interrupt(Exception):
    """What the handler raises."""


class Alarms:
    """Exceptions of a handler: as many as are `left`, the first of them after
    some seconds, and each other one microseconds after the one before."""

    def __init__(self, kind=Interrupt):
        self.kind, self.left = kind, 0

    def __enter__(self):
        """One that comes as an object is destroyed is ignored; and sockets
        that were being made are closed with what held them. Python would
        tell both."""
        self.warnings = warnings.catch_warnings()
        self.warnings.__enter__()
        warnings.simplefilter("ignore", ResourceWarning)
        self.ignored, sys.unraisablehook = sys.unraisablehook, lambda _: None
        self.before = signal.signal(signal.SIGALRM, self.handle)
        return self

    def __exit__(self, *error):
        self.left = 0
        signal.setitimer(signal.ITIMER_REAL, 0)
        signal.signal(signal.SIGALRM, self.before)
        gc.collect()
        sys.unraisablehook = self.ignored
        self.warnings.__exit__(None, None, None)

    def set(self, seconds, count=1):
        self.left = count
        signal.setitimer(signal.ITIMER_REAL, seconds)

    def handle(self, *_):
        if self.left > 0:
            self.left -= 1
            if self.left > 0:
                signal.setitimer(signal.ITIMER_REAL, 5e-6)
            raise self.kind


@contextlib.contextmanager
def filled():
    """The path at which a store with the bundles listens."""
    with tempfile.TemporaryDirectory() as folder:
        path = f"{folder}/socket"
        # (it tells a fault of each request that was cut)
        with served_at("--socket", path, stderr=subprocess.DEVNULL):
            with Client.connect_unix(path) as store:
                for name, text in BUNDLES.items():
                    store.set(name, text)
            yield path


class Checked:
    """Calls of a client at random. `wrong` has the answers that were not
    right."""

    def __init__(self, store):
        self.store, self.wrong = store, []

    def expect(self, answer, *wanted):
        if answer not in wanted:
            self.wrong.append((answer, wanted))

    def get(self):
        name = random.choice([*BUNDLES])
        self.expect(self.store.get(name, timeout=LIMIT), BUNDLES[name])

    def call(self):
        store, kind = self.store, random.randrange(8)
        if kind == 0:
            self.expect(store.fetch_all(timeout=LIMIT), BUNDLES)
        elif kind == 1:
            self.expect(store.fetch_all(unless=bytes(32)), BUNDLES)
        elif kind == 2:
            self.expect(store.set("a", BUNDLES["a"]), Unchanged())
        elif kind == 3:
            self.expect(store.set_if("b", 2, BUNDLES["b"]), Unchanged())
        elif kind == 4:
            replies = store.pipeline([Request.get(it) for it in BUNDLES])
            self.expect(replies, [Found(it) for it in BUNDLES.values()])
        else:
            self.get()

    def until_interrupted(self, alarms, count, levels):
        """Calls until no exception is left. The second may come where the
        first is caught, so each has a level of its own."""
        try:
            if levels > 1:
                self.until_interrupted(alarms, count, levels - 1)
            else:
                alarms.set(random.uniform(1e-6, 400e-6), count)
            self.call_while(alarms)
        except Interrupt:
            pass

    def call_while(self, alarms):
        """A function of its own: a `try` of Python 3.13 leaves out the jump
        that ends the turn of a loop in it."""
        while alarms.left > 0:
            self.call()


@unittest.skipUnless(ALARMS, "the system has no such signals")
class InterruptsTest(unittest.TestCase):
    def interrupt(self, checked, count, each=1):
        """Each later call is answered, and right."""
        with Alarms() as alarms:
            for _ in range(count):
                checked.until_interrupted(alarms, each, each)
                checked.get()
        self.assertEqual(checked.wrong, [])

    def test_anywhere(self):
        """10,000 times."""
        with filled() as path, Client.connect_unix(path) as store:
            self.interrupt(Checked(store), 10_000)
            self.assertEqual(store.remove("a"), Removed())
            self.assertEqual(store.set("a", numbered(1)), Stored())

    def test_also_where_one_is_dealt_with(self):
        """Three at a time."""
        with filled() as path, Client.connect_unix(path) as store:
            self.interrupt(Checked(store), 1_000, each=3)

    def test_beside_other_threads(self):
        """Those are answered as if nothing was."""
        done = threading.Event()

        def ask():
            while not done.is_set():
                others.call()

        with filled() as path, Client.connect_unix(path) as store:
            checked, others = Checked(store), Checked(store)
            with beside(ask, ask):
                try:
                    self.interrupt(checked, 500)
                finally:
                    done.set()
            others.get()
        self.assertEqual(others.wrong, [])

    def test_the_end_of_a_client(self):
        """`close`, also of one that follows, after any of them."""
        with filled() as path:
            for _ in range(200):
                store = Client.connect_unix(path)
                with Alarms() as alarms:
                    try:
                        self.follow_and_close(store, alarms)
                    except Interrupt:
                        pass
                store.close()
                self.assertEqual([*store.follow(1)], [])

    def follow_and_close(self, store, alarms):
        alarms.set(random.uniform(1e-6, 2e-3))
        next(store.follow(1e-4))
        while alarms.left > 0:
            store.close()

    def test_an_alarm_is_not_taken_for_a_fault(self):
        """A get would be asked again after a connection that failed."""
        with answered_by(STAYS, timeout=LIMIT) as store:
            with Alarms(TimeoutError) as alarms:
                begun = time.monotonic()
                alarms.set(0.05)
                self.assertRaises(TimeoutError, store.get, "a")
                self.assertLess(time.monotonic() - begun, LIMIT / 2)

    def test_a_handler_that_asks(self):
        """It is told, and what it interrupted goes on."""
        told = []

        def handle(*_):
            try:
                store.get("b")
            except HopslintelError as error:
                told.append(error)

        slow = [bytes([byte]) for byte in found(b"x" * 20)]
        before = signal.signal(signal.SIGALRM, handle)
        try:
            with Server([slow, found(EMPTY)]) as server:
                with Client.connect(server.port) as store:
                    signal.setitimer(signal.ITIMER_REAL, 0.1)
                    self.assertEqual(store.get("a"), b"x" * 20)
                    self.assertEqual(store.get("b"), EMPTY)
        finally:
            signal.signal(signal.SIGALRM, before)
        self.assertIn("inside of another call", str(told[0]))
        self.assertEqual(server.asked, [[b"G\x01a", b"G\x01b"]])


class TurnsTest(unittest.TestCase):
    """A turn is over as soon as its call is."""

    def setUp(self):
        self.turns = Turns()

    def takes(self, seconds=LIMIT):
        try:
            self.turns.take(Deadline(seconds))
        finally:
            self.turns.give_back()

    def leaves(self):
        self.turns.take(Deadline(LIMIT))
        raise Interrupt

    def left_by(self):
        """The exception, which keeps the frame of the call."""
        try:
            self.leaves()
        except Interrupt as error:
            return error

    def test_one_that_was_not_given_back(self):
        """It is taken by the same thread, or by another one."""
        for take in [self.takes, lambda: self.run_beside(self.takes)]:
            for _ in range(3):
                error = self.left_by()
                take()
                self.assertIsNotNone(error.__traceback__)

    def run_beside(self, work):
        with beside(work):
            pass

    def test_those_who_wait_take_it(self):
        """Nobody rings for them."""
        has_it, may_end = threading.Event(), threading.Event()

        def holds():
            self.turns.take(Deadline(LIMIT))
            has_it.set()
            may_end.wait(LIMIT)

        with beside(holds):
            has_it.wait(LIMIT)
            with self.assertRaises(TimedOutError):
                self.takes(0.2)
            with beside(self.takes, self.takes, self.takes):
                may_end.set()

    def test_one_at_a_time(self):
        """Also of those that are left, by four threads."""
        inside, most = [0], [0]

        def counts(leave):
            self.turns.take(Deadline(LIMIT))
            inside[0] += 1
            most[0] = max(most[0], inside[0])
            time.sleep(0)
            inside[0] -= 1
            if not leave:
                self.turns.give_back()

        def many():
            for number in range(2_000):
                counts(number % 3 == 0)

        with beside(many, many, many, many):
            pass
        self.assertEqual((inside, most), ([0], [1]))

    def test_one_that_is_not_free(self):
        self.assertTrue(self.turns.take_if_free())
        with beside(lambda: self.assertFalse(self.turns.take_if_free())):
            pass
        self.turns.give_back()
        with beside(lambda: self.assertTrue(self.turns.take_if_free())):
            pass
