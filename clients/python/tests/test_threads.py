# SPDX-License-Identifier: Apache-2.0
"""Threads that share a client, deadlines, and the end of a client."""
import math
import os
import signal
import subprocess
import sys
import threading
import time
import unittest
import unittest.mock

from hopslintel import (Client, DisconnectedError, Found, GivenUpError,
                        Request, TimedOutError)

from .support import (EMPTY, STAYS, Server, answered_by, beside, found, frame,
                      naming, real, run_together, wait_until)


class ThreadsTest(unittest.TestCase):
    def gets(self, store, name, wrong, count=300):
        for _ in range(count):
            if store.get(name) != name.encode():
                wrong.append(name)

    def test_each_gets_its_own_reply(self):
        wrong = []
        with naming() as port, Client.connect(port) as store:
            run_together(*[lambda name=name: self.gets(store, name, wrong)
                           for name in ["a", "b", "c", "d"]])
        self.assertEqual(wrong, [])

    def test_pipelines_beside_others(self):
        wrong = []

        def pipes(name):
            for _ in range(5):
                replies = store.pipeline([Request.get(name)] * 130)
                if replies != [Found(name.encode())] * 130:
                    wrong.append(name)

        with naming() as port, Client.connect(port) as store:
            run_together(lambda: pipes("p"), lambda: pipes("q"),
                         lambda: self.gets(store, "a", wrong),
                         lambda: self.gets(store, "b", wrong))
        self.assertEqual(wrong, [])

    def test_others_may_ask_inside_a_pipeline(self):
        """Between two batches, while the next requests are made."""
        def requests():
            for number in range(130):
                if number == 65:  # the first batch was answered
                    self.assertEqual(store.get("a"), b"a")
                    run_together(lambda: self.assertEqual(store.get("b"),
                                                          b"b"))
                yield Request.get("p")

        with naming() as port, Client.connect(port) as store:
            self.assertEqual(store.pipeline(requests()), [Found(b"p")] * 130)

    @unittest.skipUnless(hasattr(os, "fork"), "the system has no fork")
    def test_a_child_process_has_a_connection_of_its_own(self):
        """It would take its parent's replies otherwise."""
        with naming(connections=2) as port, Client.connect(port) as store:
            wrong = []
            self.gets(store, "a", wrong, 1)
            child = os.fork()
            if child == 0:
                self.gets(store, "b", wrong)
                os._exit(1 if wrong else 0)
            self.gets(store, "c", wrong)
            self.assertEqual(os.waitpid(child, 0)[1], 0)
        self.assertEqual(wrong, [])

    @unittest.skipUnless(hasattr(os, "fork"), "the system has no fork")
    def test_a_child_process_has_no_streams(self):
        with self.echo() as store:
            child = os.fork()
            if child == 0:
                try:
                    store.get("a")
                except DisconnectedError:
                    os._exit(0)
                os._exit(1)
            self.assertEqual(os.waitpid(child, 0)[1], 0)
            self.assertEqual(store.get("a"), EMPTY)

    def echo(self):
        """A client of a process that answers one get."""
        return a_process(f"sys.stdin.buffer.read(7); write({found(EMPTY)!r})")


def a_process(text, **how):
    """A client of a process in Python, which has `write`."""
    script = ("import sys, time\ndef write(data):\n  sys.stdout.buffer.write("
              f"data)\n  sys.stdout.flush()\n{text}\nsys.stdin.read()")
    process = subprocess.Popen([sys.executable, "-c", script],
                               stdin=subprocess.PIPE, stdout=subprocess.PIPE,
                               **how)
    return OfProcess(process)


class OfProcess:
    """A client of a process, which is killed at the end."""

    def __init__(self, process):
        self.process = process
        self.client = Client(process.stdout, process.stdin, timeout=20)

    def __enter__(self):
        return self.client

    def __exit__(self, *error):
        self.process.kill()
        self.process.wait()
        self.client.close()


class DeadlinesTest(unittest.TestCase):
    def late(self, call, *words, **named):
        """The call is not done in time, and soon after that it ends."""
        begun = time.monotonic()
        self.assertRaises(TimedOutError, call, *words, **named)
        self.assertLess(time.monotonic() - begun, 10)

    def test_a_silent_server(self):
        for reply in [b"", frame(b"s")[:4]]:
            with answered_by(reply, STAYS, timeout=2) as store:
                self.late(store.set, "a", EMPTY)

    def test_a_reply_that_drips(self):
        """Each byte comes soon, and all of them would take 20 seconds."""
        drops = [bytes([byte]) for byte in found(b"x" * 1000)]
        with answered_by(drops, timeout=2) as store:
            self.late(store.get, "a")

    def test_one_call(self):
        with answered_by(found(EMPTY), b"", STAYS) as store:
            self.assertEqual(store.get("a", timeout=math.inf), EMPTY)
            self.late(store.get, "a", timeout=1)
        for call in [lambda it, **how: it.set("a", EMPTY, **how),
                     lambda it, **how: it.set_if("a", 1, EMPTY, **how),
                     lambda it, **how: it.append("a", EMPTY, **how),
                     lambda it, **how: it.remove("a", **how),
                     lambda it, **how: it.get_json("a", **how),
                     lambda it, **how: it.fetch_all(**how),
                     lambda it, **how: it.fetch_all(unless=bytes(32), **how),
                     lambda it, **how: it.version(2, **how),
                     lambda it, **how: it.ask(Request.get("a"), **how),
                     lambda it, **how: it.stats(**how),
                     lambda it, **how: it.pipeline([Request.get("a")],
                                                   **how),
                     lambda it, **how: [*it.follow(1, **how)]]:
            with answered_by(STAYS) as store:
                self.late(call, store, timeout=0.05)

    def test_limits_that_are_too_long(self):
        """For the system's clocks: they are none. One that is not a number
        is refused."""
        with answered_by(*[found(EMPTY)] * 3, timeout=1e300) as store:
            for seconds in [None, 3e6, 1e12]:
                self.assertEqual(store.get("a", timeout=seconds), EMPTY)
            with self.assertRaises(ValueError):
                store.get("a", timeout=math.nan)

    def test_ports_that_are_none(self):
        """The system would take the lower bits of their numbers."""
        for port in [0, -1, 65536, 65537]:
            self.assertRaises(ValueError, Client.connect, port)

    def test_retries(self):
        """If there is no time for the next, the last answer is given."""
        held = frame(b"\x2a\0\0\0\1" + bytes(8))
        with answered_by(*[held] * 10_000, retries=10_000) as store:
            begun = time.monotonic()
            with self.assertRaises((GivenUpError, TimedOutError)):
                store.get("a", timeout=0.3)
            self.assertLess(time.monotonic() - begun, 10)
        with unittest.mock.patch("hopslintel.client.pauses",
                                 lambda retries: [1000.0] * retries):
            with answered_by(held) as store:
                self.assertRaises(GivenUpError, store.get, "a")

    def test_waiting_for_another_thread(self):
        """The call that had the connection is not disturbed."""
        slow = [bytes([byte]) for byte in found(b"x" * 20)]
        with Server([slow, found(EMPTY)]) as server:
            with Client.connect(server.port) as store:
                with beside(lambda: self.assertEqual(store.get("a"),
                                                     b"x" * 20)):
                    wait_until(server.has_been_asked)
                    self.late(store.get, "a", timeout=0.05)
                self.assertEqual(store.get("a"), EMPTY)

    def test_a_process(self):
        """One that is silent, and one that takes nothing."""
        with a_process("time.sleep(60)") as store:
            self.late(store.get, "a", timeout=2)
        with a_process("time.sleep(60)") as store:
            self.late(store.set, "a", b" " * 1_000_000, timeout=2)

    def test_no_time_at_all(self):
        with answered_by(found(EMPTY)) as store:
            for seconds in [0, -1]:
                self.late(store.get, "a", timeout=seconds)
            self.assertEqual(store.get("a"), EMPTY)


class ClosingTest(unittest.TestCase):
    def ends(self, store, wait_until_asked):
        """A call ends if the client is closed once it has been asked."""
        def close():
            wait_until_asked()
            store.close()

        with beside(close):
            begun = time.monotonic()
            self.assertRaises(DisconnectedError, store.get, "a")
            self.assertLess(time.monotonic() - begun, 10)

    def test_a_call_of_another_thread_ends(self):
        for timeout in [30, math.inf]:
            with Server([b"", STAYS]) as server:
                with Client.connect(server.port, timeout=timeout) as store:
                    self.ends(store,
                              lambda: wait_until(server.has_been_asked))

    def test_a_call_over_streams_ends(self):
        """With the process, which sees the end of its input."""
        running = a_process("sys.stdin.buffer.read(7); print(file=sys.stderr)",
                            stderr=subprocess.PIPE)
        with running as store, running.process.stderr as told:
            self.ends(store, told.readline)

    def test_a_closed_client_stays_closed(self):
        with Server([found(EMPTY)], [found(EMPTY)]) as server:
            store = Client.connect(server.port)
            self.assertEqual(store.get("a"), EMPTY)
            for _ in range(2):
                store.close()
                self.assertRaises(DisconnectedError, store.get, "a")
                self.assertRaises(DisconnectedError, store.set, "a", EMPTY)
        self.assertEqual(server.asked, [[b"G\x01a"]])

    @unittest.skipUnless(hasattr(signal, "pthread_kill"), "no such signals")
    def test_a_call_that_is_interrupted(self):
        """Its reply is not taken for that of the next one."""
        def raise_it(*_):
            raise KeyboardInterrupt

        def interrupt():
            wait_until(server.has_been_asked)
            signal.pthread_kill(asking, signal.SIGUSR1)

        asking = threading.get_ident()
        before = signal.signal(signal.SIGUSR1, raise_it)
        try:
            with Server([b"", STAYS], [found(real("many"))]) as server:
                with Client.connect(server.port) as store:
                    with beside(interrupt):
                        self.assertRaises(KeyboardInterrupt, store.get, "a")
                    self.assertEqual(store.get("b"), real("many"))
        finally:
            signal.signal(signal.SIGUSR1, before)
