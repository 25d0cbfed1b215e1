# SPDX-License-Identifier: Apache-2.0
"""The command line."""
import contextlib
import io
import json
import os
import signal
import subprocess
import sys
import tempfile
import unittest

import hopslintel
from hopslintel import dump
from hopslintel.command_line import main

from .support import (EMPTY, ENTRY, SAME, STAYS, THREE, Server, all_of,
                      document, found, frame, nobody_listens, numbered, real, served,
                      served_at)

FOLDER = os.path.dirname(hopslintel.__file__)


def run(*words):
    """The status of the command line, and what it writes."""
    written = io.TextIOWrapper(io.BytesIO(), "utf-8")
    with contextlib.redirect_stdout(written), \
            contextlib.redirect_stderr(written):
        try:
            status = main(words)
        except SystemExit as end:
            status = end.code
    written.flush()
    return status, written.buffer.getvalue()


class CommandLineTest(unittest.TestCase):
    def test_each_command(self):
        with served() as port, tempfile.TemporaryDirectory() as folder:
            with open(f"{folder}/a.json", "wb") as file:
                file.write(b' {"keys": []}\n')
            for words, status, output in [
                    (["set", "a", file.name], 0, b"stored\n"),
                    (["set", "a", file.name], 0, b"unchanged\n"),
                    (["get", "a"], 0, EMPTY + b"\n"),
                    (["pem", "a"], 0, b""),
                    (["jwks", "a"], 0, b'{"keys":[]}\n'),
                    (["map"], 0, b'{"trust_domains":{"a":{"keys":[]}}}\n'),
                    (["dump"], 0, dump({"a": EMPTY})),
                    (["remove", "a"], 0, b"removed\n"),
                    (["get", "a"], 3, b"hopslintel: refused 30 NoDomain\n"),
                    (["set", "a", folder], 1, b"hopslintel: [Errno 21] Is a "
                     b"directory: '%s'\n" % folder.encode())]:
                self.assertEqual(run("--port", str(port), *words),
                                 (status, output))

    def test_authorities(self):
        bundle = frame(b"f" + real("rotation"))
        for command, output in [
                ("pem", hopslintel.pem(real("rotation"))),
                ("jwks", json.dumps(hopslintel.jwks(real("rotation")),
                                    separators=(",", ":")).encode() + b"\n")]:
            with Server([bundle]) as server:
                self.assertEqual(run("--port", str(server.port), command, "a"),
                                 (0, output))
            self.assertGreater(len(output), 500)

    def test_following(self):
        """A line for each change; it ends as the store breaks off."""
        with Server([all_of({"b": EMPTY, "a": EMPTY}), THREE, SAME,
                     all_of({"b": numbered(1), "c": EMPTY}),
                     frame(b"s")]) as server:
            status, output = run("--port", str(server.port), "follow",
                                 "--interval", "0.01")
        self.assertEqual(status, 1)
        self.assertTrue(output.startswith(
            b"+ a\n+ b\n- a\n~ b\n+ c\nhopslintel: "), output)

    def test_statuses(self):
        """3 if the store refused or gave up, 1 if it could not be asked, and
        2 if the command line was refused."""
        for reply, status in [(frame(b"d"), 0), (frame(b"\x1e"), 3),
                              (frame(b"\x38"), 3), (frame(b"\x39"), 3),
                              (frame(b"s"), 1), (b"", 1)]:
            with Server([reply]) as server:
                port = str(server.port)
                self.assertEqual(run("--port", port, "remove", "a")[0], status)
        with nobody_listens() as port:
            self.assertEqual(run("--port", str(port), "get", "a")[0], 1)
        with Server([STAYS]) as server:
            self.assertEqual(run("--port", str(server.port), "--timeout",
                                 "0.1", "get", "a")[0], 1)
        for words in [[], ["--port", "1"], ["--port", "x", "map"], ["map"],
                      ["--port", "1", "get"], ["--port", "1", "no", "a"],
                      ["--port", "1", "--socket", "x", "map"]]:
            self.assertEqual(run(*words)[0], 2)

    def test_numbers_that_are_refused(self):
        """Nothing is asked: 65537 would else be port 1."""
        for words in [["--port", "0", "map"], ["--port", "65537", "map"],
                      ["--port", "-1", "map"],
                      *[["--port", "1", "--timeout", it, "map"]
                        for it in ["0", "-1", "nan", "inf", "x"]],
                      *[["--port", "1", "follow", "--interval", it]
                        for it in ["0", "-1", "nan", "inf"]]]:
            status, output = run(*words)
            self.assertEqual(status, 2, words)
            self.assertNotIn(b"Traceback", output)
        with Server([all_of({})]) as server:
            self.assertEqual(run("--port", str(server.port), "--timeout",
                                 "1e12", "map")[0], 0)

    def test_the_version(self):
        self.assertEqual(run("--version"), (
            0, f"hopslintel {hopslintel.__version__}\n".encode()))

    def test_a_unix_socket(self):
        with tempfile.TemporaryDirectory() as folder:
            path = f"{folder}/socket"
            self.assertEqual(run("--socket", path, "map")[0], 1)
            with served_at("--socket", path):
                self.assertEqual(run("--socket", path, "map"),
                                 (0, b'{"trust_domains":{}}\n'))

    def test_a_full_disk(self):
        with Server([all_of({"a": document(ENTRY)})]) as server:
            with open("/dev/full", "wb") as full:
                words = [sys.executable, FOLDER, "--port", str(server.port)]
                env = {**os.environ, "PYTHONUNBUFFERED": ""}
                ran = subprocess.run([*words, "map"], stdout=full, env=env,
                                     stderr=subprocess.PIPE, timeout=60)
        self.assertEqual(ran.returncode, 1)
        self.assertIn(b"No space left", ran.stderr)

    def start(self, port, *words, **how):
        return subprocess.Popen(
            [sys.executable, FOLDER, "--port", str(port), *words],
            stdin=subprocess.DEVNULL, stderr=subprocess.PIPE, **how)

    def test_an_interrupt(self):
        """As Ctrl-C makes it: no traceback."""
        with Server([all_of({"a": EMPTY}), STAYS]) as server:
            with self.start(server.port, "follow",
                            stdout=subprocess.PIPE) as running:
                self.assertEqual(running.stdout.readline(), b"+ a\n")
                running.send_signal(signal.SIGINT)
                output, said = running.communicate(timeout=60)
        self.assertEqual((running.returncode, output, said), (130, b"", b""))

    def test_an_output_that_is_closed(self):
        """By the other end, or from the start."""
        with Server([all_of({"a": EMPTY})]) as server:
            reading, writing = os.pipe()
            os.close(reading)
            with self.start(server.port, "map", stdout=writing) as running:
                os.close(writing)
                said = running.communicate(timeout=60)[1]
        self.assertEqual((running.returncode, said.count(b"\n")), (1, 1))
        self.assertIn(b"Broken pipe", said)
        for closed, wanted in [(">&-", b"hopslintel: standard output is "
                                b"closed\n"), (">&- 2>&-", b"")]:
            ran = subprocess.run(
                ["sh", "-c", f'"$@" {closed}', "sh", sys.executable, FOLDER,
                 "--port", "1", "map"], stderr=subprocess.PIPE, timeout=60)
            self.assertEqual((ran.returncode, ran.stderr), (1, wanted))

    def test_what_a_terminal_would_obey(self):
        """It is escaped as JSON has it; a pipe gets the bytes."""
        text = ('{"keys":[],"x":"\x1b]0;\x07 \x7f \x9b2J \u202e \u2066 '
                'caf\u00e9 \t"}').encode() + b"\xff"
        shown = (b'{"keys":[],"x":"\\u001b]0;\\u0007 \\u007f \\u009b2J '
                 b'\\u202e \\u2066 caf\xc3\xa9 \\u0009"}\\xff\r\n')
        with Server([found(text)], [found(text)]) as server:
            with self.start(server.port, "get", "a",
                            stdout=subprocess.PIPE) as running:
                self.assertEqual(running.communicate(timeout=60),
                                 (text + b"\n", b""))
            terminal, its_end = os.openpty()
            with self.start(server.port, "get", "a",
                            stdout=its_end) as running:
                running.communicate(timeout=60)
            self.assertEqual(os.read(terminal, 4096), shown)
            os.close(its_end)
            os.close(terminal)

    def test_as_a_folder_and_as_a_module(self):
        env = {**os.environ, "PYTHONPATH": os.path.dirname(FOLDER),
               "PYTHONDONTWRITEBYTECODE": "1"}
        with Server([frame(b"d")] * 1, [frame(b"d")]) as server:
            for words in [[FOLDER], ["-m", "hopslintel"]]:
                ran = subprocess.run(
                    [sys.executable, *words, "--port", str(server.port),
                     "remove", "a"], env=env, stdout=subprocess.PIPE,
                    stderr=subprocess.PIPE, timeout=60)
                self.assertEqual((ran.returncode, ran.stdout, ran.stderr),
                                 (0, b"removed\n", b""))
