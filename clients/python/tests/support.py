# SPDX-License-Identifier: Apache-2.0
"""What the tests share: documents, the program, and servers that fail."""
import contextlib
import hashlib
import os
import socket
import subprocess
import threading
import time

from hopslintel import Client

ROOT = os.path.abspath(f"{os.path.dirname(__file__)}/../../..")
PROGRAM = os.environ.get("BUNDLED", f"{ROOT}/crates/bundled/out/bundled")

EMPTY = b'{"keys":[]}'
ENTRY = b'{"use":"jwt-svid","kty":"RSA","kid":"k","n":"AQAB","e":"AQAB"}'
KEPT = b'{"e":"AQAB","kid":"k","kty":"RSA","n":"AQAB","use":"jwt-svid"}'
OTHER = ENTRY.replace(b'"n":"AQAB"', b'"n":"AQAC"')
GREATEST = 18446744073709551615


def frame(payload):
    return len(payload).to_bytes(4, "big") + payload


def found(text):
    """The reply to a get."""
    return frame(b"f" + text)


def all_of(bundles):
    """The reply to a fetch-all."""
    items = [frame(b"i" + bytes([len(name)]) + name.encode() + text)
             for name, text in sorted(bundles.items())]
    return frame(b"a" + len(items).to_bytes(8, "big")) + b"".join(items)


def unless(bundles):
    """The payload that asks for all unless they are these."""
    return b"U" + hashlib.sha256(all_of(bundles)).digest()


SAME = frame(b"e")
THREE, ASKS_THREE = frame(b"v\x03"), b"V\x03"
"""Of a session that is put into version 3."""
UNKNOWN = frame(b"\x33")
"""What a server answers to a request that it does not know."""


def document(*entries, **members):
    """A document of these entries and members, compact and in this order."""
    rest = "".join(f',"{name}":{value}' for name, value in members.items())
    return b'{"keys":[' + b",".join(entries) + b"]" + rest.encode() + b"}"


def numbered(sequence):
    return document(spiffe_sequence=sequence)


def real(name, kind="canonical"):
    """A real bundle; its canonical text was made by another program."""
    with open(f"{ROOT}/gate/bundles/{name}.{kind}", "rb") as file:
        return file.read().rstrip()


@contextlib.contextmanager
def over_a_pipe(*options):
    """A client of `bundled run` over an empty store."""
    words = [PROGRAM, "run", *options]
    how = {"stdin": subprocess.PIPE, "stdout": subprocess.PIPE}
    with subprocess.Popen(words, **how) as process:
        with Client(process.stdout, process.stdin) as client:
            yield client
    if process.returncode != 0:
        raise AssertionError(f"run ended with status {process.returncode}")


@contextlib.contextmanager
def served(*options):
    """The port of `bundled serve`, which ends with its standard input."""
    with served_at("--port", "0", *options) as port:
        yield int(port)


@contextlib.contextmanager
def served_at(*options, **how):
    """The port or the path where `bundled serve` listens."""
    words = [PROGRAM, "serve", "--connections", "unlimited",
             "--workers", "3", "--until-eof", *options]
    how = {"stdin": subprocess.PIPE, "stdout": subprocess.PIPE, **how}
    with subprocess.Popen(words, **how) as process:
        try:
            said, place = process.stdout.readline().decode().split()
            assert said == "listening"
            yield place
            process.communicate(timeout=60)
        finally:
            process.kill()
    if process.returncode != 0:
        raise AssertionError(f"serve ended with status {process.returncode}")


def take(stream, size):
    """As many bytes of a socket, or fewer if it ends."""
    taken = b""
    while len(taken) < size:
        piece = stream.recv(size - len(taken))
        if not piece:
            break
        taken += piece
    return taken


def take_payload(stream):
    return take(stream, int.from_bytes(take(stream, 4), "big"))


def wait_until(is_so):
    """Waits for it, at most a minute."""
    until = time.monotonic() + 60
    while not is_so():
        if time.monotonic() > until:
            raise AssertionError("it is not so after a minute")
        time.sleep(0.001)


STAYS = object()
"""In place of a reply: nothing comes, and the client ends the connection."""


class Server:
    """A server for as many connections as it has lists of replies, one
    after the other: each request gets the next reply of its list, and then
    the connection is closed.

    Nobody listens any more as soon as the last one is taken: the port stays
    bound until the end, so that no other program gets it. `asked` has the
    requests of each connection, and `closed` counts those that were closed.
    """

    def __init__(self, *sessions):
        self.sessions, self.asked, self.closed = sessions, [], 0
        self.kept = socket.socket()
        self.kept.setsockopt(socket.SOL_SOCKET, socket.SO_REUSEADDR, 1)
        self.kept.bind(("127.0.0.1", 0))
        self.listener = socket.create_server(self.kept.getsockname())
        self.port = self.listener.getsockname()[1]
        self.thread = threading.Thread(target=self._serve, daemon=True)
        self.thread.start()

    def __enter__(self):
        return self

    def __exit__(self, *error):
        with contextlib.suppress(OSError):
            self.listener.shutdown(socket.SHUT_RDWR)  # it ends its `accept`
        self.thread.join(60)
        self.listener.close()
        self.kept.close()
        if self.thread.is_alive():
            raise AssertionError("the server has not ended")

    def has_been_asked(self):
        return any(self.asked)

    def _serve(self):
        for number, replies in enumerate(self.sessions, 1):
            try:
                stream, _ = self.listener.accept()
            except OSError:
                return  # it was closed
            if number == len(self.sessions):
                self.listener.close()
            self.asked.append([])
            with stream, contextlib.suppress(OSError):
                for reply in replies:
                    self._answer(stream, reply)
            self.closed += 1

    def _answer(self, stream, reply):
        payload = take_payload(stream)
        if not payload:
            raise OSError("the client is gone")
        self.asked[-1].append(payload)
        if reply is STAYS:
            while stream.recv(65536):
                pass
            return
        for piece in reply if isinstance(reply, list) else [reply]:
            stream.sendall(piece)
            if isinstance(reply, list):
                time.sleep(0.02)


@contextlib.contextmanager
def answered_by(*replies, **settings):
    """A client of a server that gives these bytes, one after each request,
    and then closes."""
    with Server(replies) as server:
        with Client.connect(server.port, **settings) as client:
            yield client


@contextlib.contextmanager
def naming(connections=1):
    """The port of a server that answers each get by the name it asks for,
    after a moment in which another caller can come."""

    def answer(stream):
        with stream, contextlib.suppress(OSError):
            while True:
                payload = take_payload(stream)
                if not payload:
                    break
                time.sleep(0.0002)
                stream.sendall(found(payload[2:]))

    def accept():
        for _ in range(connections):
            with contextlib.suppress(OSError):
                answering = threading.Thread(target=answer, daemon=True,
                                             args=[listener.accept()[0]])
                answering.start()

    with socket.create_server(("127.0.0.1", 0)) as listener:
        accepting = threading.Thread(target=accept, daemon=True)
        accepting.start()
        yield listener.getsockname()[1]


@contextlib.contextmanager
def nobody_listens():
    """A port that is taken, and at which nobody listens."""
    with socket.socket() as silent:
        silent.bind(("127.0.0.1", 0))
        yield silent.getsockname()[1]


@contextlib.contextmanager
def beside(*works):
    """Runs the works in threads, until all are done after the block. What
    they raise is raised."""
    raised = []

    def run(work):
        try:
            work()
        except BaseException as error:
            raised.append(error)

    threads = [threading.Thread(target=run, args=[it], daemon=True)
               for it in works]
    for thread in threads:
        thread.start()
    try:
        yield
    finally:
        for thread in threads:
            thread.join(60)
    if raised:
        raise raised[0]
    if any(thread.is_alive() for thread in threads):
        raise AssertionError("a thread has not ended")


def run_together(*works):
    with beside(*works):
        pass
