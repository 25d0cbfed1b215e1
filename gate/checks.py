"""What the checks of the gate share: how they are run, servers under test and servers that answer anything, frames and documents.

A check is a function that raises if something is not as it should be; unittest runs it as a test. What it starts by a class or
function of this module ends after it, whether it failed or not: a server, a thread, a folder, a port that is kept.
"""
import base64
import contextlib
import faulthandler
import json
import os
import re
import shutil
import signal
import socket
import subprocess
import sys
import tempfile
import textwrap
import threading
import time
import traceback
import unittest

ROOT = os.path.dirname(os.path.dirname(os.path.abspath(__file__)))
BUNDLES = f"{ROOT}/gate/bundles"
# How long anything may take, on a machine that has much else to do; and how long a whole check.
SECONDS = 60
LONGEST = 1800
# How much of each line is shown of what a check says.
SHOWN = 2000
# Whether a check that is left out fails: .ci/run says so once it has installed all.
IS_ALL_NEEDED = os.environ.get("NOTHING_LEFT_OUT") == "1"

# What the check that runs has started.
AFTERWARDS = contextlib.ExitStack()


class LeftOut(unittest.SkipTest):
    """A check finds that this machine does not let it run, whatever is installed. That is told and counted, and fails nothing."""


class TooLong(BaseException):
    """A check has not ended in time. (What suppresses errors does not suppress this.)"""


class Told(unittest.TestResult):
    """A line for each check as it is done, or for each test, and at the end how many there were."""

    def __init__(self, is_quiet=False):
        super().__init__()
        self.is_quiet = is_quiet
        self.passed = self.failed = self.left_out = 0

    def passes(self, name, said=""):
        self.passed += 1
        if not self.is_quiet:
            print(f"{name}: as it should be{said}", flush=True)

    def fails(self, name, wrong):
        self.failed += 1
        print(f"{name}: FAILED: {wrong}", flush=True)

    def leaves_out(self, name, why, is_allowed=False):
        is_failure = IS_ALL_NEEDED and not is_allowed
        self.left_out, self.failed = self.left_out + 1, self.failed + is_failure
        print(f"{name}: {'FAILED: ' * is_failure}left out, since {why}", flush=True)

    def end(self):
        """Tells how many there were, and answers the status for the script to end with."""
        if self.left_out:
            print(f"{self.left_out} left out")
        print(f"{self.passed} passed, {self.failed} failed")
        return 1 if self.failed else 0

    # What unittest calls.

    def startTest(self, test):
        super().startTest(test)
        # One that never ends is ended, and so is what then waits for ever.
        signal.signal(signal.SIGALRM, end_it)
        signal.setitimer(signal.ITIMER_REAL, LONGEST, 5 * SECONDS)

    def stopTest(self, test):
        signal.setitimer(signal.ITIMER_REAL, 0)
        super().stopTest(test)

    def addSuccess(self, test):
        self.passes(name_of(test), getattr(test, "said", ""))

    def addError(self, test, error):
        self.fails(name_of(test), what_went_wrong(error[1]))

    addFailure = addError

    def addSubTest(self, test, part, error):
        if error:
            self.fails(name_of(test) + part.id()[len(test.id()):], what_went_wrong(error[1]))

    def addSkip(self, test, reason):
        self.leaves_out(name_of(test), reason, getattr(test, "is_not_let", False))


def name_of(test):
    return test.name if isinstance(test, Check) else test.id().rpartition(".")[2].replace("test_", "", 1)


# The functions by which a check is run and ended.
OF_RUNNING = ("runTest", "part", "end_it")


def end_it(*_):
    """Tells where each thread stands, and raises where the check does."""
    faulthandler.dump_traceback()
    raise TooLong(f"it has not ended after {LONGEST} seconds")


class Check(unittest.TestCase):
    """A function as a test, which is skipped if the machine lacks a program that it needs, or a file by its path. What the
    function has started ends after it."""

    running = None

    def __init__(self, name, does, needs=()):
        super().__init__()
        self.name, self.does, self.needs = name, does, needs
        self.said, self.is_not_let = "", False

    def id(self):
        return self.name

    def runTest(self):
        lacking = [it for it in self.needs if not (shutil.which(it) or os.path.exists(it))]
        if lacking:
            self.skipTest(f"this machine has no {lacking[0]}")
        Check.running = self
        try:
            with AFTERWARDS:
                self.said = self.does() or ""
        except LeftOut:
            self.is_not_let = True
            raise


@contextlib.contextmanager
def part(**what):
    """A part of the check that runs, such as a row of a table: if it fails that is told, and the check goes on. What it has
    started ends with it."""
    others = AFTERWARDS.pop_all()
    try:
        with Check.running.subTest(**what), AFTERWARDS:
            yield
    finally:
        AFTERWARDS.push(others)


def run_checks(checks, *, needs=None, is_quiet=False):
    """Runs each check, the others too if one fails, and answers the status for the script to end with.

    The checks are functions, or functions by their names. What one of them answers is told, unless only those that fail are
    to be told. Some need programs, or files by their paths, that not every machine has: without them they are left out.
    """
    by_name = checks if isinstance(checks, dict) else {it.__name__: it for it in checks}
    told = Told(is_quiet)
    for name, check in by_name.items():
        Check(name, check, (needs or {}).get(check, ())).run(told)
    return told.end()


def what_went_wrong(error):
    """The error with the lines of the gate that it came through, and below it the one that it came of."""
    through = [it for it in traceback.extract_tb(error.__traceback__) if it.filename.startswith(ROOT) and it.name not in OF_RUNNING]
    lines = [repr(error), *(f"    {os.path.relpath(it.filename, ROOT)}:{it.lineno}: {it.line}" for it in through)]
    before = error.__cause__ or error.__context__
    return "\n".join([*(it[:SHOWN] for it in lines), *([f"after {what_went_wrong(before)}"] if before else [])])


def wait_until(is_so, what, seconds=SECONDS):
    """Waits for it, at most so many seconds."""
    until = time.monotonic() + seconds
    while not is_so():
        assert time.monotonic() < until, f"{what}: not so after {seconds} seconds"
        time.sleep(0.01)


class Beside:
    """A function in a thread of its own. What it raises, it raises where it is waited for, under its name; and if the check
    fails before, it is told."""

    def __init__(self, name, does, *given):
        self.name, self.raised = name, None
        self.thread = threading.Thread(target=self.run, args=(does, *given), daemon=True)
        AFTERWARDS.push(self.tell)
        self.thread.start()

    def run(self, does, *given):
        try:
            does(*given)
        except BaseException as error:
            self.raised = error

    def tell(self, kind, _error, _trace):
        if kind and self.raised is not None:
            print(f"{self.name}: {self.raised!r}"[:SHOWN])

    def join(self, seconds=SECONDS):
        self.thread.join(seconds)
        assert not self.thread.is_alive(), f"{self.name} has not ended after {seconds} seconds"
        if self.raised is not None:
            raise AssertionError(f"{self.name}: {self.raised!r}"[:SHOWN]) from self.raised


class Room:
    """A folder of its own."""

    def __init__(self):
        self.path = AFTERWARDS.enter_context(tempfile.TemporaryDirectory(prefix="hopslintel-gate-"))

    def write(self, name, data):
        """Writes a file, and answers its path."""
        with open(f"{self.path}/{name}", "wb") as it:
            it.write(data)
        return it.name

    def read(self, name):
        return bytes_of(f"{self.path}/{name}")


def bytes_of(path):
    with open(path, "rb") as it:
        return it.read()


# The program.


def built(crate, name):
    path = f"{ROOT}/crates/{crate}/out/{name}"
    if not os.path.isfile(path):
        sys.exit(f"{path} is not built: ./check builds all, rt run the program, and rt test a crate's tests")
    return path


def program(name="bundled"):
    return built(name, name)


def version():
    """The version of the program, by its source."""
    return re.search(r'\.version\("(.+?)"\)', bytes_of(f"{ROOT}/crates/command_line/src/building.rt").decode())[1]


def run_words(*words, given=None, out=subprocess.PIPE, err=subprocess.PIPE, seconds=SECONDS, is_whole=False):
    """The status of the program over these words and this input, and what it writes on both outputs; of the words behind the
    line of a fault nothing, unless all is wanted: gate/told.py looks at them."""
    how = {"stdin": subprocess.DEVNULL} if given is None else {"input": given}
    ended = subprocess.run([program(), *words], stdout=out, stderr=err, timeout=seconds, **how)
    return ended.returncode, ended.stdout, ended.stderr if is_whole else without_words(ended.stderr)


def without_words(told):
    """What is told on standard error, without the line of words that may stand behind that of a fault."""
    lines = (told or b"").splitlines(keepends=True)
    return b"".join(lines[:-1]) if len(lines) > 1 and lines[-2].startswith(b"fault ") and not lines[-1].startswith(b"fault ") else told


def start(*words, **how):
    """The program over these words, as it runs. It is killed at the end of the check, if it has not ended."""
    started = AFTERWARDS.enter_context(subprocess.Popen([program(), *words], **how))
    AFTERWARDS.callback(started.kill)
    return started


def line_of(process, stream=None):
    """The next line that a process writes, on standard output if no other is given. If none comes in time, it is killed."""
    timer = threading.Timer(SECONDS, process.kill)
    timer.start()
    try:
        return (stream or process.stdout).readline()
    finally:
        timer.cancel()


def place_of(word):
    """A port by its number, or the path of a Unix socket."""
    return int(word) if word.isdigit() else word


def untimed(told):
    """What a server tells on standard error, without the time before a line."""
    return re.sub(r"^\d{4}-\d\d-\d\dT\d\d:\d\d:\d\dZ (?=worker |settings |max-open |serving |no more )", "", told, flags=re.M)


class Server:
    """The program behind a port that it has chosen, if neither another one nor the path of a Unix socket is given. It is told how
    many clients each worker serves: one, unless the options say it, or it is to be `bare`. If a check fails, what it said on
    standard error is told, unless that goes elsewhere."""

    def __init__(self, *options, port=0, bare=False, stdin=subprocess.DEVNULL, err=None, **how):
        if not bare and "--connections" not in options:
            options = ("--connections", "1", *options)
        option = "--port" if str(port).isdigit() else "--socket"
        words = [program(), "serve", option, str(port), *options]
        self.errors = AFTERWARDS.enter_context(tempfile.TemporaryFile())
        self.started = subprocess.Popen(words, stdin=stdin, stdout=subprocess.PIPE, stderr=err or self.errors, **how)
        AFTERWARDS.push(self.end)
        self.line = line_of(self.started).decode()
        words = self.line.split()
        self.port = place_of(words[1]) if words[:1] == ["listening"] else None
        self.read_port = place_of(words[3]) if words[2:3] == ["read-only"] else None

    def end(self, kind=None, _error=None, _trace=None):
        """Ends it, if it has not ended."""
        is_up = self.started.poll() is None
        if is_up:
            self.started.kill()
            self.started.wait()
        if not self.started.stdout.closed:
            self.started.stdout.close()
        if kind:
            how = "was up" if is_up else f"had ended with status {self.started.returncode}"
            print(f"a server {how}, and has said {self.said()!r}"[:SHOWN])

    def connect(self, port=None):
        return connected(port or self.port)

    def connections(self, count):
        """So many of them, which stand side by side until they are closed or the check ends."""
        return [AFTERWARDS.enter_context(self.connect()) for _ in range(count)]

    def ask(self, request, port=None):
        """What comes back, to its end, for a request that is the last."""
        with self.connect(port) as stream:
            stream.sendall(request)
            stream.shutdown(socket.SHUT_WR)
            return rest_of(stream)

    def said(self):
        """What it has written on standard error."""
        return os.pread(self.errors.fileno(), 1 << 24, 0).decode()

    def ended(self):
        """Its status, and what it wrote on both outputs, once it has ended by itself."""
        out = self.started.communicate(timeout=SECONDS)[0]
        return self.started.returncode, out.decode(), self.said()

    def of_system(self, name):
        """What the system tells of the process."""
        with open(f"/proc/{self.started.pid}/status", encoding="ascii") as it:
            return next(line.split()[1] for line in it if line.startswith(f"{name}:"))


class Lasting(Server):
    """A server that takes connections without end, until it is told to stop."""

    def __init__(self, *options, **how):
        end, self.hold = os.pipe()
        try:
            super().__init__("--connections", "unlimited", "--until-eof", *options, stdin=end, **how)
        finally:
            os.close(end)

    def stop(self):
        """Ends its input, after which it ends by itself."""
        if self.hold is not None:
            os.close(self.hold)
        self.hold = None

    def end(self, *why):
        self.stop()
        super().end(*why)

    def ended(self):
        self.stop()
        return super().ended()

    def kilobytes(self):
        """How much memory of the machine it has now."""
        return int(self.of_system("VmRSS"))


# Sockets.


def connected(place):
    """A connection to a port, or to the Unix socket at a path."""
    if isinstance(place, int):
        return socket.create_connection(("127.0.0.1", place), timeout=SECONDS)
    stream = socket.socket(socket.AF_UNIX)
    try:
        stream.settimeout(SECONDS)
        stream.connect(place)
    except BaseException:
        stream.close()
        raise
    return stream


def received(stream, size):
    """So many bytes of a socket, or as many as come before it ends."""
    data, until = bytearray(), time.monotonic() + SECONDS
    while len(data) < size:
        more = stream.recv(min(size - len(data), 1 << 20))
        if not more:
            break
        data += more
        assert time.monotonic() < until, f"{len(data)} bytes of {size} came in {SECONDS} seconds"
    return bytes(data)


def rest_of(stream):
    """All bytes that come of a socket before it ends."""
    return received(stream, sys.maxsize)


def frame_of(stream):
    """The next frame of a socket, or what comes of it before it ends."""
    head = received(stream, 4)
    return head + received(stream, int.from_bytes(head, "big") if len(head) == 4 else 0)


def unused_port():
    """A port at which nobody listens, and that the system gives to nobody until the check ends; but who asks for it has it."""
    kept = AFTERWARDS.enter_context(socket.socket())
    kept.setsockopt(socket.SOL_SOCKET, socket.SO_REUSEADDR, 1)
    kept.bind(("127.0.0.1", 0))
    return kept.getsockname()[1]


class FakeServer:
    """A port at which the function is given each connection, one after the other. It may lose one; all else that it raises
    fails the check."""

    def __init__(self, serve):
        self.listener = socket.create_server(("127.0.0.1", 0))
        self.port = self.listener.getsockname()[1]
        self.serve, self.is_over = serve, False
        self.thread = Beside("a server of the check's", self.accept)
        AFTERWARDS.callback(self.end)

    def accept(self):
        while True:
            stream = self.next_stream()
            if stream is None:
                return
            with stream, contextlib.suppress(ConnectionError):
                stream.settimeout(SECONDS)
                self.serve(stream)

    def next_stream(self):
        try:
            return self.listener.accept()[0]
        except OSError:
            if self.is_over:
                return None
            raise

    def end(self):
        """Takes no more connections. Raises what was raised."""
        if self.is_over:
            return
        self.is_over = True
        self.listener.shutdown(socket.SHUT_RDWR)
        self.thread.join(2 * SECONDS)
        self.listener.close()


def answers_with(*replies):
    """Takes a request for each of these, gives the reply, and then closes."""

    def serve(stream):
        for reply in replies:
            # (a stream that is closed with bytes unread is reset, and the reply may be lost)
            frame_of(stream)
            stream.sendall(reply)

    return serve


# Frames and documents.

EMPTY = b'{"keys":[]}'
ENTRY = b'{"use":"jwt-svid","kty":"RSA","kid":"k","n":"AQAB","e":"AQAB"}'
# The bundles in gate/bundles: the refresh hints of the documents, or 300, at least 60.
DUE = {"many": 60, "p521": 300, "rotation": 300, "rsa-4096": 60, "spire-default": 2419200, "with-unknown": 300, "withdrawn": 300}


def frame(payload):
    return len(payload).to_bytes(4, "big") + payload


def named(letter, name, rest=b""):
    """The frame of a request, or of an item of a reply, that has the name of a trust domain."""
    text = name if isinstance(name, bytes) else name.encode()
    return frame(letter + bytes([len(text)]) + text + rest)


def replies_of(stream):
    """The replies of a session, one for each request: a fetch-all's is a frame and then one for each domain."""
    frames, at = [], 0
    while at < len(stream):
        end = at + 4 + int.from_bytes(stream[at : at + 4], "big")
        frames.append(stream[at:end])
        at = end
    at = 0
    while at < len(frames):
        count = 1 + int.from_bytes(frames[at][5:], "big") if frames[at][4:5] == b"a" else 1
        yield b"".join(frames[at : at + count])
        at += count


def numbered(sequence):
    """A document of this sequence."""
    return b'{"keys":[],"spiffe_sequence":%d}' % sequence


def canonical(name):
    """The canonical text of a real bundle, which another program made."""
    return bytes_of(f"{BUNDLES}/{name}.canonical").rstrip()


def dump_of(items):
    """The reply to a fetch-all of these names and documents."""
    return frame(b"a" + len(items).to_bytes(8, "big")) + b"".join(named(b"i", name, text) for name, text in sorted(items.items()))


def dump_of_real():
    """That of the bundles in gate/bundles."""
    return dump_of({name: canonical(name) for name in DUE})


def pem_of(document):
    """The X.509 authorities of a document, their certificates cut into lines here."""
    certificates = [it["x5c"][0] for it in json.loads(document)["keys"] if it["use"] == "x509-svid"]
    assert all(base64.b64decode(it, validate=True) for it in certificates)
    lines = [f"-----BEGIN CERTIFICATE-----\n{textwrap.fill(it, 64)}\n-----END CERTIFICATE-----\n" for it in certificates]
    return "".join(lines).encode()
