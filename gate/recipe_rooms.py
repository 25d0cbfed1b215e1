"""What the checks of recipes share: the blocks of docs/USING.md, a shell that runs them, and a store that they ask."""
import contextlib
import os
import re
import signal
import socket
import subprocess
import sys

import checks
from checks import AFTERWARDS, BUNDLES, ROOT, SECONDS, Room, bytes_of, canonical, frame, line_of, named, rest_of, unused_port
from examples import PORT

EXAMPLES = f"{ROOT}/examples"
# The documents that stand for those of the page's two trust domains.
A, B = canonical("rotation"), canonical("spire-default")
BOTH = {"a.example": A, "b.example": B}


def blocks():
    """The blocks of the page below each heading, in their order."""
    parts = re.split(r"^##+ (.*)\n", bytes_of(f"{ROOT}/docs/USING.md").decode(), flags=re.M)
    found = re.compile(r"^    .*\n(?:    .*\n|\n(?=    ))*", re.M)
    cut = lambda text: [re.sub(r"^    ", "", it, flags=re.M) for it in found.findall(text)]
    return {"": cut(parts[0])} | {heading: cut(text) for heading, text in zip(parts[1::2], parts[2::2])}


BLOCKS = blocks()


class Shell(Room):
    """A folder with the documents of the two trust domains, and the port that recipes ask there. Programs in its folder `bin`
    are found before those of the system, and its variables are in the environment."""

    def __init__(self):
        super().__init__()
        self.port = str(unused_port())
        self.variables = {}
        os.mkdir(f"{self.path}/documents")
        os.mkdir(f"{self.path}/bin")
        for name, document in (("a.example", "rotation"), ("b.example", "spire-default")):
            self.write(f"documents/{name}.json", bytes_of(f"{BUNDLES}/{document}.json"))

    def write_program(self, name, text):
        os.chmod(self.write(f"bin/{name}", text.encode()), 0o755)

    def start(self, text, **how):
        """A shell that runs the text after what the page says that recipes need. It and what it has started end with the check."""
        script = f"cd {ROOT}\n{BLOCKS[''][0]}cd {self.path}\n{text}".replace(PORT, self.port)
        how = {"stdin": subprocess.PIPE, "stdout": subprocess.PIPE, "stderr": subprocess.STDOUT, **how}
        how["env"] = {"HOME": self.path, **os.environ, "TMPDIR": self.path, **self.variables}
        how["env"]["PATH"] = f"{self.path}/bin:{os.environ['PATH']}"
        running = AFTERWARDS.enter_context(subprocess.Popen(["sh", "-c", script], start_new_session=True, **how))
        AFTERWARDS.callback(stop, running)
        return running

    def run(self, text, status=0, given=b"", seconds=SECONDS):
        """What the text prints. It has to end with the status, if one is given, and within these seconds."""
        running = self.start(text)
        said = running.communicate(given, seconds)[0]
        assert status is None or running.returncode == status, (text, running.returncode, said)
        return said.decode()

    def python(self, text, program=sys.executable):
        env = {**os.environ, "PYTHONPATH": f"{ROOT}/clients/python", "PYTHONDONTWRITEBYTECODE": "1"}
        env["PATH"] = f"{os.path.dirname(checks.program())}:{os.environ['PATH']}"
        words = [program, "-c", text.replace(PORT, self.port)]
        ran = subprocess.run(words, cwd=ROOT, env=env, stdin=subprocess.DEVNULL, capture_output=True, timeout=SECONDS)
        assert (ran.returncode, ran.stderr) == (0, b""), (text, ran)
        return ran.stdout.decode()

    def get(self, name):
        return self.run(f"store get {name}").rstrip("\n").encode()

    def set(self, items):
        """Sets the bundles of these trust domains to these documents, over one connection and in their order."""
        with socket.create_connection(("127.0.0.1", int(self.port)), timeout=SECONDS) as stream:
            stream.sendall(b"".join(named(b"S", name, text) for name, text in items.items()))
            stream.shutdown(socket.SHUT_WR)
            replies = rest_of(stream)
        assert replies == len(items) * frame(b"s"), replies[:100]


def stop(running):
    """Ends a shell and all that it has started."""
    with contextlib.suppress(ProcessLookupError):
        os.killpg(running.pid, signal.SIGKILL)


def a_store(*, recipe=("A store by hand", 0), prepare=None, is_filled=True):
    """A room with a server, which the recipe starts."""
    room = Shell()
    if prepare:
        prepare(room)
    heading, number = recipe
    server = room.start(BLOCKS[heading][number].splitlines()[-1], stderr=subprocess.DEVNULL)
    assert line_of(server) == f"listening {room.port}\n".encode()
    if is_filled:
        room.run(BLOCKS["Set one document"][1])
    return room


def without_pause(text):
    """A recipe that repeats something, without the pauses in between."""
    changed = re.sub(r"--every \d+", "--every 1", text)
    return re.sub(r"sleep \d+", "sleep 0.1", changed)
