"""What loopback.py and growth.py share: servers on this machine, and the client in C (load.c) that asks them."""
import collections
import glob
import os
import re
import shutil
import socket
import subprocess
import sys
import tempfile
import time

HERE = os.path.dirname(os.path.abspath(__file__))
REDIS = "redis-server"
# How long a server may take until it listens.
SECONDS = 10

# What is asked: its name, the requests of a write, the writes ahead, the authorities of a document, the kind of load.c, and how
# many requests one client usually makes of it.
Load = collections.namedtuple("Load", "name batch window keys kind requests")
# What a run gave: the requests a second, the microseconds of the slowest write, those of processor time that the server took for a
# request, and how many requests it gave up.
Given = collections.namedtuple("Given", "rate worst ran given_up")


def is_redis(program):
    return os.path.basename(program) == REDIS


def missing(program):
    """Whether the machine has not this program."""
    return shutil.which(program) is None


def compiled(folder):
    """Compiles the client into a folder, and answers its path. This needs a C compiler."""
    client = os.path.join(folder, "load")
    subprocess.run(["cc", "-O2", "-pthread", "-o", client, os.path.join(HERE, "load.c")], check=True)
    return client


class Server:
    """A program that serves the frames of docs/FORMATS.md to so many domains."""

    protocol = "frames"

    def __init__(self, program, workers, connections, domains):
        self.program, self.domains = program, domains
        command = [os.path.abspath(program), "serve", "--port", "0", "--workers", str(workers), "--connections", connections]
        how = {"stdout": subprocess.PIPE, "stderr": subprocess.DEVNULL}
        self.running = subprocess.Popen(command + ["--shards", "16"], **how)
        said = re.match(r"listening (\d+)", self.running.stdout.readline().decode())
        if not said:
            self.end()
            sys.exit(f"{program} does not say that it is listening")
        self.port = said.group(1)

    def nanoseconds(self):
        """For how long its threads ran until now."""
        ran = 0
        for path in glob.glob(f"/proc/{self.running.pid}/task/*/schedstat"):
            with open(path, encoding="ascii") as it:
                ran += int(it.read().split()[0])
        return ran

    def memory(self):
        """How many bytes of it are resident."""
        with open(f"/proc/{self.running.pid}/status", encoding="ascii") as it:
            return int(re.search(r"^VmRSS:\s*(\d+) kB", it.read(), re.M)[1]) * 1024

    def fill(self, client, keys):
        """Sets each domain once, and looks at each document as it comes back."""
        for name, kind in [("a set of each domain", "p"), ("a get of each domain", "v")]:
            self.ask(client, Load(name, min(self.domains, 100), 1, keys, kind, self.domains))

    def ask(self, client, load, clients=1):
        """What a run of the load by so many clients gives. A wrong reply ends the script."""
        writes = max(load.requests // load.batch, 1)
        words = [self.protocol, self.port, clients, writes, load.batch, load.window, self.domains, load.keys, load.kind]
        before = self.nanoseconds()
        ran = subprocess.run([client, *map(str, words)], stdout=subprocess.PIPE, text=True)
        took = (self.nanoseconds() - before) / 1000 / (clients * writes * load.batch)
        said = re.match(r"(\d+) replies/s, \d+ bytes/s, (\d+) given up, worst (\d+) us\n$", ran.stdout)
        if ran.returncode or not said:
            sys.exit(f"{self.program} gave a wrong reply, or none, to {load.name}: {ran.stdout.strip()}")
        return Given(int(said[1]), int(said[3]), took, int(said[2]))

    def end(self):
        self.running.kill()
        self.running.wait()


class Redis(Server):
    """Debian's Redis, by one thread, with nothing written to disk."""

    protocol = "resp"

    def __init__(self, program, domains):
        self.program, self.domains = program, domains
        with socket.create_server(("127.0.0.1", 0)) as free:
            self.port = str(free.getsockname()[1])
        command = [program, "--port", self.port, "--bind", "127.0.0.1", "--save", "", "--appendonly", "no", "--io-threads", "1"]
        command += ["--dir", tempfile.gettempdir()]
        self.running = subprocess.Popen(command, stdout=subprocess.DEVNULL, stderr=subprocess.DEVNULL)
        until = time.monotonic() + SECONDS
        while not self.is_listening():
            if self.running.poll() is not None or time.monotonic() > until:
                self.end()
                sys.exit(f"{program} does not listen at port {self.port}")
            time.sleep(0.02)

    def is_listening(self):
        try:
            with socket.create_connection(("127.0.0.1", int(self.port)), SECONDS) as stream:
                stream.sendall(b"PING\r\n")
                return stream.recv(7) == b"+PONG\r\n"
        except OSError:
            return False
