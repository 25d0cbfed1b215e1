#!/usr/bin/env python3
"""What agents that poll cost a server: all domains fetched again, or fetched unless they are the same. No part of the gate.

usage: gate/polling.py PROGRAM [--agents N] [--domains N] [--rounds N]

The program runs `serve --connections unlimited` with one worker, over the bundles of so many domains: copies of a bundle of about
2 kB that SPIRE serves. Each agent has a connection. In a round each polls once, one after the other, with 64 of them under way at
a time: by a fetch-all; by a fetch unless the digest of what it has, while nothing changes; and the same where one domain was set
before each round. The rows are the microseconds of the server's processor time for a poll, and the bytes of its reply, as the
medians of the rounds. Each reply is checked: a wrong one ends the run.
"""
import argparse
import collections
import hashlib
import os
import selectors
import socket
import statistics
import struct
import sys

sys.dont_write_bytecode = True

from loads import HERE, Server  # noqa: E402

BUNDLE = os.path.join(HERE, "bundles", "rotation.json")
AHEAD = 64

Round = collections.namedtuple("Round", "microseconds size")


def frame(payload):
    return struct.pack(">I", len(payload)) + payload


class Agent:
    """A connection of an agent, which has asked for version 3."""

    def __init__(self, port):
        self.stream = socket.create_connection(("127.0.0.1", port))
        self.stream.setsockopt(socket.IPPROTO_TCP, socket.TCP_NODELAY, 1)
        if self.ask(b"V\x03", 6) != frame(b"v\x03"):
            raise SystemExit("no version 3")

    def ask(self, payload, size):
        """Sends a request, and reads a reply of so many bytes."""
        self.stream.sendall(frame(payload))
        reply = bytearray()
        while len(reply) < size:
            piece = self.stream.recv(1 << 20)
            if not piece:
                raise SystemExit("the server has closed the connection")
            reply += piece
        return bytes(reply)


def poll(agents, payload, wanted):
    """Each agent asks once, and must be answered by these bytes."""
    waiting = collections.deque(agents)
    selector = selectors.DefaultSelector()
    replies = {}

    def begin():
        agent = waiting.popleft()
        replies[agent] = bytearray()
        selector.register(agent.stream, selectors.EVENT_READ, agent)
        agent.stream.sendall(frame(payload))

    for _ in range(min(AHEAD, len(waiting))):
        begin()
    while replies:
        for key, _ in selector.select(30) or sys.exit("no reply came in 30 seconds"):
            agent = key.data
            replies[agent] += agent.stream.recv(1 << 20)
            if len(replies[agent]) >= len(wanted):
                if replies.pop(agent) != wanted:
                    raise SystemExit("another reply came")
                selector.unregister(agent.stream)
                if waiting:
                    begin()
    selector.close()


def rounds(server, agents, wanted, of_round):
    """The median of what a poll costs in rounds of this kind, each of which gives its request and the reply to it. The first one
    doesn't count."""
    costs = []
    for number in range(wanted.rounds + 1):
        payload, reply = of_round(number)
        before = server.nanoseconds()
        poll(agents, payload, reply)
        costs.append((server.nanoseconds() - before) / 1000 / len(agents))
    return Round(statistics.median(costs[1:]), len(reply))


class Filler:
    """Who sets the domains, and knows what a fetch-all is answered."""

    def __init__(self, port, domains):
        self.agent = Agent(port)
        with open(BUNDLE, "rb") as file:
            self.document = file.read()
        self.names = [f"d{number:05}.example".encode() for number in range(domains)]
        for name in self.names:
            self.set(name, self.document)
        self.dump = self.fetched()

    def set(self, name, document):
        if self.agent.ask(b"S" + bytes([len(name)]) + name + document, 5) != frame(b"s"):
            raise SystemExit("a bundle was not stored")

    def fetched(self):
        """The frames of all domains, of which the first tells how many follow."""
        self.agent.stream.sendall(frame(b"F"))
        stream = self.agent.stream.makefile("rb")
        frames = [stream.read(13)]
        for _ in range(struct.unpack(">Q", frames[0][5:])[0]):
            length = stream.read(4)
            frames.append(length + stream.read(struct.unpack(">I", length)[0]))
        return b"".join(frames)

    def changed(self, number):
        """Another bundle of the first domain; the dump after it."""
        document = b'{"keys":[],"spiffe_refresh_hint":%d}' % number
        self.set(self.names[0], document)
        self.dump = self.fetched()
        return self.dump


def unless(dump):
    return b"U" + hashlib.sha256(dump).digest()


def main(words):
    parser = argparse.ArgumentParser(description=__doc__.split("\n", 1)[0])
    parser.add_argument("program")
    parser.add_argument("--agents", type=int, default=1000)
    parser.add_argument("--domains", type=int, default=300)
    parser.add_argument("--rounds", type=int, default=7)
    wanted = parser.parse_args(words)
    server = Server(wanted.program, 1, "unlimited", wanted.domains)
    try:
        filler = Filler(server.port, wanted.domains)
        # (The filler is one of them: a server takes 1,000 connections by default.)
        agents = [filler.agent] + [Agent(server.port) for _ in range(wanted.agents - 1)]
        same = frame(b"e")
        kinds = {
            "a fetch-all": lambda number: (b"F", filler.dump),
            "unless the same, and it is": lambda number: (unless(filler.dump), same),
            "unless the same, after a change": lambda number: (unless(filler.dump), filler.changed(number)),
        }
        for name, of_round in kinds.items():
            cost = rounds(server, agents, wanted, of_round)
            print(f"{name:34} {cost.microseconds:10.2f} us {cost.size:10} bytes", flush=True)
    finally:
        server.end()
    return 0


if __name__ == "__main__":
    sys.exit(main(sys.argv[1:]))
