#!/usr/bin/env python3
"""Clients that ask a server for as long as is wanted, and a checker of what they were answered.

usage: gate/soak.py [--seconds N] [--clients N] [--workers N] [--round SECONDS]   (over the program in crates/bundled/out/)

Each client gets, sets and fetches all, over a connection of its own. After each round all of them stop for a moment, and what
they were told is checked: the operations of the round have to be linearizable (Herlihy and Wing, 1990). There has to be one
order of them that gives every reply, and in which an operation that had ended before another began stands before it, whoever
asked them. Sets of a domain carry rising sequences, so the order of its versions is known; then such an order exists if and
only if nothing has to come before itself: a reply comes after the version that it shows, and before the next one.

The gate runs it for a few seconds (`./check --histories`), and it is run for an hour by hand.
"""
import argparse
import heapq
import random
import sys
import time

sys.dont_write_bytecode = True

from checks import AFTERWARDS, SECONDS, Beside, Lasting, Told, frame, frame_of, named, numbered, what_went_wrong  # noqa: E402

DOMAINS = [b"d%02d" % number for number in range(20)]
SET, READ = "set", "read"
# How many operations a client asks for in a round, however slow the machine is.
LEAST = 10


def sequence_of(text):
    return int(text[text.rindex(b":") + 1:-1])


class Client:
    """One connection, and what it was told: each deed is SET and one version, or READ and the versions that it shows, and
    when it was asked and when it was answered."""

    def __init__(self, server, seed):
        self.stream = server.connect()
        self.chance = random.Random(seed)
        self.deeds = []
        self.passed = 0
        self.asked = 0

    def note(self, kind, shown):
        self.deeds.append((kind, shown, self.asked, time.monotonic_ns()))

    def reply(self):
        reply = frame_of(self.stream)
        assert reply, "the server has closed the connection"
        return reply[4:]

    def ask(self, request):
        self.asked = time.monotonic_ns()
        self.stream.sendall(request)
        return self.reply()

    def get(self, domain):
        reply = self.ask(named(b"G", domain))
        if reply[:1] == b"f":
            return self.note(READ, {domain: sequence_of(reply[1:])})
        return self.say_other(reply, domain)

    def set(self, domain, sequence):
        reply = self.ask(named(b"S", domain, numbered(sequence)))
        if reply == b"s":
            return self.note(SET, {domain: sequence})
        if reply == b"u":
            return self.note(READ, {domain: sequence})
        if reply[:1] == b"\x1f":
            return self.note(READ, {domain: int.from_bytes(reply[1:9], "big")})
        return self.say_other(reply, domain)

    def say_other(self, reply, domain):
        """30 shows that nothing stands there; 41 and 42 show nothing, and have changed nothing."""
        if reply == b"\x1e":
            return self.note(READ, {domain: 0})
        if reply[:1] in (b"\x29", b"\x2a"):
            self.passed += 1
            return None
        raise AssertionError(f"a reply that none expects: {reply[:20]!r}")

    def fetch(self):
        reply = self.ask(frame(b"F"))
        if reply[:1] != b"a":
            return self.say_other(reply, b"")
        shown = dict.fromkeys(DOMAINS, 0)
        for _ in range(int.from_bytes(reply[1:9], "big")):
            item = self.reply()
            assert item[:1] == b"i", item[:20]
            end = 2 + item[1]
            shown[item[2:end]] = sequence_of(item[end:])
        return self.note(READ, shown)

    def run(self, until, newest):
        asked = 0
        while asked < LEAST or time.monotonic() < until:
            asked += 1
            kind, domain = self.chance.random(), self.chance.choice(DOMAINS)
            if kind < 0.6:
                self.get(domain)
            elif kind < 0.95:
                # Often one that is new, sometimes one that is not. Another client may choose the same.
                newest[domain] = sequence = newest[domain] + self.chance.choice([-1, 0, 1, 1, 1, 2])
                self.set(domain, max(sequence, 1))
            else:
                self.fetch()


def check(histories, start):
    """Whether the deeds have one order, if these versions stood there before. Says what is wrong, or nothing."""
    versions = {domain: [start[domain]] for domain in DOMAINS}
    for deeds in histories:
        for kind, shown, _, _ in deeds:
            if kind == SET:
                for domain, version in shown.items():
                    versions[domain].append(version)
    for domain, all_versions in versions.items():
        if len(set(all_versions)) < len(all_versions):
            return f"a version of {domain!r} was stored twice"
        all_versions.sort()
        if all_versions[0] != start[domain]:
            return f"an older version of {domain!r} was stored"
    return one_order(histories, versions)


class Heads:
    """The first deed of each client that is not taken yet, and which of them was answered first."""

    def __init__(self, histories):
        self.histories, self.at, self.answers, self.late = histories, [0] * len(histories), [], []
        for client in range(len(histories)):
            self.push(client)

    def push(self, client):
        if self.at[client] < len(self.histories[client]):
            heapq.heappush(self.answers, (self.histories[client][self.at[client]][3], client, self.at[client]))

    def first_answer(self):
        while self.answers and self.answers[0][2] < self.at[self.answers[0][1]]:
            heapq.heappop(self.answers)
        return self.answers[0][0] if self.answers else float("inf")

    def is_early(self, client, asked):
        """Whether no deed that is not taken was answered before this one was asked. If one was, the client waits for that."""
        if asked <= self.first_answer():
            return True
        heapq.heappush(self.late, (asked, client))
        return False

    def take(self, client):
        """Takes the client's deed. Answers which clients need not wait any more."""
        self.at[client] += 1
        self.push(client)
        first, freed = self.first_answer(), []
        while self.late and self.late[0][0] <= first:
            freed.append(heapq.heappop(self.late)[1])
        return freed


def one_order(histories, versions):
    """Takes the deeds in an order that gives each of them, as long as one can be taken."""
    place = {domain: {version: at for at, version in enumerate(all_versions)} for domain, all_versions in versions.items()}
    now, heads, waits = dict.fromkeys(DOMAINS, 0), Heads(histories), {}
    ready = list(range(len(histories)))
    for deeds in histories:
        for _, shown, _, _ in deeds:
            if any(version not in place[domain] for domain, version in shown.items()):
                return f"a version was shown that nobody stored: {shown}"
    left = left_to_read(histories, place)
    while ready:
        client = ready.pop()
        while heads.at[client] < len(histories[client]):
            kind, shown, asked, _ = histories[client][heads.at[client]]
            if not heads.is_early(client, asked):
                break
            lacking = lacks(kind, shown, place, now, left)
            if lacking:
                waits.setdefault(lacking, []).append(client)
                break
            ready += heads.take(client)
            for domain, version in shown.items():
                there = place[domain][version]
                if kind == SET:
                    now[domain] = there
                    ready += waits.pop((domain, there), [])
                else:
                    left[domain][there] -= 1
                    if not left[domain][there]:
                        ready += waits.pop((domain, there, "read"), [])
    for client, deeds in enumerate(histories):
        if heads.at[client] < len(deeds):
            return f"there is no order: client {client} was told {deeds[heads.at[client]]}, which has to come before itself"
    return ""


def left_to_read(histories, place):
    """How many deeds show each version."""
    left = {domain: [0] * len(places) for domain, places in place.items()}
    for deeds in histories:
        for kind, shown, _, _ in deeds:
            if kind == READ:
                for domain, version in shown.items():
                    left[domain][place[domain][version]] += 1
    return left


def lacks(kind, shown, place, now, left):
    """What has to be done before this deed: a version is to be stored, or all that show the one before are to be done."""
    for domain, version in shown.items():
        there = place[domain][version]
        if kind == READ and now[domain] != there:
            return (domain, there)
        if kind == SET and now[domain] != there - 1:
            return (domain, there - 1)
        if kind == SET and left[domain][there - 1]:
            return (domain, there - 1, "read")
    return None


def versions_now(server):
    """Which version of each domain stands there, while nobody sets any."""
    client = Client(server, 0)
    while not client.deeds:
        client.fetch()
        assert client.passed < 1000, "a fetch-all is given up though nothing changes"
    client.stream.close()
    return client.deeds[0][1]


def check_of_the_checker():
    """It takes histories that are linearizable, and no others."""
    start, domain, other = dict.fromkeys(DOMAINS, 0), *DOMAINS[:2]
    stored = [(SET, {domain: 1}, 0, 10)]
    beside = [(SET, {other: 1}, 0, 10)]
    right = [
        [stored, [(READ, {domain: 0}, 5, 15)]],
        [stored, [(READ, {domain: 1}, 5, 15), (READ, {domain: 1}, 20, 30)]],
        [stored, beside, [(READ, {domain: 0, other: 1}, 1, 9)], [(READ, {domain: 1, other: 1}, 2, 8)]],
    ]
    wrong = [
        [stored, [(READ, {domain: 0}, 15, 20)]],
        [stored, [(READ, {domain: 1}, 1, 4)], [(READ, {domain: 0}, 5, 9)]],
        [stored, beside, [(READ, {domain: 0, other: 1}, 1, 9)], [(READ, {domain: 1, other: 0}, 2, 8)]],
        [stored, [(READ, {domain: 2}, 5, 15)]],
        [stored, [(SET, {domain: 1}, 5, 15)]],
    ]
    for histories in right:
        assert not check(histories, start), histories
    for histories in wrong:
        assert check(histories, start), histories


class Soak:
    """A server, its clients, and what came of them."""

    def __init__(self, wanted):
        self.wanted = wanted
        self.server = Lasting("--workers", str(wanted.workers), "--max-open", str(wanted.clients + 1))
        self.clients = [Client(self.server, seed) for seed in range(wanted.clients)]
        self.deeds = self.passed = self.rounds = 0

    def round(self):
        """All clients ask for a while. What they were told has to be linearizable; and it raises what a client raised."""
        start = versions_now(self.server)
        newest, until = dict(start), time.monotonic() + self.wanted.round
        running = [Beside(f"client {seed}", it.run, until, newest) for seed, it in enumerate(self.clients)]
        for it in running:
            it.join(self.wanted.round + LEAST * SECONDS)
        self.deeds += sum(len(it.deeds) for it in self.clients)
        self.passed = sum(it.passed for it in self.clients)
        bad = check([it.deeds for it in self.clients], start)
        assert not bad, bad
        for client in self.clients:
            client.deeds = []
        self.rounds += 1

    def end(self):
        """All domains that were set are there at the end, and the server has nothing to tell."""
        domains = sum(it > 0 for it in versions_now(self.server).values())
        for client in self.clients:
            client.stream.close()
        connections = len(self.clients) + self.rounds + 1
        wanted, ended = (0, f"served {connections}\ndomains {domains}\n", ""), self.server.ended()
        assert ended == wanted, (ended, wanted)


def main():
    parser = argparse.ArgumentParser(description=__doc__.split("\n", maxsplit=1)[0])
    parser.add_argument("--seconds", type=int, default=3600)
    parser.add_argument("--clients", type=int, default=64)
    parser.add_argument("--workers", type=int, default=4)
    parser.add_argument("--round", type=int, default=20)
    wanted = parser.parse_args()
    told, rounds = Told(is_quiet=True), max(wanted.seconds // wanted.round, 1)
    try:
        with AFTERWARDS:
            check_of_the_checker()
            soak = Soak(wanted)
            memory = soak.server.kilobytes()
            for number in range(rounds):
                soak.round()
                told.passes(f"round {number}")
            print(f"{soak.deeds} operations by {wanted.clients} clients, {soak.passed} of them given up; "
                  f"memory has grown by {soak.server.kilobytes() - memory} kB; the operations of each round are linearizable")
            soak.end()
            told.passes("the end")
    except Exception as error:
        told.fails(f"after {told.passed} of {rounds} rounds", what_went_wrong(error))
    return told.end()


if __name__ == "__main__":
    sys.exit(main())
