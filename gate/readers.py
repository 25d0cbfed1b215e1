#!/usr/bin/env python3
"""Tries a place for reads only with changes of all kinds: they are refused by their letter, and cost no document.

usage: gate/readers.py   (over the program that rt ci or rt run has built in crates/bundled/out/)
"""
import os
import re
import sys
import time

sys.dont_write_bytecode = True

from checks import EMPTY, ENTRY, Beside, Lasting, frame, named, received, run_checks  # noqa: E402

SHUT, NO_DOMAIN, STORED = frame(b"\x38"), frame(b"\x1e"), frame(b"s")
# A document that is nested too deep, and one that takes long to be judged: small arrays in a member that nobody keeps.
NESTED, LONG = 500_000 * b"[" + 500_000 * b"]", b'{"keys":[],"x":[' + 300_000 * b"[]," + b"[]]}"
# How many clients send it where it is refused by its letter, and where it is judged.
REFUSED, JUDGED = 40, 24
LETTERS = b"SCAR"


def speaks(version):
    return frame(b"V" + bytes([version])), frame(b"v" + bytes([version]))


def by_their_letter():
    """Whatever follows the letter of a change, and whatever version is spoken, it is refused by 56, and the next request is answered.
    A letter that is none is refused as everywhere."""
    server = Lasting("--workers", "2", "--read-port", "0")
    rests = [b"", b"\x01", b"\x05a", b"\x01A" + EMPTY, b"\x01a{", b"\x01a" + EMPTY, b"\x01a\x07", b"\x01a\x00" + EMPTY, b"\x01a" + ENTRY, b"\x00", b"\x01a" + NESTED]
    for version in (1, 2, 3):
        request, reply = speaks(version)
        tried = [frame(bytes([letter]) + rest) for letter in LETTERS for rest in rests]
        sent = request + b"".join(it + named(b"G", "a") for it in tried) + frame(b"s") + frame(b"G")
        wanted = reply + len(tried) * (SHUT + NO_DOMAIN) + 2 * frame(b"\x33")
        assert server.ask(sent, server.read_port) == wanted, f"other replies in version {version}"
    # At the other place they are judged.
    assert server.ask(named(b"S", "A", EMPTY)) == frame(b"\x03" + bytes(4))
    assert server.ask(frame(b"S") + frame(b"C") + named(b"S", "b", EMPTY)) == 2 * frame(b"\x33") + STORED
    assert server.ended() == (0, "served 5\ndomains 1\n", ""), "ended otherwise"


def told_by_a_number():
    """With --log it is told how many changes were refused, and no name: after each turn in which some were."""
    server = Lasting("--workers", "1", "--read-port", "0", "--log")
    tried = named(b"S", "a", EMPTY) + named(b"G", "a") + frame(b"R") + named(b"S", "A", EMPTY)
    with server.connect(server.read_port) as stream:
        for times in (1, 2):
            stream.sendall(times * tried)
            assert received(stream, times * 20) == times * (SHUT + NO_DOMAIN + SHUT + SHUT)
    status, out, err = server.ended()
    assert (status, out) == (0, "served 1\ndomains 0\n"), (status, out)
    counts = [int(it) for it in re.findall(r"^\S+ worker 0 client 1 refused (\d+) changes 56$", err, flags=re.M)]
    assert sum(counts) == 9 and len(counts) >= 2, err
    assert err.count("refused") == len(counts), err


def processor_seconds(server):
    """How long processors have worked for the server, in its code and in the system's."""
    with open(f"/proc/{server.started.pid}/stat", encoding="ascii") as it:
        fields = it.read().rpartition(")")[2].split()
    return (int(fields[11]) + int(fields[12])) / os.sysconf("SC_CLK_TCK")


def send_one(server, port, domain, wanted):
    with server.connect(port) as stream:
        stream.sendall(named(b"S", domain, LONG))
        assert received(stream, len(wanted)) == wanted


def cost_of(server, port, count, wanted):
    """What so many documents cost at a place, each of a client of its own, beside a client that gets at the place for reads."""
    before = processor_seconds(server)
    clients = [Beside(f"client {number}", send_one, server, port, f"d{number}", wanted) for number in range(count)]
    with server.connect(server.read_port) as stream:
        while any(it.thread.is_alive() for it in clients):
            stream.sendall(named(b"G", "a"))
            assert received(stream, len(NO_DOMAIN)) == NO_DOMAIN
            time.sleep(0.01)
    for client in clients:
        client.join()
    return processor_seconds(server) - before


def documents_cost_little():
    """Long documents at the place for reads are not judged: as many cost the server less than fewer do at the other place."""
    server = Lasting("--workers", "2", "--read-port", "0")
    judged = cost_of(server, server.port, JUDGED, STORED)
    refused = cost_of(server, server.read_port, REFUSED, SHUT)
    assert refused < judged, f"{REFUSED} documents took {refused:.2f} s of a processor, and {JUDGED} that were judged {judged:.2f} s"
    return f"; {REFUSED} documents took {refused:.2f} s of a processor, and {JUDGED} that were judged {judged:.2f} s"


if __name__ == "__main__":
    sys.exit(run_checks([by_their_letter, told_by_a_number, documents_cost_little]))
