#!/usr/bin/env python3
"""How the cost of a set, a get and a fetch-all grows with the number of domains. No part of the gate.

usage: gate/growth.py PROGRAM [--runs N] [--out FILE]
       gate/growth.py PROGRAM --quick [--out FILE]      up to 10,000 domains and few requests: for a look, not for a figure

For each number of domains the program runs `serve` with one worker and 16 shards, and is filled by a client over loopback
(load.c, which needs a C compiler, and checks each reply). Each domain has a document of 190 bytes with one authority. Then come
sets, each of a changed document for a domain at random, and gets of a domain at random, 100 a write; fetch-alls, one a write, of
the store as it was at the last one; and a set and a fetch-all in turn, of which the two together are one operation.

What is written is docs/measured/growth.tsv, or the file that is named; a quick look is only printed unless a file is named. A row
is a number of domains and an operation: the microseconds of processor time that the server took for it, as the median of the
runs, and how many bytes of the server were resident after them. At 1,000,000 domains a fetch-all is over 200 MB.
"""
import argparse
import collections
import os
import statistics
import sys
import tempfile

sys.dont_write_bytecode = True

from loads import HERE, Load, Server, compiled  # noqa: E402

PAGE = os.path.join(os.path.dirname(HERE), "docs", "measured", "growth.tsv")
COLUMNS = ["domains", "operation", "microseconds", "bytes of memory"]
DOMAINS = [100, 1_000, 10_000, 100_000, 1_000_000]
# How many sets or gets a run makes, and about how many domains all fetch-alls of a run have together; and of a quick look.
REQUESTS, FETCHED = 200_000, 3_000_000
QUICK, QUICK_FETCHED = 5_000, 100_000

Row = collections.namedtuple("Row", "domains operation microseconds memory")


def operations(domains, requests, fetched):
    """Each operation with its load, and for how many of its requests it counts: a set and a fetch-all are two requests."""
    fetches = min(max(fetched // domains, 3), 2_000)
    return {
        "set": (Load("sets", 100, 1, 1, "s", requests), 1),
        "get": (Load("gets", 100, 1, 1, "g", requests), 1),
        "fetch-all": (Load("fetch-alls", 1, 1, 1, "f", fetches), 1),
        "set and fetch-all": (Load("a set and a fetch-all in turn", 2, 1, 1, "c", 2 * fetches), 2),
    }


def measure(server, client, load, runs):
    """The median of the microseconds that a request takes. A run before doesn't count: it leaves the server as the next ones find
    it, with the last fetch-all remembered."""
    server.ask(client, load._replace(requests=load.batch))
    return statistics.median(server.ask(client, load).ran for _ in range(runs))


def rows_of(program, client, domains, wanted):
    """What each operation costs with so many domains."""
    limits = (QUICK, QUICK_FETCHED) if wanted.quick else (REQUESTS, FETCHED)
    server = Server(program, 1, "unlimited", domains)
    try:
        server.fill(client, 1)
        for operation, (load, requests) in operations(domains, *limits).items():
            microseconds = requests * measure(server, client, load, wanted.runs)
            yield Row(domains, operation, microseconds, server.memory())
    finally:
        server.end()


def line(row):
    return f"{row.domains}\t{row.operation}\t{row.microseconds:.3f}\t{row.memory}\n"


def main(words):
    ask = argparse.ArgumentParser(description=__doc__, formatter_class=argparse.RawDescriptionHelpFormatter)
    ask.add_argument("program", metavar="PROGRAM")
    ask.add_argument("--runs", type=int, default=5)
    ask.add_argument("--out")
    ask.add_argument("--quick", action="store_true")
    wanted = ask.parse_args(words)
    lines = ["\t".join(COLUMNS) + "\n"]
    print(lines[0], end="")
    with tempfile.TemporaryDirectory() as folder:
        client = compiled(folder)
        for domains in DOMAINS[:3] if wanted.quick else DOMAINS:
            for row in rows_of(wanted.program, client, domains, wanted):
                lines.append(line(row))
                print(lines[-1], end="", flush=True)
    out = wanted.out or (None if wanted.quick else PAGE)
    if out:
        with open(out, "w", encoding="utf-8") as it:
            it.writelines(lines)
    return 0


if __name__ == "__main__":
    sys.exit(main(sys.argv[1:]))
