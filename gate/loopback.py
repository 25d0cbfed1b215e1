#!/usr/bin/env python3
"""How many requests a second a server answers over loopback, beside another program. No part of the gate.

usage: gate/loopback.py PROGRAM PEER [--connections WORD] [--runs N] [--requests N] [--workers N,N] [--loads NAME,NAME]
       gate/loopback.py PROGRAM redis-server [..]    beside Debian's Redis, by one worker and one thread

Both programs run `serve --port 0 --workers N --connections 1000 --shards 16` and say `listening PORT` first; the program may be
given other connections, as `--connections unlimited`. Redis is started at a free port, keeps nothing on disk and has one thread
that serves; its keys are the domains, and their values the documents that the program is given. If the machine has no Redis, it is
left out.

Each load is asked of the two in turns, by as many clients as the server has workers; the clients are load.c, which needs a C
compiler, speaks both protocols and checks each reply. A line of a table is a load: for each number of workers the median of the
program's runs and of the peer's, and after it the least and the greatest of each. The program's is in bold where it is at least the
peer's. Behind it stands the ratio of the two, by the geometric mean over the runs, with its standard error: where the machine's
speed changes from minute to minute, many short runs (`--runs 60 --requests 6000`, of each client) tell more than a few long ones.
Then come the slowest write, by the median of the runs; for how long the threads of each server ran for a request, by their mean
with its standard error, and the ratio of that, the peer's over the program's; and how many requests each gave up.

The last lines are the rows of docs/SPEED.md: for each number of workers the first ratio, and the processor time of both.
"""
import argparse
import math
import statistics
import sys
import tempfile

sys.dont_write_bytecode = True

from loads import REDIS, Load, Redis, Server, compiled, is_redis, missing  # noqa: E402

LOADS = {
    "get-1": Load("gets, 1 a write", 1, 1, 1, "g", 60_000),
    "get-100": Load("gets, 100 a write", 100, 1, 1, "g", 2_000_000),
    "get-100-8": Load("gets, 100 a write, 8 writes ahead", 100, 8, 1, "g", 4_000_000),
    "long-1": Load("gets of 1.8 kB, 1 a write", 1, 1, 11, "g", 60_000),
    "long-100": Load("gets of 1.8 kB, 100 a write", 100, 1, 11, "g", 1_000_000),
    "set-1": Load("sets, 1 a write", 1, 1, 1, "s", 50_000),
    "set-100": Load("sets, 100 a write", 100, 1, 1, "s", 250_000),
    "long-set-1": Load("sets of 1.8 kB, 1 a write", 1, 1, 11, "s", 20_000),
    "long-set-100": Load("sets of 1.8 kB, 100 a write", 100, 1, 11, "s", 50_000),
    "mixed-1": Load("9 gets and a set, 1 a write", 1, 1, 1, "m", 60_000),
    "mixed-100": Load("9 gets and a set, 100 a write", 100, 1, 1, "m", 1_000_000),
    "fetch": Load("fetch-alls", 1, 1, 1, "f", 2_000),
    "set-fetch": Load("a set and a fetch-all in turn", 2, 1, 1, "c", 4_000),
}
# Those that are asked beside Redis if no others are named.
OF_REDIS = ["long-1", "long-100", "long-set-1", "long-set-100", "fetch", "set-fetch"]
DOMAINS = 1000


def started(program, workers, connections):
    return Redis(program, DOMAINS) if is_redis(program) else Server(program, workers, connections, DOMAINS)


def measure(client, programs, workers, load, runs):
    """For each program, with its connections, what each of its runs gave."""
    given = [[] for _ in programs]
    servers = []
    try:
        for program, connections in programs:
            servers.append(started(program, workers, connections))
            servers[-1].fill(client, load.keys)
        for _ in range(runs):
            for server, its in zip(servers, given):
                its.append(server.ask(client, load, workers))
    finally:
        for server in servers:
            server.end()
    return given


def error_of(some):
    """The standard error of their mean."""
    return statistics.stdev(some) / math.sqrt(len(some)) if len(some) > 1 else 0


def ratio(ours, theirs):
    """The geometric mean of the ratios, and its standard error."""
    logs = [math.log(our / their) for our, their in zip(ours, theirs)]
    return f"{math.exp(statistics.mean(logs)):.3f} ± {error_of(logs):.3f}"


class Cell:
    """What the runs of the two gave by one number of workers."""

    def __init__(self, given):
        self.rates, self.worst, self.ran, self.given_up = zip(*[[list(column) for column in zip(*runs)] for runs in given])

    def medians(self):
        ours, theirs = map(statistics.median, self.rates)
        both = f"{ours:,.0f}, {theirs:,.0f}"
        return f"**{both}**" if ours >= theirs else both

    def processor(self):
        """The microseconds of processor time of both for a request."""
        return ", ".join(f"{statistics.mean(some):.2f}" for some in self.ran)

    def told(self):
        ranges = "; ".join(f"{min(some):,} to {max(some):,}" for some in self.rates)
        slowest = ", ".join(f"{statistics.median(some) / 1000:.1f}" for some in self.worst)
        took = ", ".join(f"{statistics.mean(some):.2f} ± {error_of(some):.2f}" for some in self.ran)
        given_up = ", ".join(str(sum(some)) for some in self.given_up)
        return (f"{ranges}; {ratio(*self.rates)}; slowest {slowest} ms; the server ran {took} us a request, "
                f"{ratio(*self.ran[::-1])}; given up {given_up}")


def row(load, cells):
    """The row of docs/SPEED.md."""
    processor = "; ".join(cell.processor() for cell in cells)
    return "| " + " | ".join([load.name, *(ratio(*cell.rates) for cell in cells), processor]) + " |"


def read_words(words):
    """What is wanted, as argparse gives it, with a list of loads and one of numbers of workers."""
    ask = argparse.ArgumentParser(description=__doc__, formatter_class=argparse.RawDescriptionHelpFormatter)
    ask.add_argument("programs", nargs=2, metavar="PROGRAM")
    ask.add_argument("--connections", default="1000")
    ask.add_argument("--runs", type=int, default=5)
    ask.add_argument("--requests", type=int, default=0)
    ask.add_argument("--workers")
    ask.add_argument("--loads")
    wanted = ask.parse_args(words)
    beside_redis = is_redis(wanted.programs[1])
    wanted.workers = [int(number) for number in (wanted.workers or ("1" if beside_redis else "1,2,4")).split(",")]
    names = wanted.loads.split(",") if wanted.loads else OF_REDIS if beside_redis else list(LOADS)
    unknown = [name for name in names if name not in LOADS]
    if unknown:
        ask.error(f"there is no load {unknown[0]}; there are {', '.join(LOADS)}")
    wanted.loads = [LOADS[name]._replace(requests=wanted.requests or LOADS[name].requests) for name in names]
    return wanted


def main(words):
    wanted = read_words(words)
    if is_redis(wanted.programs[1]) and missing(wanted.programs[1]):
        print(f"{REDIS} is not installed: nothing is measured beside it (it is in Debian's package {REDIS})")
        return 0
    programs = list(zip(wanted.programs, [wanted.connections, "1000"]))
    rows = []
    with tempfile.TemporaryDirectory() as folder:
        client = compiled(folder)
        for load in wanted.loads:
            cells = [Cell(measure(client, programs, workers, load, wanted.runs)) for workers in wanted.workers]
            print("| " + " | ".join([load.name, *(cell.medians() for cell in cells)]) + " |")
            for workers, cell in zip(wanted.workers, cells):
                print(f"    {workers} workers: {cell.told()}", flush=True)
            rows.append(row(load, cells))
    print("\n".join(["", *rows]))
    return 0


if __name__ == "__main__":
    sys.exit(main(sys.argv[1:]))
