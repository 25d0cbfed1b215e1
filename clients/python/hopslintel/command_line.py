# SPDX-License-Identifier: Apache-2.0
"""The command line."""
from __future__ import annotations

import argparse
import contextlib
import json
import math
import os
import re
import sys
from typing import BinaryIO, Iterator, List, Match, Optional, Sequence, Tuple

from .bundles import bundle_map, dump, jwks, pem
from .changes import Changes
from .client import Client
from .errors import GivenUpError, HopslintelError, RefusedError

# What a terminal would obey: controls, and those of the direction of text.
# (A bundle may have some of them in the `kid` of an authority.)
_OBEYED = re.compile("[\x00-\x09\x0b-\x1f\x7f-\x9f\u061c\u200e\u200f"
                     "\u2028-\u202e\u2066-\u2069]")
# The status of a program that Ctrl-C ends, as shells have it.
_INTERRUPTED = 130

_COMMANDS: List[Tuple[str, str, List[str]]] = [
    ("get", "the bundle of a trust domain", ["name"]),
    ("set", "sets it to the document in a file", ["name", "file"]),
    ("remove", "removes it", ["name"]),
    ("pem", "its X.509 authorities, as `bundled pem` writes them", ["name"]),
    ("jwks", "its JWT authorities, as a JWK set for libraries", ["name"]),
    ("map", "all bundles, as a SPIFFE bundle map", []),
    ("dump", "all bundles, as `bundled serve --load` reads them", []),
    ("follow", "a line for each bundle that is there (+), and then for each "
     "that is added (+), changes (~) or is removed (-)", []),
]


def main(words: Optional[Sequence[str]] = None) -> int:
    """Asks a store one thing, and prints the answer. The status is 0 if it
    was done, 1 if that failed, 2 if the command line was refused, 3 if the
    store refused or gave up, and 130 if it was interrupted. What a terminal
    would obey is written to one as JSON's escapes, and elsewhere as it
    is."""
    try:
        asked = _parser().parse_args(words)
        _answer(asked)
    except (HopslintelError, OSError, ValueError) as error:
        _tell(error)
        _leave_unwritten()
        return 3 if isinstance(error, (RefusedError, GivenUpError)) else 1
    except KeyboardInterrupt:
        _leave_unwritten()
        return _INTERRUPTED
    return 0


def _answer(asked: argparse.Namespace) -> None:
    if sys.stdout is None:
        raise OSError("standard output is closed")
    is_terminal = sys.stdout.isatty()
    out: BinaryIO = sys.stdout.buffer
    with _connect(asked) as store:
        for piece in _output(store, asked):
            out.write(_escaped(piece) if is_terminal else piece)
            out.flush()


def _escaped(text: bytes) -> bytes:
    """The text for a terminal: the escapes are those of JSON, so that a
    bundle is the same one."""
    shown = text.decode(errors="backslashreplace")
    return _OBEYED.sub(_escape, shown).encode()


def _escape(found: Match[str]) -> str:
    return f"\\u{ord(found.group()):04x}"


def _parser() -> argparse.ArgumentParser:
    parser = argparse.ArgumentParser(prog="hopslintel",
                                     description=main.__doc__)
    at = parser.add_mutually_exclusive_group(required=True)
    at.add_argument("--port", type=_port,
                    help="of the store on this machine")
    at.add_argument("--socket", metavar="PATH",
                    help="the Unix socket of the store")
    parser.add_argument("--timeout", type=_seconds, default=30.0,
                        metavar="SECONDS", help="of each call; 30")
    parser.add_argument("--version", action="version",
                        version=f"hopslintel {_version()}")
    commands = parser.add_subparsers(dest="command", required=True)
    for command, about, arguments in _COMMANDS:
        reader = commands.add_parser(command, help=about)
        for argument in arguments:
            reader.add_argument(argument)
        if command == "follow":
            reader.add_argument("--interval", type=_seconds, default=5.0,
                                metavar="SECONDS", help="of fetch-alls; 5")
    return parser


def _version() -> str:
    from . import __version__  # (which this module is a part of)
    return __version__


def _port(word: str) -> int:
    if not re.fullmatch("[0-9]{1,5}", word) or not 0 < int(word) < 65536:
        raise argparse.ArgumentTypeError(f"not a port: {word!r}")
    return int(word)


def _seconds(word: str) -> float:
    with contextlib.suppress(ValueError):
        if 0 < float(word) < math.inf:
            return float(word)
    raise argparse.ArgumentTypeError(f"not seconds over 0: {word!r}")


def _connect(asked: argparse.Namespace) -> Client:
    if asked.socket is not None:
        return Client.connect_unix(asked.socket, timeout=asked.timeout)
    return Client.connect(asked.port, timeout=asked.timeout)


def _output(store: Client, asked: argparse.Namespace) -> Iterator[bytes]:
    if asked.command == "follow":
        for changes in store.follow(asked.interval, on_error=_tell):
            yield _lines(changes)
    elif asked.command == "set":
        with open(asked.file, "rb") as file:
            done = store.set(asked.name, file.read())
        yield type(done).__name__.lower().encode() + b"\n"
    elif asked.command == "remove":
        store.remove(asked.name)
        yield b"removed\n"
    elif asked.command in ("map", "dump"):
        write = bundle_map if asked.command == "map" else dump
        yield write(store.fetch_all())
    else:
        yield _of_one(asked.command, store.get(asked.name))


def _of_one(command: str, bundle: bytes) -> bytes:
    if command == "pem":
        return pem(bundle)
    if command == "jwks":
        return json.dumps(jwks(bundle), separators=(",", ":")).encode() + b"\n"
    return bundle + b"\n"


def _lines(changes: Changes) -> bytes:
    marks = [*((name, "+") for name in changes.added),
             *((name, "~") for name in changes.changed),
             *((name, "-") for name in changes.removed)]
    return "".join(f"{mark} {name}\n" for name, mark in sorted(marks)).encode()


def _tell(error: Exception) -> None:
    """One line, if standard error takes it."""
    line = _escaped(f"hopslintel: {error}".replace("\n", " ").encode(
        errors="backslashreplace")).decode()
    if sys.stderr is not None:
        with contextlib.suppress(OSError):
            print(line, file=sys.stderr, flush=True)


def _leave_unwritten() -> None:
    """What could not be written is not tried once more at the end, where it
    would fail with a status of its own."""
    for stream in (sys.stdout, sys.stderr):
        try:
            if stream is not None:
                stream.flush()
        except OSError:
            with open(os.devnull, "wb") as null:
                os.dup2(null.fileno(), stream.fileno())
