# SPDX-License-Identifier: Apache-2.0
"""From the payload of a frame to a reply, by docs/FORMATS.md."""
from __future__ import annotations

import re
import struct
from typing import Callable, Dict, Tuple

from .errors import ProtocolError
from .reply import (GIVEN_UP, All, Appended, Counts, Found, Held, Moved,
                    OutOfMemory, Refused, Removed, Reply, Same, Shut, Stored,
                    Unchanged, Version, Worn)
from .request import Expect, Expected, Request

_NAME = re.compile(rb"[a-z0-9._-]{1,255}")
_COUNT = re.compile(rb"([a-z0-9_]+)=([0-9]{1,20})")
_MOST_COUNTS_BYTES = 65_536

# Those that tell that it was done, by the letter of the request.
_DONE: Dict[int, Tuple[type, ...]] = {
    ord("S"): (Stored, Unchanged),
    ord("C"): (Stored, Unchanged),
    ord("A"): (Appended, Unchanged),
    ord("R"): (Removed,),
    ord("G"): (Found,),
    ord("F"): (All,),
    ord("U"): (All, Same),
    ord("V"): (Version,),
    ord("M"): (Counts,),
}

# Replies that have a fixed layout, by their code.
_FIXED: Dict[int, Tuple[str, Callable[..., Reply]]] = {
    ord("s"): (">", Stored),
    ord("u"): (">", Unchanged),
    ord("d"): (">", Removed),
    ord("e"): (">", Same),
    ord("v"): (">B", Version),
    22: (">", OutOfMemory),
    40: (">I", Worn),
    41: (">IQQ", Moved),
    42: (">IQ", Held),
    56: (">", Shut),
}

# A reply of a lower code is a refusal, also one that is not known here.
_LEAST_LETTER = 64

# The names of the other refusals, and the layout of their details.
_REFUSALS: Dict[int, Tuple[str, str]] = {
    1: ("Empty", ">"),
    3: ("BadChar", ">I"),
    10: ("TooLong", ">"),
    11: ("NotJson", ">"),
    12: ("NotObject", ">"),
    13: ("NoKeys", ">"),
    14: ("BadSequence", ">"),
    15: ("BadHint", ">"),
    16: ("BadEntry", ">I"),
    17: ("BadKey", ">I"),
    18: ("BadX5c", ">I"),
    19: ("BadKid", ">I"),
    20: ("KidTwice", ">I"),
    21: ("TooMany", ">"),
    23: ("PassedOver", ">"),
    30: ("NoDomain", ">"),
    31: ("Stale", ">Q"),
    32: ("KidTaken", ">"),
    33: ("TooMany", ">"),
    34: ("TooLong", ">"),
    35: ("SequenceFull", ">"),
    51: ("BadRequest", ">"),
}


def decode(payload: bytes) -> Reply:
    """The reply in a frame, other than that to a fetch-all."""
    try:
        return _decode(payload[0], payload[1:])
    except struct.error as error:
        raise _malformed(payload) from error


def decode_count(payload: bytes) -> int:
    """The number of bundles in the first frame of a fetch-all."""
    if len(payload) != 9 or not payload.startswith(b"a"):
        raise _malformed(payload)
    return int.from_bytes(payload[1:], "big")


def decode_bundle(payload: bytes) -> Tuple[str, bytes]:
    """The name and the text in another frame of a fetch-all."""
    size = payload[1] if len(payload) > 1 else 0
    name = payload[2:2 + size]
    is_item = payload.startswith(b"i") and len(name) == size
    if not is_item or not _NAME.fullmatch(name):
        raise ProtocolError(f"not a bundle of a fetch-all: {payload[:40]!r}")
    return name.decode("ascii"), payload[2 + size:]


def check_kind(request: Request, reply: Reply) -> None:
    """Raises an error unless such a reply is one to this request."""
    kinds = _DONE.get(request.payload[0], ()) + (Refused,) + GIVEN_UP
    is_answer = isinstance(reply, kinds)
    if isinstance(reply, Version):
        is_answer &= request.payload == b"V" + bytes([reply.number])
    if not is_answer:
        asked = request.payload[:20]
        raise ProtocolError(f"{asked!r} is answered by {type(reply).__name__}")


def _decode(code: int, rest: bytes) -> Reply:
    if code == ord("f"):
        return Found(rest)
    if code == ord("m"):
        return _counts(rest)
    if code == ord("p"):
        return Appended(None if rest == b"\x00" else _sequence(rest))
    if code == 36:
        return Refused(code, "NotExpected", _expected(rest))
    if code in _FIXED:
        layout, kind = _FIXED[code]
        return kind(*struct.unpack(layout, rest))
    if code in _REFUSALS:
        name, layout = _REFUSALS[code]
        return Refused(code, name, *struct.unpack(layout, rest))
    if code < _LEAST_LETTER:
        return Refused(code, "Unknown", rest or None)
    raise ProtocolError(f"a reply of code {code}")


def _counts(line: bytes) -> Counts:
    """What a line of words NAME=N tells."""
    if len(line) > _MOST_COUNTS_BYTES:
        raise ProtocolError(f"counts of {len(line)} bytes")
    counts: Dict[str, int] = {}
    for word in line.split(b" ") if line else []:
        found = _COUNT.fullmatch(word)
        name = found.group(1).decode() if found else ""
        if not found or int(found.group(2)) >= 2 ** 64 or name in counts:
            raise ProtocolError(f"not a count: {word[:40]!r}")
        counts[name] = int(found.group(2))
    return Counts(counts)


def _expected(data: bytes) -> Expected:
    if data in (b"\x00", b"\x02"):
        return Expect(data[0])
    return _sequence(data)


def _sequence(data: bytes) -> int:
    kind, sequence = struct.unpack(">BQ", data)
    if kind != 1:
        raise ProtocolError(f"not a sequence: {data!r}")
    return int(sequence)


def _malformed(payload: bytes) -> ProtocolError:
    return ProtocolError(f"malformed: {payload[:40]!r}")
