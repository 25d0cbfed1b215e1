# SPDX-License-Identifier: Apache-2.0
"""The protocol without input and output: bytes go in, and replies come out.

    session = Session()
    stream.write(session.ask(Request.get("a.example")))
    while (reply := session.take()) is None:
        session.feed(stream.read())

Both clients are made of it, and so can be a client for another way to do
input and output.
"""
from __future__ import annotations

import hashlib
import math
import random
from collections import deque
from typing import Deque, Dict, Iterable, Iterator, List, Optional

from .decode import check_kind, decode, decode_bundle, decode_count
from .errors import ProtocolError, TooLongError
from .reply import All, Refused, Reply, Version
from .request import Request
from .wire import DOMAIN_BYTES, MAX_BYTES, MAX_PAYLOAD, frame

# What is sent before any of it is answered: so many bytes, which a pipe or a
# socket takes even if nobody reads, or one longer request. And so many
# requests, as their replies are kept until the last has come.
_BATCH_BYTES = 4096
_BATCH_REQUESTS = 64


class Frames:
    """Takes the bytes of a stream as they come, and gives its payloads."""

    def __init__(self) -> None:
        self._came = bytearray()

    def feed(self, data: bytes) -> None:
        """Adds the bytes that came next."""
        self._came += data

    def take(self) -> Optional[bytes]:
        """The payload of the next frame, or None if it is not whole yet."""
        if len(self._came) < 4:
            return None
        size = int.from_bytes(self._came[:4], "big")
        if not 1 <= size <= MAX_PAYLOAD:
            raise ProtocolError(f"a frame of {size} bytes")
        if len(self._came) < 4 + size:
            return None
        payload = bytes(self._came[4:4 + size])
        del self._came[:4 + size]
        return payload

    @property
    def is_empty(self) -> bool:
        """Whether no byte came after the frames that were taken."""
        return not self._came

    @property
    def wanted(self) -> int:
        """How many bytes the next frame lacks, as far as can be told."""
        size = int.from_bytes(self._came[:4], "big")
        whole = 4 + size if len(self._came) >= 4 else 4
        return max(whole - len(self._came), 0)


class Session:
    """What one connection owes, and what came over it.

    After an error the next frame can't be found: the connection is of no
    more use.
    """

    def __init__(self, max_bytes: int = MAX_BYTES) -> None:
        self._max_bytes = max_bytes
        self._frames = Frames()
        self._owed: Deque[Request] = deque()
        self._fetched: Optional[_Fetched] = None
        self._version = 1
        self._refusals: Dict[int, Refused] = {}

    def ask(self, *requests: Request) -> bytes:
        """The bytes that ask these requests."""
        if not self._owed and not self._frames.is_empty:
            raise ProtocolError("something came that was not asked for")
        self._owed.extend(requests)
        return b"".join(frame(request.payload) for request in requests)

    @property
    def owed(self) -> int:
        """How many requests have no reply yet."""
        return len(self._owed)

    @property
    def version(self) -> int:
        """The version of the session, by the replies that were taken."""
        return self._version

    def refusal_of(self, version: int) -> Optional[Refused]:
        """How the server refused to set this version, if it did."""
        return self._refusals.get(version)

    @property
    def wanted(self) -> int:
        """At least so many bytes are to come before the next reply."""
        return self._frames.wanted

    def feed(self, data: bytes) -> None:
        """Adds the bytes that came next."""
        self._frames.feed(data)

    def take(self) -> Optional[Reply]:
        """The reply to the first request that has none, or None if it has
        not come as a whole."""
        while self._owed:
            payload = self._frames.take()
            if payload is None:
                break
            reply = self._add(payload)
            if reply is not None:
                self._fetched = None
                self._keep_version(self._owed.popleft(), reply)
                return reply
        return None

    def _keep_version(self, request: Request, reply: Reply) -> None:
        """Keeps what the reply to a request for a version tells."""
        if isinstance(reply, Version):
            self._version = reply.number
        elif request.payload.startswith(b"V") and isinstance(reply, Refused):
            self._refusals[request.payload[-1]] = reply

    def _add(self, payload: bytes) -> Optional[Reply]:
        """The reply that ends with this payload, if one does."""
        if self._fetched is not None:
            self._fetched.add(payload)
        elif payload.startswith(b"a"):
            request = self._owed[0]
            check_kind(request, All({}))
            most = request.max_bytes
            self._fetched = _Fetched(
                payload, self._max_bytes if most is None else most)
        else:
            reply = decode(payload)
            check_kind(self._owed[0], reply)
            return reply
        return self._fetched.reply()


class _Fetched:
    """As much of a fetch-all as has come, from its first payload on."""

    def __init__(self, payload: bytes, max_bytes: int) -> None:
        self._left = decode_count(payload)
        self._max_bytes = max_bytes
        self._bytes = self._left * DOMAIN_BYTES
        self._take(0)
        self._last = ""
        self._bundles: Dict[str, bytes] = {}
        self._digest = hashlib.sha256(frame(payload))

    def _take(self, size: int) -> None:
        self._bytes += size
        if self._bytes > self._max_bytes:
            raise TooLongError(f"all bundles come to more than max_bytes, "
                               f"which is {self._max_bytes}")

    def add(self, payload: bytes) -> None:
        self._take(len(payload) - 2)
        self._digest.update(frame(payload))
        name, text = decode_bundle(payload)
        if name <= self._last:
            raise ProtocolError(f"{name!r} comes after {self._last!r}")
        self._bundles[name] = text
        self._last = name
        self._left -= 1

    def reply(self) -> Optional[All]:
        if self._left:
            return None
        return All(self._bundles, self._digest.digest())


def batches(requests: Iterable[Request]) -> Iterator[List[Request]]:
    """Cuts requests into those that are sent before any is answered. A
    client that writes more without reading would block for ever as soon as
    the server waits for it to read."""
    batch: List[Request] = []
    size = 0
    for request in requests:
        added = 4 + len(request.payload)
        is_full = size + added > _BATCH_BYTES or len(batch) == _BATCH_REQUESTS
        if batch and is_full:
            yield batch
            batch, size = [], 0
        batch.append(request)
        size += added
    if batch:
        yield batch


def check_interval(seconds: float) -> None:
    """An interval is over nothing, and it ends."""
    if not 0 < seconds < math.inf:
        raise ValueError(f"not an interval: {seconds} seconds")


def pauses(retries: int) -> Iterator[float]:
    """The seconds before each retry: from nothing to 1, 2, 4 and at last 64
    milliseconds, at random, so that those who met do not meet again."""
    for retry in range(retries):
        yield random.random() * 0.001 * float(2 ** min(retry, 6))
