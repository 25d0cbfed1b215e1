# SPDX-License-Identifier: Apache-2.0
"""What a client asks."""
from __future__ import annotations

import enum
import json
from dataclasses import dataclass, field
from typing import Any, Mapping, Optional, Union

from .wire import DIGEST_BYTES, MAX_PAYLOAD, sized


class Expect(enum.Enum):
    """What `set_if` expects to find, if it expects no sequence."""

    ABSENT = 0
    """No bundle."""
    UNNUMBERED = 2
    """A bundle without a sequence."""

    def __str__(self) -> str:
        return self.name.lower()


Expected = Union[Expect, int]
"""No bundle, a bundle without a sequence, or one with this sequence."""

Document = Union[bytes, bytearray, memoryview, str, Mapping[str, Any]]
"""JSON: its bytes, its text, or what `json.dumps` turns into it."""


@dataclass(frozen=True)
class Request:
    """What is asked, made by one of its class methods.

    Names and documents are not judged here: the store does that. A request
    that has no frame, since it is too long, is a `ValueError`, and so is a
    digest of another length.
    """

    payload: bytes
    max_bytes: Optional[int] = field(default=None, compare=False)
    """The most that the reply to a fetch-all may come to, if not that of the
    session."""

    def __post_init__(self) -> None:
        if not 1 <= len(self.payload) <= MAX_PAYLOAD:
            raise ValueError(f"a request of {len(self.payload)} bytes")

    @classmethod
    def set(cls, name: str, document: Document) -> Request:
        """Sets the bundle of a trust domain."""
        return cls(b"S" + sized(name) + _json(document))

    @classmethod
    def set_if(cls, name: str, expected: Expected,
               document: Document) -> Request:
        """Sets it only if the stored one is the expected one. The session
        has to be in version 2."""
        expectation = _write_expected(expected)
        return cls(b"C" + sized(name) + expectation + _json(document))

    @classmethod
    def append(cls, name: str, jwk: Document) -> Request:
        """Appends an authority, one JWK, to the bundle."""
        return cls(b"A" + sized(name) + _json(jwk))

    @classmethod
    def remove(cls, name: str) -> Request:
        """Removes the bundle."""
        return cls(b"R" + sized(name))

    @classmethod
    def get(cls, name: str) -> Request:
        """Gets the bundle."""
        return cls(b"G" + sized(name))

    @classmethod
    def fetch_all(cls, max_bytes: Optional[int] = None) -> Request:
        """Fetches all bundles."""
        return cls(b"F", max_bytes)

    @classmethod
    def fetch_unless(cls, digest: bytes,
                     max_bytes: Optional[int] = None) -> Request:
        """Fetches all bundles, unless they have this digest. The session has
        to be in version 3."""
        if len(digest) != DIGEST_BYTES:
            raise ValueError(f"a digest of {len(digest)} bytes")
        return cls(b"U" + digest, max_bytes)

    @classmethod
    def version(cls, number: int) -> Request:
        """Sets the version of the session, 1 to 3."""
        return cls(b"V" + bytes([number]))

    @classmethod
    def stats(cls) -> Request:
        """Asks what the server has counted. The session has to be in version
        3."""
        return cls(b"M")

    @property
    def is_read(self) -> bool:
        """Whether it changes nothing in the store, and may be asked again
        even if nobody knows what became of it."""
        return self.payload[:1] in (b"G", b"F", b"U", b"M")


def _json(document: Document) -> bytes:
    if isinstance(document, (bytes, bytearray, memoryview)):
        return bytes(document)
    if not isinstance(document, str):
        document = json.dumps(document, separators=(",", ":"))
    return document.encode()


def _write_expected(expected: Expected) -> bytes:
    if isinstance(expected, Expect):
        return bytes([expected.value])
    if not 0 <= expected < 2 ** 64:
        raise ValueError(f"the sequence {expected}")
    return b"\x01" + expected.to_bytes(8, "big")
