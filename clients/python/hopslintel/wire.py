# SPDX-License-Identifier: Apache-2.0
"""Frames: a length of four bytes, big-endian, and a payload of that many."""
from __future__ import annotations

MAX_PAYLOAD = 1_049_000
"""The most bytes of a frame, without the four of its length."""

MAX_BYTES = 1_073_741_824
"""The most that a fetch-all may come to, unless another limit is said: the
bytes of its names and texts, and `DOMAIN_BYTES` more for each domain."""

DOMAIN_BYTES = 256
"""What a domain takes in memory besides its name and its text."""

DIGEST_BYTES = 32
"""The bytes of a digest, which is a SHA-256."""


def frame(payload: bytes) -> bytes:
    """The frame of a payload."""
    return len(payload).to_bytes(4, "big") + payload


def sized(name: str) -> bytes:
    """A name after the byte that has its length."""
    data = name.encode()
    if len(data) > 255:
        raise ValueError(f"a name of {len(data)} bytes")
    return bytes([len(data)]) + data
