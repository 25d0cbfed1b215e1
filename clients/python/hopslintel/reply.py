# SPDX-License-Identifier: Apache-2.0
"""What a store answers."""
from __future__ import annotations

from dataclasses import dataclass, field
from typing import Dict, Mapping, Optional, Union

from .request import Expected


@dataclass(frozen=True)
class Stored:
    """The bundle was stored."""


@dataclass(frozen=True)
class Unchanged:
    """An equal bundle, or the authority, was there already."""


@dataclass(frozen=True)
class Appended:
    """The authority was appended; the bundle now has this sequence."""

    sequence: Optional[int]


@dataclass(frozen=True)
class Removed:
    """The bundle was removed."""


@dataclass(frozen=True)
class Found:
    """The bundle, in canonical text."""

    document: bytes


@dataclass(frozen=True)
class All:
    """All bundles as they stood at one moment, in order of their names."""

    bundles: Dict[str, bytes]
    digest: bytes = field(default=b"", compare=False)
    """The SHA-256 of the bytes that the reply came in, which are a dump."""


@dataclass(frozen=True)
class Same:
    """All bundles have the digest that is known."""


@dataclass(frozen=True)
class Counts:
    """What the server has counted, by the names of docs/FORMATS.md."""

    counts: Dict[str, int]


class Bundles(Dict[str, bytes]):
    """All bundles as they stood at one moment, in order of their names: a
    dict of canonical texts, with the digest of what came.

    A caller who changes the dict does not change the digest.
    """

    digest: bytes
    """What `bundled digest` writes of the dump, as 32 bytes."""

    def __init__(self, bundles: Mapping[str, bytes], digest: bytes) -> None:
        super().__init__(bundles)
        self.digest = digest


Known = Union[bytes, Bundles]
"""A digest that is known: of 32 bytes, or that of what was fetched before."""


@dataclass(frozen=True)
class Version:
    """The session has this version."""

    number: int


@dataclass(frozen=True)
class Refused:
    """The store refused: the number, its name, and what it tells.

    The detail is the place of a bad byte or entry, the stored sequence (31),
    or what stands there (36). A number that this package does not know has
    the name `Unknown`, and its detail is the bytes that came with it, if any
    did.
    """

    number: int
    name: str
    detail: Union[Expected, bytes, None] = None

    def __str__(self) -> str:
        words = ["refused", str(self.number), self.name]
        if isinstance(self.detail, bytes):
            words.append(self.detail.hex())
        elif self.detail is not None:
            words.append(str(self.detail))
        return " ".join(words)


@dataclass(frozen=True)
class OutOfMemory:
    """The store had no memory for it (22)."""

    def __str__(self) -> str:
        return "given up 22: the store is out of memory"


@dataclass(frozen=True)
class Worn:
    """The shard has used up its revisions (40)."""

    shard: int

    def __str__(self) -> str:
        return f"given up 40: shard {self.shard} has used up its revisions"


@dataclass(frozen=True)
class Moved:
    """Others changed some shard in each round of the fetch-all (41)."""

    shard: int
    first: int
    second: int

    def __str__(self) -> str:
        return f"given up 41: shard {self.shard} was changed in each round"


@dataclass(frozen=True)
class Held:
    """Others had the shard in each try (42)."""

    shard: int
    revision: int

    def __str__(self) -> str:
        return f"given up 42: others had shard {self.shard} in each try"


@dataclass(frozen=True)
class Shut:
    """The request was not asked (56): the port is for reads only, or a
    gate of the server is shut."""

    def __str__(self) -> str:
        return ("given up 56: this port is for reads only, or a gate of the "
                "server is shut")


GivenUp = Union[OutOfMemory, Worn, Moved, Held, Shut]
Reply = Union[Stored, Unchanged, Appended, Removed, Found, All, Same, Counts,
              Version, Refused, GivenUp]

GIVEN_UP = (OutOfMemory, Worn, Moved, Held, Shut)
"""Those that tell that the store gave up."""

IN_THE_WAY = (Moved, Held)
"""Those that tell that others were in the way, and may not be next time."""
