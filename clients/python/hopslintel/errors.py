# SPDX-License-Identifier: Apache-2.0
"""What this package raises. All of it can be pickled."""
from __future__ import annotations

from typing import Optional, Sequence, Type, TypeVar, Union

from .reply import (GIVEN_UP, All, Bundles, GivenUp, Known, Refused, Reply,
                    Same)

_Kind = TypeVar("_Kind")
_Other = TypeVar("_Other")


class HopslintelError(Exception):
    """What this package raises, besides `ValueError` for what has no frame."""

    replies: Sequence[Reply] = ()
    """Those of a pipeline that came before it failed."""


class RefusedError(HopslintelError):
    """The store refused, and nothing has changed."""

    def __init__(self, reply: Refused) -> None:
        super().__init__(reply)
        self.reply = reply


class NoDomainError(RefusedError):
    """The trust domain has no bundle (30)."""


class GivenUpError(HopslintelError):
    """The store gave up (22, 40, 41, 42, 56), and nothing has changed."""

    def __init__(self, reply: GivenUp) -> None:
        super().__init__(reply)
        self.reply = reply


class ProtocolError(HopslintelError):
    """What came is not a reply to the request. The session has ended."""


class DisconnectedError(HopslintelError, ConnectionError):
    """There is no connection, or it failed or ended.

    Whether a request that had no reply took effect is not known.
    """


class TimedOutError(DisconnectedError, TimeoutError):
    """The time of the call was over."""


class NotSentError(DisconnectedError):
    """The connection was found closed before anything was sent over it."""


class TooLongError(HopslintelError):
    """All bundles come to more than `max_bytes`. The session has ended."""


def done(reply: Reply, kind: Type[_Kind],
         other: Type[_Other]) -> Union[_Kind, _Other]:
    """The reply, if it is of these kinds: it was done. Else it is raised."""
    if isinstance(reply, kind) or isinstance(reply, other):
        return reply
    if isinstance(reply, Refused):
        is_absent = reply.number == 30
        raise (NoDomainError if is_absent else RefusedError)(reply)
    if isinstance(reply, GIVEN_UP):
        raise GivenUpError(reply)
    raise ProtocolError(f"not a reply to it: {reply}")


def digest_of(known: Known) -> bytes:
    """The digest that is known."""
    return known.digest if isinstance(known, Bundles) else known


def fetched(reply: Reply, known: Optional[bytes]) -> Optional[Bundles]:
    """The bundles of a fetch-all, or None if they have the digest that is
    known. Another reply is raised."""
    answer = done(reply, All, Same)
    if isinstance(answer, Same) or answer.digest == known:
        return None
    return Bundles(answer.bundles, answer.digest)


def is_unknown(reply: Reply) -> bool:
    """Whether the server does not know such a request, or such a version."""
    return isinstance(reply, Refused) and reply.number == 51
