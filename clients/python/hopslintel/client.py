# SPDX-License-Identifier: Apache-2.0
"""The client that blocks."""
from __future__ import annotations

import json
import os
import time
import weakref
from types import TracebackType
from typing import (IO, Any, Callable, Dict, Iterable, Iterator, List,
                    Optional, Sequence, Type, Union, overload)

from .changes import Changes, changes_between
from .connection import (Connection, Deadline, SocketConnection,
                         StreamConnection)
from .errors import (DisconnectedError, GivenUpError, HopslintelError,
                     NotSentError, TimedOutError, digest_of, done, fetched,
                     is_unknown)
from .reply import (IN_THE_WAY, Appended, Bundles, Counts, Found, Known,
                    Removed, Reply, Stored, Unchanged, Version)
from .request import Document, Expected, Request
from .session import Session, batches, check_interval, pauses
from .turns import Ending, Turns
from .wire import MAX_BYTES

_Dial = Callable[[Deadline], Connection]


class _Line:
    """A connection and its session."""

    def __init__(self, connection: Connection, session: Session) -> None:
        self.connection = connection
        self.session = session
        # Inside an exchange. If it is so outside of one, a signal has cut
        # that, and nobody knows what will come.
        self.is_inside = True


class Client:
    """A session with a store, which threads may share.

    `timeout` is the most seconds that a call may take, with its retries and
    its wait for other threads; each method takes another one for one call.
    `math.inf` is no limit. A call that was not done by then is a
    `TimedOutError`.

    An answer that others were in the way (41, 42) is asked again, up to
    `retries` times, after pauses of some milliseconds.

    If a connection is found closed before anything was sent over it, a new
    one is made. If it fails later, a get or a fetch-all is asked once more,
    over a new one. A change never is, since it may have taken effect: it is
    a `DisconnectedError`, and the next call makes a new connection.

    `max_bytes` is the most that a fetch-all may come to, 1 GiB: the bytes of
    its names and texts, and 256 for each domain. More is a `TooLongError`.

    The handler of a signal may raise an exception anywhere inside a call.
    Later calls, also of other threads, are answered as if it had not.
    """

    _line: Optional[_Line]

    def __init__(self, reader: IO[bytes], writer: IO[bytes], *,
                 timeout: Optional[float] = 30.0, retries: int = 10,
                 max_bytes: int = MAX_BYTES) -> None:
        """A session over two blocking streams, such as those of a process
        `bundled run`; `close` closes them. It has no other connection."""
        self._start(None, timeout, retries, max_bytes)
        line = _Line(StreamConnection(reader, writer), Session(max_bytes))
        line.is_inside = False
        self._line = line

    @classmethod
    def connect(cls, port: int, host: str = "127.0.0.1", *,
                timeout: Optional[float] = 30.0, retries: int = 10,
                max_bytes: int = MAX_BYTES) -> Client:
        """A session over TCP."""
        client = cls.__new__(cls)
        client._start(
            lambda deadline: SocketConnection.over_tcp(host, port, deadline),
            timeout, retries, max_bytes)
        client._dial_anew(Deadline(timeout))
        return client

    @classmethod
    def connect_unix(cls, path: str, *, timeout: Optional[float] = 30.0,
                     retries: int = 10, max_bytes: int = MAX_BYTES) -> Client:
        """A session over the Unix socket at which the store listens, or
        behind which something hands on to its port."""
        client = cls.__new__(cls)
        client._start(
            lambda deadline: SocketConnection.over_unix(path, deadline),
            timeout, retries, max_bytes)
        client._dial_anew(Deadline(timeout))
        return client

    def _start(self, dial: Optional[_Dial], timeout: Optional[float],
               retries: int, max_bytes: int) -> None:
        self._dial = dial
        self._line = None
        self._timeout = timeout
        self._retries = retries
        self._max_bytes = max_bytes
        self._version = 1  # the one in which the next session begins
        # One exchange at a time: a reply to a get has no name, so a thread
        # could not tell that it took another's.
        self._turns = Turns()
        self._end = Ending()
        _clients.add(self)

    def close(self) -> None:
        """Ends the session: also a call of another thread, and `follow`.
        Closing again does nothing."""
        self._end.come()
        line = self._line
        if line is not None:
            line.connection.shut()
        self._drop_if_free()

    def __enter__(self) -> Client:
        return self

    def __exit__(self, kind: Optional[Type[BaseException]],
                 error: Optional[BaseException],
                 trace: Optional[TracebackType]) -> None:
        self.close()

    # What is asked

    def set(self, name: str, document: Document, *,
            timeout: Optional[float] = None) -> Union[Stored, Unchanged]:
        """Sets the bundle of a trust domain."""
        reply = self.ask(Request.set(name, document), timeout=timeout)
        return done(reply, Stored, Unchanged)

    def set_if(self, name: str, expected: Expected, document: Document, *,
               timeout: Optional[float] = None) -> Union[Stored, Unchanged]:
        """Sets the bundle only if the stored one is the expected one; else
        it is refused as 36. Puts the session into version 2."""
        request = Request.set_if(name, expected, document)
        reply = self._ask(request, self._deadline(timeout), version=2)
        return done(reply, Stored, Unchanged)

    def append(self, name: str, jwk: Document, *,
               timeout: Optional[float] = None) -> Union[Appended, Unchanged]:
        """Appends an authority, one JWK, to the bundle."""
        reply = self.ask(Request.append(name, jwk), timeout=timeout)
        return done(reply, Appended, Unchanged)

    def remove(self, name: str, *, timeout: Optional[float] = None) -> Removed:
        """Removes the bundle."""
        reply = self.ask(Request.remove(name), timeout=timeout)
        return done(reply, Removed, Removed)

    def get(self, name: str, *, timeout: Optional[float] = None) -> bytes:
        """The bundle's canonical text; `NoDomainError` if there is none."""
        reply = self.ask(Request.get(name), timeout=timeout)
        return done(reply, Found, Found).document

    def get_json(self, name: str, *,
                 timeout: Optional[float] = None) -> Dict[str, Any]:
        """The bundle, parsed."""
        bundle: Dict[str, Any] = json.loads(self.get(name, timeout=timeout))
        return bundle

    @overload
    def fetch_all(self, *, unless: None = None,
                  timeout: Optional[float] = None,
                  max_bytes: Optional[int] = None) -> Bundles: ...

    @overload
    def fetch_all(self, *, unless: Known, timeout: Optional[float] = None,
                  max_bytes: Optional[int] = None) -> Optional[Bundles]: ...

    def fetch_all(self, *, unless: Optional[Known] = None,
                  timeout: Optional[float] = None,
                  max_bytes: Optional[int] = None) -> Optional[Bundles]:
        """All bundles as they stood at one moment, in order of names.

        With `unless`, which is a digest or what was fetched before: None if
        the bundles still have that digest, and then nothing of them is
        transferred. Compare with `is None`, as an empty store gives an empty
        dict, which is false too. It puts the session into version 3. A
        server of before that version sends all, and the digests are compared
        here.
        """
        deadline = self._deadline(timeout)
        for_all = Request.fetch_all(max_bytes)
        if unless is None:
            return fetched(self._ask(for_all, deadline), None)
        known = digest_of(unless)
        request = Request.fetch_unless(known, max_bytes)
        reply = self._ask(request, deadline, version=3)
        if is_unknown(reply):
            reply = self._ask(for_all, deadline)
        return fetched(reply, known)

    def stats(self, *, timeout: Optional[float] = None) -> Dict[str, int]:
        """What the server has counted since it began, by the names of
        docs/FORMATS.md. Puts the session into version 3, which a server of
        before 1.2 refuses as 51."""
        deadline = self._deadline(timeout)
        reply = self._ask(Request.stats(), deadline, version=3)
        return done(reply, Counts, Counts).counts

    def version(self, number: int, *,
                timeout: Optional[float] = None) -> Version:
        """Sets the version of the session, 1 to 3."""
        reply = self.ask(Request.version(number), timeout=timeout)
        return done(reply, Version, Version)

    def ask(self, request: Request, *,
            timeout: Optional[float] = None) -> Reply:
        """The answer to a request, whatever it is."""
        return self._ask(request, self._deadline(timeout))

    def pipeline(self, requests: Iterable[Request], *,
                 timeout: Optional[float] = None) -> List[Reply]:
        """Asks many requests in few round trips, and gives the answers in
        their order. Nothing is asked again because others were in the way.

        Up to 64 requests and 4096 bytes are sent at once, or one longer
        request. The timeout is for each such batch. Between two of them
        others may ask the client something. If one fails, the error has the
        `replies` that came before.
        """
        replies: List[Reply] = []
        for batch in batches(requests):
            try:
                self._exchange(batch, self._deadline(timeout), replies)
            except HopslintelError as error:
                error.replies = replies
                raise
        return replies

    def follow(self, interval: float, *,
               on_error: Optional[Callable[[HopslintelError], None]] = None,
               timeout: Optional[float] = None) -> Iterator[Changes]:
        """What changed from one fetch-all to the next, until the client is
        closed. They are so many seconds apart, and transfer no bundles while
        nothing changes.

        What comes first is what is there, all of it as added, even if it is
        nothing. After that something is yielded only if it changed.

        A fetch-all that fails is raised, and ends the iterator. With
        `on_error` a fault of the moment is handed to that, and the next
        fetch-all comes after the interval: no connection, no answer in time,
        or an answer that gave up.
        """
        check_interval(interval)
        return self._follow(interval, on_error, timeout)

    def _follow(self, interval: float,
                on_error: Optional[Callable[[HopslintelError], None]],
                timeout: Optional[float]) -> Iterator[Changes]:
        before: Optional[Bundles] = None
        while not self._end.has_come:
            try:
                bundles = self.fetch_all(unless=before, timeout=timeout)
            except (DisconnectedError, GivenUpError) as error:
                if self._end.has_come:
                    return
                if on_error is None or not self._dial:
                    raise
                on_error(error)
            else:
                if bundles is not None:
                    yield changes_between(before or Bundles({}, b""), bundles)
                    before = bundles
            self._end.wait(interval)

    # How it is asked

    def _deadline(self, timeout: Optional[float]) -> Deadline:
        return Deadline(self._timeout if timeout is None else timeout)

    def _ask(self, request: Request, deadline: Deadline,
             version: int = 1) -> Reply:
        """The answer to a request in a session of this version or a later
        one; or to the request for that version, if it was refused."""
        replies: List[Reply] = []
        self._exchange([request], deadline, replies, version)
        for pause in pauses(self._retries):
            is_final = not isinstance(replies[-1], IN_THE_WAY)
            if is_final or not deadline.allows(pause):
                break
            time.sleep(pause)
            self._exchange([request], deadline, replies, version)
        return replies[-1]

    def _exchange(self, requests: Sequence[Request], deadline: Deadline,
                  replies: List[Reply], version: int = 1) -> None:
        """Adds the replies to the requests, as many as come."""
        try:
            self._turns.take(deadline)
            self._ask_in_turn(requests, deadline, replies, version)
        finally:
            self._turns.give_back()
            if self._end.has_come:
                self._drop_if_free()

    def _ask_in_turn(self, requests: Sequence[Request], deadline: Deadline,
                     replies: List[Reply], version: int) -> None:
        line = self._line
        if line is not None and line.is_inside:
            self._drop()
            line = None
        is_new = line is None
        if line is None:
            line = self._dial_anew(deadline)
        had = len(replies)
        try:
            self._speak(line, requests, deadline, replies, version)
            return
        except TimedOutError:
            raise
        except DisconnectedError as error:
            is_read = all(request.is_read for request in requests)
            is_safe = is_read or isinstance(error, NotSentError)
            if is_new or not is_safe or not self._dial:
                raise
        del replies[had:]
        line = self._dial_anew(deadline)
        self._speak(line, requests, deadline, replies, version)

    def _dial_anew(self, deadline: Deadline) -> _Line:
        """A new connection, with a session in its first version."""
        self._check_open()
        if self._dial is None:
            raise DisconnectedError("the session has ended")
        line = _Line(self._dial(deadline), Session(self._max_bytes))
        self._line = line
        self._check_open()  # it may have been closed in the meantime
        refusal = self._put_into(line, self._version, deadline)
        if refusal is not None:
            self._drop()
            done(refusal, Version, Version)
        line.is_inside = False
        return line

    def _speak(self, line: _Line, requests: Sequence[Request],
               deadline: Deadline, replies: List[Reply],
               version: int) -> None:
        """One exchange in this version or a later one. If the server refuses
        the version, nothing is asked."""
        refusal = self._put_into(line, version, deadline)
        if refusal is not None:
            replies.append(refusal)
            return
        had = len(replies)
        try:
            self._say(line, requests, deadline, replies)
        finally:
            for reply in replies[had:]:
                if isinstance(reply, Version):
                    self._version = reply.number

    def _put_into(self, line: _Line, version: int,
                  deadline: Deadline) -> Optional[Reply]:
        """Puts the session into this version, if it is in an earlier one.
        The answer is how the server refused it, if it did: a server is asked
        once a session for a version that it does not have."""
        session = line.session
        if session.version >= version:
            return None
        refusal: Optional[Reply] = session.refusal_of(version)
        if refusal is None:
            replies: List[Reply] = []
            self._say(line, [Request.version(version)], deadline, replies)
            refusal = None if session.version == version else replies[0]
        if refusal is None and version == 2:
            self._version = 2  # not 3: the next server may be of before it
        return refusal

    def _say(self, line: _Line, requests: Sequence[Request],
             deadline: Deadline, replies: List[Reply]) -> None:
        """Whatever fails in it, the next frame can't be found, so the
        connection is dropped."""
        connection, session = line.connection, line.session
        line.is_inside = True
        try:
            self._check_open()
            session.feed(connection.look(deadline))
            connection.send(session.ask(*requests), deadline)
            while session.owed:
                reply = session.take()
                if reply is None:
                    data = connection.receive(session.wanted, deadline)
                    session.feed(data)
                    continue
                replies.append(reply)
        except BaseException:
            self._drop()
            raise
        line.is_inside = False

    def _check_open(self) -> None:
        if self._end.has_come:
            raise DisconnectedError("the client is closed")

    def _drop(self) -> None:
        line, self._line = self._line, None
        if line is not None:
            line.connection.close()

    def _drop_if_free(self) -> None:
        """After `close`; a thread whose turn it is does so at its end."""
        try:
            if self._turns.take_if_free():
                self._drop()
        finally:
            self._turns.give_back()

    def _leave(self) -> None:
        """In a child process: the connection is its parent's."""
        self._turns = Turns()
        line, self._line = self._line, None
        if line is not None:
            line.connection.leave()


_clients: weakref.WeakSet[Client] = weakref.WeakSet()


def _leave_all() -> None:
    for client in list(_clients):
        client._leave()


if hasattr(os, "register_at_fork"):
    os.register_at_fork(after_in_child=_leave_all)
