# SPDX-License-Identifier: Apache-2.0
"""The client for asyncio.

    from hopslintel.aio import Client

    async with await Client.connect(8443) as store:
        await store.get("a.example")
        async for changes in store.follow(5):
            print(sorted(changes.bundles))

It has the methods of `hopslintel.Client`, and they are awaited.
"""
from __future__ import annotations

import asyncio
import contextlib
import json
import warnings
from types import TracebackType
from typing import (Any, AsyncIterator, Awaitable, Callable, Coroutine, Dict,
                    Iterable, List, Optional, Sequence, Tuple, Type, Union,
                    overload)

from .changes import Changes, changes_between
from .connection import Deadline, check_port, is_ready
from .errors import (DisconnectedError, GivenUpError, HopslintelError,
                     NotSentError, TimedOutError, digest_of, done, fetched,
                     is_unknown)
from .reply import (IN_THE_WAY, Appended, Bundles, Counts, Found, Known,
                    Removed, Reply, Stored, Unchanged, Version)
from .request import Document, Expected, Request
from .session import Session, batches, check_interval, pauses
from .wire import MAX_BYTES

_READ = 65536
_Streams = Tuple[asyncio.StreamReader, asyncio.StreamWriter]
_Dial = Callable[[], Awaitable[_Streams]]


class _Line:
    """A connection and its session."""

    def __init__(self, reader: asyncio.StreamReader,
                 writer: asyncio.StreamWriter, session: Session) -> None:
        self.reader = reader
        self.writer = writer
        self.session = session
        # Inside an exchange. If it is so outside of one, that was cut, and
        # nobody knows what will come.
        self.is_inside = True


class Client:
    """A session with a store, which the tasks of a loop may share.

    `timeout`, `retries` and new connections are as in `hopslintel.Client`.
    A call that is cancelled inside an exchange drops the connection, and the
    next call makes a new one.
    """

    _line: Optional[_Line] = None

    def __init__(self, reader: asyncio.StreamReader,
                 writer: asyncio.StreamWriter, *,
                 timeout: Optional[float] = 30.0, retries: int = 10,
                 max_bytes: int = MAX_BYTES) -> None:
        """A session over two streams, such as those of a process `bundled
        run`; `close` closes the writer. It has no other connection."""
        self._start(None, timeout, retries, max_bytes)
        line = _Line(reader, writer, Session(max_bytes))
        line.is_inside = False
        self._line = line

    @classmethod
    async def connect(cls, port: int, host: str = "127.0.0.1", *,
                      timeout: Optional[float] = 30.0, retries: int = 10,
                      max_bytes: int = MAX_BYTES) -> Client:
        """A session over TCP."""
        check_port(port)
        client = cls.__new__(cls)
        client._start(lambda: asyncio.open_connection(host, port),
                      timeout, retries, max_bytes)
        await _within(client._dial_anew(), Deadline(timeout))
        return client

    @classmethod
    async def connect_unix(cls, path: str, *, timeout: Optional[float] = 30.0,
                           retries: int = 10,
                           max_bytes: int = MAX_BYTES) -> Client:
        """A session over the Unix socket at which the store listens, or
        behind which something hands on to its port."""
        client = cls.__new__(cls)
        client._start(lambda: asyncio.open_unix_connection(path),
                      timeout, retries, max_bytes)
        await _within(client._dial_anew(), Deadline(timeout))
        return client

    def _start(self, dial: Optional[_Dial], timeout: Optional[float],
               retries: int, max_bytes: int) -> None:
        self._dial = dial
        self._timeout = timeout
        self._retries = retries
        self._max_bytes = max_bytes
        self._version = 1  # the one in which the next session begins
        self._lock = asyncio.Lock()  # one exchange at a time
        self._closing = asyncio.Event()

    def __del__(self) -> None:
        if self._line is not None:
            warnings.warn(f"{self!r} was not closed", ResourceWarning,
                          source=self)

    async def close(self) -> None:
        """Ends the session: also a call of another task, and `follow`.
        Closing again does nothing."""
        self._closing.set()
        self._drop()
        await asyncio.sleep(0)  # the loop closes what was dropped

    async def __aenter__(self) -> Client:
        return self

    async def __aexit__(self, kind: Optional[Type[BaseException]],
                        error: Optional[BaseException],
                        trace: Optional[TracebackType]) -> None:
        await self.close()

    # What is asked

    async def set(self, name: str, document: Document, *,
                  timeout: Optional[float] = None) -> Union[Stored, Unchanged]:
        """Sets the bundle of a trust domain."""
        reply = await self.ask(Request.set(name, document), timeout=timeout)
        return done(reply, Stored, Unchanged)

    async def set_if(self, name: str, expected: Expected, document: Document,
                     *, timeout: Optional[float] = None
                     ) -> Union[Stored, Unchanged]:
        """Sets the bundle only if the stored one is the expected one; else
        it is refused as 36. Puts the session into version 2."""
        request = Request.set_if(name, expected, document)
        reply = await self._ask(request, self._deadline(timeout), version=2)
        return done(reply, Stored, Unchanged)

    async def append(self, name: str, jwk: Document, *,
                     timeout: Optional[float] = None
                     ) -> Union[Appended, Unchanged]:
        """Appends an authority, one JWK, to the bundle."""
        reply = await self.ask(Request.append(name, jwk), timeout=timeout)
        return done(reply, Appended, Unchanged)

    async def remove(self, name: str, *,
                     timeout: Optional[float] = None) -> Removed:
        """Removes the bundle."""
        reply = await self.ask(Request.remove(name), timeout=timeout)
        return done(reply, Removed, Removed)

    async def get(self, name: str, *,
                  timeout: Optional[float] = None) -> bytes:
        """The bundle's canonical text; `NoDomainError` if there is none."""
        reply = await self.ask(Request.get(name), timeout=timeout)
        return done(reply, Found, Found).document

    async def get_json(self, name: str, *,
                       timeout: Optional[float] = None) -> Dict[str, Any]:
        """The bundle, parsed."""
        text = await self.get(name, timeout=timeout)
        bundle: Dict[str, Any] = json.loads(text)
        return bundle

    @overload
    async def fetch_all(self, *, unless: None = None,
                        timeout: Optional[float] = None,
                        max_bytes: Optional[int] = None) -> Bundles: ...

    @overload
    async def fetch_all(self, *, unless: Known,
                        timeout: Optional[float] = None,
                        max_bytes: Optional[int] = None
                        ) -> Optional[Bundles]: ...

    async def fetch_all(self, *, unless: Optional[Known] = None,
                        timeout: Optional[float] = None,
                        max_bytes: Optional[int] = None
                        ) -> Optional[Bundles]:
        """All bundles as they stood at one moment, in order of names. With
        `unless`, which is a digest or what was fetched before: None if they
        still have that digest, as `hopslintel.Client` says."""
        deadline = self._deadline(timeout)
        for_all = Request.fetch_all(max_bytes)
        if unless is None:
            return fetched(await self._ask(for_all, deadline), None)
        known = digest_of(unless)
        request = Request.fetch_unless(known, max_bytes)
        reply = await self._ask(request, deadline, version=3)
        if is_unknown(reply):
            reply = await self._ask(for_all, deadline)
        return fetched(reply, known)

    async def stats(self, *,
                    timeout: Optional[float] = None) -> Dict[str, int]:
        """What the server has counted since it began, as
        `hopslintel.Client` gives it."""
        deadline = self._deadline(timeout)
        reply = await self._ask(Request.stats(), deadline, version=3)
        return done(reply, Counts, Counts).counts

    async def version(self, number: int, *,
                      timeout: Optional[float] = None) -> Version:
        """Sets the version of the session, 1 to 3."""
        reply = await self.ask(Request.version(number), timeout=timeout)
        return done(reply, Version, Version)

    async def ask(self, request: Request, *,
                  timeout: Optional[float] = None) -> Reply:
        """The answer to a request, whatever it is."""
        return await self._ask(request, self._deadline(timeout))

    async def pipeline(self, requests: Iterable[Request], *,
                       timeout: Optional[float] = None) -> List[Reply]:
        """Asks many requests, as `hopslintel.Client` does, and gives the
        answers in their order."""
        replies: List[Reply] = []
        for batch in batches(requests):
            try:
                await self._exchange(batch, self._deadline(timeout), replies)
            except HopslintelError as error:
                error.replies = replies
                raise
        return replies

    def follow(self, interval: float, *,
               on_error: Optional[Callable[[HopslintelError], None]] = None,
               timeout: Optional[float] = None) -> AsyncIterator[Changes]:
        """What changed from one fetch-all to the next, until the client is
        closed, as `hopslintel.Client` gives it."""
        check_interval(interval)
        return self._follow(interval, on_error, timeout)

    async def _follow(self, interval: float,
                      on_error: Optional[Callable[[HopslintelError], None]],
                      timeout: Optional[float]) -> AsyncIterator[Changes]:
        before: Optional[Bundles] = None
        while not self._closing.is_set():
            try:
                bundles = await self.fetch_all(unless=before, timeout=timeout)
            except (DisconnectedError, GivenUpError) as error:
                if self._closing.is_set():
                    return
                if on_error is None or not self._dial:
                    raise
                on_error(error)
            else:
                if bundles is not None:
                    yield changes_between(before or Bundles({}, b""), bundles)
                    before = bundles
            await self._pause(interval)

    # How it is asked

    def _deadline(self, timeout: Optional[float]) -> Deadline:
        return Deadline(self._timeout if timeout is None else timeout)

    async def _pause(self, seconds: float) -> None:
        """Waits, but no longer than the client is open."""
        with contextlib.suppress(asyncio.TimeoutError):
            await asyncio.wait_for(self._closing.wait(), seconds)

    async def _ask(self, request: Request, deadline: Deadline,
                   version: int = 1) -> Reply:
        """The answer to a request in a session of this version or a later
        one; or to the request for that version, if it was refused."""
        replies: List[Reply] = []
        await self._exchange([request], deadline, replies, version)
        for pause in pauses(self._retries):
            is_final = not isinstance(replies[-1], IN_THE_WAY)
            if is_final or not deadline.allows(pause):
                break
            await asyncio.sleep(pause)
            await self._exchange([request], deadline, replies, version)
        return replies[-1]

    async def _exchange(self, requests: Sequence[Request], deadline: Deadline,
                        replies: List[Reply], version: int = 1) -> None:
        """Adds the replies to the requests, as many as come."""
        await _within(self._take_turn(requests, replies, version), deadline)

    async def _take_turn(self, requests: Sequence[Request],
                         replies: List[Reply], version: int) -> None:
        async with self._lock:
            line = self._line
            if line is not None and line.is_inside:
                self._drop()
                line = None
            is_new = line is None
            if line is None:
                line = await self._dial_anew()
            had = len(replies)
            try:
                await self._speak(line, requests, replies, version)
                return
            except DisconnectedError as error:
                is_read = all(request.is_read for request in requests)
                is_safe = is_read or isinstance(error, NotSentError)
                if is_new or not is_safe or not self._dial:
                    raise
            del replies[had:]
            line = await self._dial_anew()
            await self._speak(line, requests, replies, version)

    async def _dial_anew(self) -> _Line:
        """A new connection, with a session in its first version."""
        self._check_open()
        if self._dial is None:
            raise DisconnectedError("the session has ended")
        try:
            reader, writer = await self._dial()
        except OSError as error:
            raise DisconnectedError(f"no connection: {error}") from error
        line = _Line(reader, writer, Session(self._max_bytes))
        self._line = line
        refusal = await self._put_into(line, self._version)
        if refusal is not None:
            self._drop()
            done(refusal, Version, Version)
        line.is_inside = False
        return line

    async def _speak(self, line: _Line, requests: Sequence[Request],
                     replies: List[Reply], version: int) -> None:
        """One exchange in this version or a later one. If the server refuses
        the version, nothing is asked."""
        refusal = await self._put_into(line, version)
        if refusal is not None:
            replies.append(refusal)
            return
        had = len(replies)
        try:
            await self._say(line, requests, replies)
        finally:
            for reply in replies[had:]:
                if isinstance(reply, Version):
                    self._version = reply.number

    async def _put_into(self, line: _Line,
                        version: int) -> Optional[Reply]:
        """Puts the session into this version, if it is in an earlier one.
        The answer is how the server refused it, if it did: a server is asked
        once a session for a version that it does not have."""
        session = line.session
        if session.version >= version:
            return None
        refusal: Optional[Reply] = session.refusal_of(version)
        if refusal is None:
            replies: List[Reply] = []
            await self._say(line, [Request.version(version)], replies)
            refusal = None if session.version == version else replies[0]
        if refusal is None and version == 2:
            self._version = 2  # not 3: the next server may be of before it
        return refusal

    async def _say(self, line: _Line, requests: Sequence[Request],
                   replies: List[Reply]) -> None:
        """Whatever fails in it, the next frame can't be found, so the
        connection is dropped."""
        writer, session = line.writer, line.session
        line.is_inside = True
        try:
            self._check_open()
            session.feed(await _look(line))
            writer.write(session.ask(*requests))
            await writer.drain()
            while session.owed:
                reply = session.take()
                if reply is None:
                    session.feed(await _some(line.reader))
                    continue
                replies.append(reply)
        except HopslintelError:
            self._drop()
            raise
        except OSError as error:
            self._drop()
            why = f"the connection failed: {error}"
            raise DisconnectedError(why) from error
        except BaseException:
            self._drop()
            raise
        line.is_inside = False

    def _check_open(self) -> None:
        if self._closing.is_set():
            raise DisconnectedError("the client is closed")

    def _drop(self) -> None:
        line, self._line = self._line, None
        if line is not None:
            line.writer.transport.abort()


async def _within(work: Coroutine[Any, Any, Any], deadline: Deadline) -> None:
    try:
        left = deadline.left()
    except TimedOutError:
        work.close()
        raise
    try:
        await asyncio.wait_for(work, left)
    except asyncio.TimeoutError as error:
        raise deadline.missed() from error


async def _some(reader: asyncio.StreamReader) -> bytes:
    data = await reader.read(_READ)
    if not data:
        raise DisconnectedError("the connection ended")
    return data


async def _look(line: _Line) -> bytes:
    """What came that was not asked for, before anything is sent: it is in
    the reader, or the loop has not read it yet."""
    socket = line.writer.get_extra_info("socket")
    number = -1 if socket is None else socket.fileno()
    has_come = number >= 0 and is_ready(number)
    reading = line.reader.read(_READ)
    try:
        if has_come:
            data = await reading
        else:
            reading.send(None)
            return b""  # it would wait
    except StopIteration as end:
        data = end.value
    except OSError as error:
        raise NotSentError(f"the connection failed: {error}") from error
    finally:
        reading.close()
    if not data:
        raise NotSentError("the connection ended")
    return data
