# SPDX-License-Identifier: Apache-2.0
"""Connections that block, up to the deadline of a call."""
from __future__ import annotations

import contextlib
import io
import math
import select
import socket
import time
from typing import IO, Callable, Iterator, Optional, Type, Union

from .errors import DisconnectedError, NotSentError, TimedOutError

# A limit of more seconds, 23 days, is none: systems count their waits in
# milliseconds of 31 bits.
_MOST_SECONDS = 2_000_000
_READ = 65536
# A pipe that can be written to takes so many bytes at once (PIPE_BUF).
_WRITE = 4096


class Deadline:
    """The time by which a call has to be done."""

    def __init__(self, seconds: Optional[float]) -> None:
        if seconds is None or seconds > _MOST_SECONDS:
            seconds = math.inf
        if math.isnan(seconds):
            raise ValueError("a time limit that is not a number")
        self._seconds = seconds
        self._end = time.monotonic() + seconds

    def left(self) -> Optional[float]:
        """The seconds that are left; None if there is no limit."""
        if self._end == math.inf:
            return None
        left = self._end - time.monotonic()
        if left <= 0:
            raise self.missed()
        return left

    def allows(self, seconds: float) -> bool:
        """Whether more than these seconds are left."""
        return time.monotonic() + seconds < self._end

    def missed(self) -> TimedOutError:
        """The error of a call that was not done in time."""
        return TimedOutError(f"not done within {self._seconds} seconds")


class SocketConnection:
    """A connection over a socket."""

    def __init__(self, connected: socket.socket) -> None:
        self._socket = connected

    @classmethod
    def over_tcp(cls, host: str, port: int,
                 deadline: Deadline) -> SocketConnection:
        check_port(port)
        with _failing(f"no connection to {host} port {port}", deadline):
            made = socket.create_connection((host, port), deadline.left())
            made.setsockopt(socket.IPPROTO_TCP, socket.TCP_NODELAY, 1)
            return cls(made)

    @classmethod
    def over_unix(cls, path: str, deadline: Deadline) -> SocketConnection:
        with _failing(f"no connection to {path}", deadline):
            made = socket.socket(socket.AF_UNIX, socket.SOCK_STREAM)
            try:
                made.settimeout(deadline.left())
                made.connect(path)
            except BaseException:
                made.close()
                raise
            return cls(made)

    def look(self, deadline: Deadline) -> bytes:
        """What came that was not asked for, before anything is sent."""
        number = self._socket.fileno()
        if number >= 0 and not is_ready(number):
            return b""
        with _failing("the connection failed", deadline, NotSentError):
            self._socket.settimeout(deadline.left())
            return _some(self._socket.recv(_READ))

    def send(self, data: bytes, deadline: Deadline) -> None:
        """Sends all of the bytes."""
        rest = memoryview(data)
        with _failing("the connection failed", deadline):
            while rest:
                self._socket.settimeout(deadline.left())
                rest = rest[self._socket.send(rest):]

    def receive(self, wanted: int, deadline: Deadline) -> bytes:
        """Some bytes, as they come; an error if none will."""
        with _failing("the connection failed", deadline):
            self._socket.settimeout(deadline.left())
            return _some(self._socket.recv(_READ))

    def shut(self) -> None:
        """Ends the connection; also a call of another thread over it."""
        with contextlib.suppress(OSError):
            self._socket.shutdown(socket.SHUT_RDWR)

    def close(self) -> None:
        """Gives back what it takes. No other thread may be in a call."""
        self._socket.close()

    def leave(self) -> None:
        """Closes a child's copy of what is its parent's."""
        self._socket.close()


class StreamConnection:
    """A connection over two blocking streams, such as those of a process.

    The deadline is kept if the system can wait for the streams by `poll`.
    """

    def __init__(self, reader: IO[bytes], writer: IO[bytes]) -> None:
        self._reader = reader
        self._writer = writer
        # It reads what is there, so that `poll` tells whether more comes.
        self._read1: Optional[Callable[[int], bytes]] = getattr(
            reader, "read1", None)

    def look(self, deadline: Deadline) -> bytes:
        """What came that was not asked for, before anything is sent."""
        number = _number(self._reader)
        if number is None or not is_ready(number):
            return b""
        with _failing("the connection failed", deadline, NotSentError):
            if self._read1 is None:
                return _some(self._reader.read(1))
            return _some(self._read1(_READ))

    def send(self, data: bytes, deadline: Deadline) -> None:
        """Sends all of the bytes."""
        rest = memoryview(data)
        with _failing("the connection failed", deadline):
            while rest:
                _wait_for(self._writer, "POLLOUT", deadline)
                rest = rest[self._writer.write(rest[:_WRITE]):]
                self._writer.flush()

    def receive(self, wanted: int, deadline: Deadline) -> bytes:
        """Some bytes, as they come; an error if none will. A stream that
        waits for as many as were asked for is asked for those wanted."""
        with _failing("the connection failed", deadline):
            _wait_for(self._reader, "POLLIN", deadline)
            if self._read1 is None:
                return _some(self._reader.read(wanted))
            return _some(self._read1(_READ))

    def shut(self) -> None:
        """Ends the connection; also a call of another thread over it, as the
        process sees the end of its input and then ends its output."""
        with contextlib.suppress(OSError):
            self._writer.close()

    def close(self) -> None:
        """Gives back what it takes. No other thread may be in a call."""
        for stream in (self._writer, self._reader):
            with contextlib.suppress(OSError):
                stream.close()

    def leave(self) -> None:
        """Leaves to the parent what is its own."""


def check_port(port: int) -> None:
    """A number over 65535 is no port: the system would take its lower
    bits."""
    if not 0 < port < 65536:
        raise ValueError(f"not a port: {port}")


Connection = Union[SocketConnection, StreamConnection]


@contextlib.contextmanager
def _failing(what: str, deadline: Deadline,
             kind: Type[DisconnectedError] = DisconnectedError
             ) -> Iterator[None]:
    """Whatever fails is an error of this package."""
    try:
        yield
    except TimedOutError:
        raise
    except _EndedError as error:
        raise kind(str(error)) from None
    except (socket.timeout, TimeoutError) as error:
        if error.errno is not None:  # the system gave up
            raise kind(f"{what}: {error}") from error
        raise deadline.missed() from error
    except (OSError, ValueError) as error:  # ValueError: it was closed
        raise kind(f"{what}: {error}") from error


class _EndedError(Exception):
    """No more comes."""


def _some(data: bytes) -> bytes:
    if not data:
        raise _EndedError("the connection ended")
    return data


def _number(stream: IO[bytes]) -> Optional[int]:
    """The descriptor of a stream, if it can be waited for."""
    if not hasattr(select, "poll"):
        return None
    try:
        return stream.fileno()
    except (io.UnsupportedOperation, ValueError):  # in memory, or closed
        return None


def is_ready(number: int) -> bool:
    """Whether something came over a descriptor, or it has ended."""
    if hasattr(select, "poll"):
        looking = select.poll()
        looking.register(number, select.POLLIN)
        return bool(looking.poll(0))
    return bool(select.select([number], [], [], 0)[0])


def _wait_for(stream: IO[bytes], event: str, deadline: Deadline) -> None:
    """Waits until the stream can be read or written, if that can be asked."""
    left, number = deadline.left(), _number(stream)
    if left is None or number is None:
        return
    waiting = select.poll()
    waiting.register(number, getattr(select, event))
    if not waiting.poll(math.ceil(left * 1000)):
        raise deadline.missed()
