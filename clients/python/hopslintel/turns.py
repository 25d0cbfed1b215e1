# SPDX-License-Identifier: Apache-2.0
"""Whose turn it is, among callers that a signal may interrupt anywhere.

The handler of a signal may raise an exception between any two instructions.
So a lock that is taken with a limit of time can stay locked: the exception
comes after it was taken, and before the `try` that would release it. Here
nothing has to be done for a turn to end. It is that of a call of a function,
its frame, and it is over when that call is, however it ended.
"""
from __future__ import annotations

import contextlib
import sys
import threading
import time
from types import FrameType
from typing import Dict, Optional

from .connection import Deadline
from .errors import HopslintelError

# Who waits looks again so often, in case that nobody rang for it.
_SECONDS_BETWEEN_LOOKS = 0.05
# Who was woken takes the turn in this time.
_SECONDS_FOR_OTHERS = 0.0001


class Bell:
    """Wakes one of those who wait. It may be lost if a signal interrupts who
    was woken, so whoever waits looks again after some time."""

    def __init__(self) -> None:
        self._silent = threading.Lock()
        self._silent.acquire()

    def ring(self) -> None:
        """Wakes one who waits, or else the next who will."""
        if self._silent.locked():
            with contextlib.suppress(RuntimeError):  # another just rang
                self._silent.release()

    def wait(self, seconds: float) -> bool:
        """Waits for it at most so long, and tells whether it rang."""
        return self._silent.acquire(timeout=seconds)


class _Turn:
    """The turn of one call, and the one that follows it."""

    def __init__(self, frame: Optional[FrameType]) -> None:
        self.frame = frame
        # At most one. `setdefault` takes one of those who want to be it, in
        # one instruction.
        self.next: Dict[int, _Turn] = {}

    def is_over(self) -> bool:
        """Whether it was given back, or the call has ended without that."""
        frame = self.frame
        if frame is None:
            return True
        try:
            frame.clear()
        except RuntimeError:  # the frame of a call that goes on
            return False
        return True


class Turns:
    """One call after another.

        try:
            turns.take(deadline)
            ..
        finally:
            turns.give_back()

    If a signal interrupts this anywhere, also before the last line is done,
    the next caller finds that the call has ended, and takes its turn.
    """

    def __init__(self) -> None:
        self._known = _Turn(None)  # the last one, or one before it
        self._given_back = Bell()
        self._is_awaited = False

    def take(self, deadline: Deadline) -> None:
        """Waits for the turn of the function that calls this."""
        deadline.left()
        frame = sys._getframe(1)
        if self._follows(frame):
            return
        self._check_not_inside(frame)
        while not self._follows(frame):
            left = deadline.left()
            looks = _SECONDS_BETWEEN_LOOKS
            self._is_awaited = True
            self._given_back.wait(looks if left is None else min(left, looks))

    def take_if_free(self) -> bool:
        """Takes the turn of the function that calls this, if nobody has
        one."""
        return self._follows(sys._getframe(1))

    def give_back(self) -> None:
        """Ends the turn of the function that calls this, if it has it."""
        last = self._last()
        if last.frame is sys._getframe(1):
            last.frame = None
            self._given_back.ring()
            if self._is_awaited:  # else this thread would be next, each time
                self._is_awaited = False
                time.sleep(_SECONDS_FOR_OTHERS)

    def _last(self) -> _Turn:
        turn = self._known
        while turn.next:
            turn = turn.next[0]
        return turn

    def _follows(self, frame: FrameType) -> bool:
        """Whether the turn is now that of this frame."""
        last = self._last()
        if not last.is_over():
            return False
        turn = _Turn(frame)
        if last.next.setdefault(0, turn) is not turn:
            return False
        self._known = turn
        return True

    def _check_not_inside(self, frame: FrameType) -> None:
        """A call that a signal handler makes inside of another call of its
        thread would wait for ever: that one goes on after the handler."""
        holder = self._last().frame
        caller: Optional[FrameType] = frame
        while caller is not None and holder is not None:
            if caller is holder:
                raise HopslintelError("nothing was asked: the call is inside "
                                      "of another call of the same client")
            caller = caller.f_back


class Ending:
    """Whether something has ended, which can be waited for."""

    def __init__(self) -> None:
        self.has_come = False
        self._came = Bell()

    def come(self) -> None:
        """It has ended now."""
        self.has_come = True
        self._came.ring()

    def wait(self, seconds: float) -> None:
        """Waits for it, at most so long."""
        until = time.monotonic() + seconds
        while not self.has_come:
            left = until - time.monotonic()
            if left <= 0:
                return
            self._came.wait(min(left, 1.0))
        self._came.ring()  # for others who wait
