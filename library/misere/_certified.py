"""What the library's calls are asked about: a certificate that it accepted."""

from __future__ import annotations

import array
import ctypes
import os
import threading
from collections.abc import Iterator
from contextlib import contextmanager

from ._faults import LAW, LIMIT_MET, OUTCOME, MisereError, fault
from ._given import words_of
from ._library import Call, Opened, Told, library

# Room for most positions at which the rule fails
USUAL_HEAPS = 64


class Owner:
    """An owner of an opened quotient, which the library keeps as long as there is one: the word by which a call is asked,
    and the room for what it tells of a position. One call at a time has it."""

    __slots__ = ("move", "move_at", "number", "number_at", "opened", "words")

    def __init__(self) -> None:
        self.opened, self.number, self.move = Opened(), ctypes.c_uint32(), Told()
        self.words = (ctypes.addressof(self.opened),)
        self.number_at, self.move_at = ctypes.addressof(self.number), ctypes.addressof(self.move)

    def close(self, close: Call = library.misere_close) -> None:
        close(*self.words)

    # (which may be when the interpreter ends, and the module's names are gone)
    __del__ = close


class InfiniteOwner(Owner):
    """The same of an opened infinite quotient."""

    __slots__ = ()

    def close(self, close: Call = library.misere_infinite_close) -> None:
        close(*self.words)

    __del__ = close


class Certified:
    """A certificate that was accepted: it is checked once, and the library keeps its quotient. It has as many owners as
    there are calls at once, each of which is lent to one call. (To take one off a list or put one there is a step of the
    interpreter.)"""

    __slots__ = ("_closed", "_first", "_idle")

    # Its owners, its calls, and what a number says where it says something else than usual
    owner: type[Owner]
    open: Call
    share: Call
    failure: Call
    outcome: Call
    outcomes: Call
    answer: Call
    answers: Call
    describe: Call
    meanings: dict[int, str] = {}

    def __init__(self, first: Owner) -> None:
        """Of an owner, of which the others are made. No call has it but for that."""
        self._first, self._closed = first, False
        self._idle: list[Owner] = []

    @classmethod
    def of(cls, certificate: bytes, *bounds: int) -> Certified:
        """That of an accepted certificate."""
        first = cls.owner()
        status = cls.open(certificate, len(certificate), *bounds, *first.words)
        if status:
            raise cls._refusal(status, certificate, bounds, USUAL_HEAPS)
        return cls(first)

    def lend(self) -> Owner:
        """An owner that no other call has."""
        try:
            return self._idle.pop()
        except IndexError:
            return self._another()

    def take_back(self, owner: Owner) -> None:
        """An owner that a call no longer has."""
        self._idle.append(owner)
        if self._closed:
            self._let_go()

    @contextmanager
    def lent(self) -> Iterator[Owner]:
        """The same as a block."""
        owner = self.lend()
        try:
            yield owner
        finally:
            self.take_back(owner)

    @property
    def closed(self) -> bool:
        return self._closed

    def close(self) -> None:
        """No call is asked any more. What is asked just now is told yet, and lets go of the quotient then."""
        self._closed = True
        self._let_go()
        with _sharing:
            self._first.close()

    def copy(self) -> Certified:
        """One that is closed by itself."""
        return type(self)(self._another())

    def _another(self) -> Owner:
        other = self.owner()
        with _sharing:
            status = self.share(*self._first.words, *other.words)
        if status:
            raise fault(status)
        return other

    def _let_go(self) -> None:
        while self._idle:
            try:
                self._idle.pop().close()
            except IndexError:
                # (another thread was faster)
                return

    @classmethod
    def _refusal(cls, status: int, certificate: bytes, bounds: tuple[int, ...], room: int) -> MisereError:
        """Why a certificate is refused. The position at which the rule of the game fails is told by a check of its own,
        and by one more if the room is too small for its heaps."""
        if status != OUTCOME:
            return fault(status, cls.meanings.get(status))
        told, count = array.array("Q", bytes(8 * room)), ctypes.c_uint64()
        status = cls.failure(certificate, len(certificate), *bounds, *words_of(told), ctypes.addressof(count))
        if status != OUTCOME:
            return fault(status, cls.meanings.get(status))
        if count.value > room:
            return cls._refusal(status, certificate, bounds, count.value)
        return fault(status, position=told[: count.value].tolist())


class Finite(Certified):
    """A certificate of a quotient."""

    __slots__ = ()
    owner = Owner
    open, share, failure = library.misere_open, library.misere_share, library.misere_failure
    outcome, outcomes = library.misere_opened_outcome, library.misere_opened_outcomes
    value, values = library.misere_opened_value, library.misere_opened_values
    answer, answers = library.misere_opened_answer, library.misere_opened_answers
    describe = library.misere_opened_describe


class Infinite(Certified):
    """A text of a whole game, or a presentation."""

    __slots__ = ()
    owner = InfiniteOwner
    open, share, failure = library.misere_infinite_open, library.misere_infinite_share, library.misere_infinite_failure
    outcome, outcomes = library.misere_infinite_outcome, library.misere_infinite_outcomes
    answer, answers = library.misere_infinite_answer, library.misere_infinite_answers
    describe = library.misere_infinite_describe
    order, value = library.misere_infinite_order, library.misere_infinite_value
    meanings = {
        LAW: "the relations do not reduce each word to one normal form",
        LIMIT_MET: "larger than the check takes",
    }


# First owners are shared by one thread at a time. (A thread that a handler of signals interrupts may share again, and the
# child of a fork has none of the threads that may have been at it.)
_sharing = threading.RLock()


def _renew() -> None:
    global _sharing
    _sharing = threading.RLock()


os.register_at_fork(after_in_child=_renew)
