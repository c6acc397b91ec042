"""What is opened and asked of positions: what quotients have in common, finite and infinite ones."""

from __future__ import annotations

import ctypes
import os
from collections.abc import Callable, Iterable, Sequence
from typing import Any, Final, TypeVar, Union, overload

from ._answers import OUTCOMES, Answer, Move, Outcome, answer_of, letters_of
from ._bounds import MOST_BYTES
from ._certified import Certified
from ._faults import NOT_IN_RANGE, NOT_OPEN, TEXT, Refused, WrongType, fault
from ._given import NOWHERE, Rows, heaps_of, is_array, number_of, refusal_of, rows_of, words_of
from ._library import Call, Told, text_by

#: A certificate: its bytes, their text, or the path of its file.
Given = Union[bytes, str, "os.PathLike[str]"]
# As many bytes are room for most descriptions
USUAL_TEXT = 1 << 16
# Which call checks a text that begins so, and what else is to be done with one
CHECKS: Final = {b"mqc ": "check", b"mqw ": "check_infinite", b"mqp ": "check_infinite"}
OTHERS: Final = {b"tabl": "misere.certify takes a table of one's own"}
Self = TypeVar("Self", bound="Asked")


class Asked:
    """A certificate that was accepted. It is made by a check alone, and doesn't change. Any number of threads may ask it.

    The library checks the certificate once, and keeps what it certifies to this object's end, or until it is closed:
    by `close()`, or behind a block of `with`. A copy is closed by itself. What is pickled is checked again where it is
    read."""

    __slots__ = ("_bounds", "_bytes", "_certified", "_said", "__weakref__")

    # How it is opened and asked, the call that makes it, and what its text says
    _calls: type[Certified]
    _check: str
    _said: Any

    def __init__(self, certificate: Given, *bounds: int) -> None:
        """Of a certificate, and the bounds that its check takes."""
        self._bytes, self._bounds = _bytes_of(certificate), tuple(map(number_of, bounds))
        try:
            self._certified = self._calls.of(self._bytes, *self._bounds)
        except Refused as stop:
            raise self._advised(stop, certificate) from None

    def close(self) -> None:
        """Closes it: the library keeps nothing of it any more, and no position can be asked, nor a description. What its
        certificate says can be. It may be closed again."""
        self._certified.close()

    @property
    def closed(self) -> bool:
        """Whether it is closed."""
        return self._certified.closed

    def __enter__(self: Self) -> Self:
        self._stay_open()
        return self

    def __exit__(self, *_: object) -> None:
        self.close()

    @property
    def certificate(self) -> bytes:
        """The certificate's bytes."""
        return self._bytes

    @property
    def code(self) -> str:
        """The game's code, such as '0.33'."""
        return str(self._said.code)

    @property
    def last_heap(self) -> int | None:
        """The last heap of which the certificate speaks; None where it speaks of all."""
        raise NotImplementedError

    def outcome(self, heaps: Iterable[int]) -> Outcome:
        """'P' where the player who has just moved wins the position, 'N' where the next one does."""
        return OUTCOMES[self._number(self._certified.outcome, heaps)]

    def answer(self, heaps: Iterable[int]) -> Answer:
        """'ended', 'lost', or the first winning move."""
        given, certified = heaps_of(heaps), self._certified
        with certified.lent() as owner:
            status = certified.answer(*owner.words, *words_of(given), owner.move_at)
            answer = answer_of(owner.move)
        if status:
            raise refusal_of(status, given, self.last_heap, self._left_out)
        return answer

    def winning_move(self, heaps: Iterable[int]) -> Move | None:
        """The first winning move, or None, where none wins."""
        answer = self.answer(heaps)
        return None if isinstance(answer, str) else answer

    @overload
    def outcomes(self, positions: Sequence[Iterable[int]]) -> list[Outcome]:
        ...

    @overload
    def outcomes(self, positions: Iterable[Iterable[int]]) -> Any:
        ...

    def outcomes(self, positions: Iterable[Iterable[int]]) -> Any:
        """The outcome of each position: a list of 'P' and 'N'.

        The positions may be an array of numpy, a row each, where a 0 is no heap; then an array of letters is given.
        """
        told = self._asked_of_all(self._certified.outcomes, rows_of(positions), ctypes.c_uint32)
        return letters_of(told) if is_array(positions) else [OUTCOMES[it] for it in told]

    def answers(self, positions: Iterable[Iterable[int]]) -> list[Answer]:
        """The answer in each position."""
        return [answer_of(it) for it in self._asked_of_all(self._certified.answers, rows_of(positions), Told)]

    def _advised(self, stop: Refused, certificate: Given) -> Refused:
        """The refusal, which says so where a text is the name of a file, or one that another call checks."""
        begun = self._bytes[:4]
        other = CHECKS.get(begun, self._check)
        if stop.number != TEXT:
            return stop
        if isinstance(certificate, str) and _is_file(certificate):
            advice = f"misere.{self._check}(pathlib.Path({certificate!r})) reads it"
            return Refused(TEXT, f"{stop.said}; this text is the name of a file: {advice}")
        if begun in OTHERS:
            return Refused(TEXT, f"{stop.said}; {OTHERS[begun]}")
        return stop if other == self._check else Refused(TEXT, f"{stop.said}; misere.{other} checks such a text")

    @property
    def _left_out(self) -> tuple[int, ...]:
        """The heaps below the last one of which the certificate doesn't speak."""
        return ()

    def _number(self, call: Call, heaps: Iterable[int]) -> int:
        """What a call tells of a position in a number."""
        given, certified = heaps_of(heaps), self._certified
        # (as a block of `with`, which takes longer)
        owner = certified.lend()
        try:
            status, told = call(*owner.words, *words_of(given), owner.number_at), owner.number.value
        finally:
            certified.take_back(owner)
        if status:
            raise refusal_of(status, given, self.last_heap, self._left_out)
        return told

    def _asked_of_all(self, call: Call, rows: Rows, kind: Any) -> Any:
        count = len(rows.ends)
        told = (kind * count)()
        room = ctypes.addressof(told) if count else NOWHERE
        with self._certified.lent() as owner:
            status = call(*owner.words, *words_of(rows.heaps), *words_of(rows.ends), room, count)
        if status:
            raise refusal_of(status, rows.heaps, self.last_heap, self._left_out, rows.ends)
        return told

    def _text(self, *words: int) -> str:
        """The text that the library describes it by, of an output and what else is asked."""
        with self._certified.lent() as owner:
            return text_by(USUAL_TEXT, self._certified.describe, *owner.words, *words).decode("utf-8")

    def _stay_open(self) -> None:
        if self.closed:
            raise fault(NOT_OPEN)

    def __eq__(self, other: object) -> bool:
        return isinstance(other, Asked) and self._bytes == other._bytes

    def __hash__(self) -> int:
        return hash(self._bytes)

    def __reduce__(self: Self) -> tuple[Callable[..., Self], tuple[bytes | int, ...]]:
        self._stay_open()
        return type(self), (self._bytes, *self._bounds)

    def __copy__(self: Self) -> Self:
        """Another object of the same certificate. Nothing is checked."""
        self._stay_open()
        other = object.__new__(type(self))
        other._bytes, other._bounds, other._said = self._bytes, self._bounds, self._said
        other._certified = self._certified.copy()
        return other

    def __deepcopy__(self: Self, _: object) -> Self:
        return self.__copy__()


def number_of_output(output: str, outputs: Sequence[str | None]) -> int:
    """The library's number of an output."""
    if output is None or output not in outputs:
        names = ", ".join(it for it in outputs if it is not None)
        raise fault(NOT_IN_RANGE, f"an output is one of {names}, and {output!r} is none")
    return outputs.index(output)


def is_infinite(certificate: Given) -> bool:
    """Whether it begins as the text of a whole game does, or as a presentation."""
    return CHECKS.get(_bytes_of(certificate)[:4]) == "check_infinite"


def _bytes_of(certificate: Given) -> bytes:
    if isinstance(certificate, str):
        # (what isn't UTF-8 is no certificate either)
        return certificate.encode("utf-8", "surrogatepass")
    if isinstance(certificate, (bytes, bytearray, memoryview)):
        return bytes(certificate)
    if isinstance(certificate, os.PathLike):
        with open(certificate, "rb") as file:
            # (no certificate is longer, so that the beginning of a longer file is refused as the whole is)
            return file.read(MOST_BYTES + 1)
    raise WrongType(NOT_IN_RANGE, f"a certificate is bytes, their text or the path of a file, and not {certificate!r}")


def _is_file(name: str) -> bool:
    try:
        return os.path.isfile(name)
    except ValueError:
        return False
