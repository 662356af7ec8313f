"""Why a call is refused: a class for each reason, all below `Error`."""
from __future__ import annotations

from typing import Dict, Optional, Type

from . import _header

_TEXTS = {number: text for number, text in _header.FAULTS.values()}


class Error(Exception):
    """A call was refused, and nothing has changed by it. Each reason is a class of its own below
    this one."""

    #: The header's number of the reason, or 0 if it has none there.
    number: int = 0
    #: Of a list of changes or of lookups, which of them is refused, from 0.
    place: Optional[int] = None

    def __init__(self, text: Optional[str] = None) -> None:
        super().__init__(_TEXTS.get(self.number, self.__doc__) if text is None else text)


class NoSuchClassError(Error):
    """A change names a class that isn't made, or a number that is too large."""

    number = 1


class NoSuchImpError(Error):
    """The implementation's number is 0."""

    number = 2


class MethodPresentError(Error):
    """The class has the method itself."""

    number = 4


class NoMethodError(Error):
    """No such method is found."""

    number = 5


class LimitError(Error):
    """As many changes, methods or texts are there as there may be."""

    number = 6


class ChangeMemoryError(Error, MemoryError):
    """There is no memory for the change."""

    number = 7


class DuplicateClassError(Error):
    """The class is made already."""

    number = 8


class ClassInUseError(Error):
    """A class is below it."""

    number = 9


class ClosedError(Error):
    """What is asked isn't open."""

    number = 64


class NoClassError(Error):
    """A question or a find names a class number that isn't below `class_count`."""

    number = 66


class NoSelectorError(Error):
    """A selector's number is 0."""

    number = 67


class NoSenderError(Error):
    """As many senders are open as the runtime has."""

    number = 68


class NoMemoryError(Error, MemoryError):
    """There is no memory."""

    number = 69


class BadConfigError(Error):
    """The runtime was asked to have room for too much."""

    number = 73


class BadChangeError(Error):
    """A change of a list is of no kind, or a change or a lookup of a list has a meta above 1."""

    number = 75


class OutOfRangeError(Error, OverflowError):
    """A number doesn't fit in 32 bits, or a `since` or `before` in 64."""


class WrongThreadError(Error, RuntimeError):
    """The sender is of another thread: open one for each, or let this one adopt it."""


KINDS: Dict[int, Type[Error]] = {
    kind.number: kind for kind in Error.__subclasses__() if kind.number
}


def of(answer: int) -> Error:
    """The error of a number that a call returned."""
    if answer in KINDS:
        return KINDS[answer]()
    error = Error(_TEXTS.get(answer, f"unknown fault {answer}"))
    error.number = answer
    return error


def must(answer: int) -> None:
    if answer:
        raise of(answer)


def must_at(answer: int, place: int) -> None:
    """The same of a list, whose place is told but where it isn't open."""
    if answer:
        error = of(answer)
        error.place = None if isinstance(error, ClosedError) else place
        raise error
