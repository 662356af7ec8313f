"""Message dispatch as Objective-C's runtime does it, with machine-checked proofs: classes,
methods, lookups, and changes while others look up.

    import yeldrost

    with yeldrost.Runtime() as runtime:
        runtime.make_root_class(SHAPE)
        runtime.add(yeldrost.instances_of(SHAPE), SIDES, 1)
        with runtime.sender() as sender:                            # one for each thread
            sender.find(yeldrost.instances_of(SHAPE), SIDES)        # 1; None is forwarding

Numbers of classes (from 0), selectors and implementations (from 1) are yours; an implementation's
is mostly a place in a list of functions.
"""
from __future__ import annotations

import contextlib
import ctypes
import enum
import operator
import threading
import weakref
from typing import (
    Any,
    Callable,
    Dict,
    Iterable,
    Iterator,
    List,
    NamedTuple,
    Optional,
    Sequence,
    Tuple,
    Union,
)

from . import _errors, _header, _library
from ._errors import (
    Error,
    NoSuchClassError,
    NoSuchImpError,
    MethodPresentError,
    NoMethodError,
    LimitError,
    ChangeMemoryError,
    DuplicateClassError,
    ClassInUseError,
    ClosedError,
    NoClassError,
    NoSelectorError,
    NoSenderError,
    NoMemoryError,
    BadConfigError,
    BadChangeError,
    OutOfRangeError,
    WrongThreadError,
)

__all__ = [
    "Runtime",
    "Sender",
    "Texts",
    "ClassRef",
    "Change",
    "MISSED",
    "Missed",
    "EncodedType",
    "EncodedMember",
    "first_type",
    "next_member",
    "instances_of",
    "class_itself",
    "Error",
    "NoSuchClassError",
    "NoSuchImpError",
    "MethodPresentError",
    "NoMethodError",
    "LimitError",
    "ChangeMemoryError",
    "DuplicateClassError",
    "ClassInUseError",
    "ClosedError",
    "NoClassError",
    "NoSelectorError",
    "NoSenderError",
    "NoMemoryError",
    "BadConfigError",
    "BadChangeError",
    "OutOfRangeError",
    "WrongThreadError",
]
_major, _minor = divmod(_header.VERSION // 1_000, 1_000)
__version__ = f"{_major}.{_minor}.{_header.VERSION % 1_000}"
_NONE, _MISSED, _NO_ROOM = (_header.FAULTS[name][0] for name in ("None_", "Missed", "NoRoom"))
_MOST, _MOST_COUNT = 2**32 - 1, 2**64 - 1


class Missed(enum.Enum):
    """The type of `MISSED`: nothing is noted or cached, so ask `Sender.find`."""

    MISSED = "missed"


MISSED = Missed.MISSED


def _checked(*numbers: int, most: int = _MOST) -> None:
    """ctypes would cut them off."""
    for it in numbers:
        if not (type(it) is int and 0 <= it <= most) and not 0 <= operator.index(it) <= most:
            raise OutOfRangeError(f"not a number of {most.bit_length()} bits: {it}")


class ClassRef(NamedTuple):
    """A class, as its instances find methods; or its metaclass, as the class itself finds them."""

    number: int
    meta: bool = False


# A class reference, or a pair that is as good.
Class = Union[ClassRef, Tuple[int, bool]]


def _ref(of: Class) -> Tuple[int, bool]:
    """The two numbers of a class reference."""
    try:
        number, _ = of
    except (TypeError, ValueError):
        raise TypeError(f"wants a ClassRef, or a pair (number, meta), not {of!r}") from None
    if type(number) is not int or not 0 <= number <= _MOST:
        _checked(number)
    return of


def instances_of(number: int) -> ClassRef:
    """The class, as its instances find methods."""
    return ClassRef(number, False)


def class_itself(number: int) -> ClassRef:
    """The metaclass, as the class itself finds methods."""
    return ClassRef(number, True)


class Change(NamedTuple):
    """One entry in a list for `Runtime.change_all`. `Change.add` and those that follow make one
    that does what the runtime's method of its name does. `kind` is the header's number: 1 adds, 2
    replaces, 3 sets an implementation, 4 exchanges, 5 makes a class, 6 a root class, 7 removes, 8
    disposes of a class, 9 covers."""

    kind: int
    number: int
    meta: int = 0
    selector: int = 0
    imp: int = 0
    other: int = 0
    other_meta: int = 0
    other_selector: int = 0

    @classmethod
    def add(cls, to: Class, selector: int, imp: int) -> Change:
        """As `Runtime.add`."""
        return cls(_header.KINDS["ADDS"], *_ref(to), selector, imp)

    @classmethod
    def replace(cls, of: Class, selector: int, imp: int) -> Change:
        """As `Runtime.replace`."""
        return cls(_header.KINDS["REPLACES"], *_ref(of), selector, imp)

    @classmethod
    def set_imp(cls, of: Class, selector: int, imp: int) -> Change:
        """As `Runtime.set_imp`."""
        return cls(_header.KINDS["SETS_IMP"], *_ref(of), selector, imp)

    @classmethod
    def exchange(cls, of: Class, selector: int, other: Class, other_selector: int) -> Change:
        """As `Runtime.exchange`."""
        return cls(_header.KINDS["EXCHANGES"], *_ref(of), selector, 0, *_ref(other), other_selector)

    @classmethod
    def make_class(cls, number: int, superclass: int) -> Change:
        """As `Runtime.make_class`."""
        return cls(_header.KINDS["MAKES_CLASS"], number, other=superclass)

    @classmethod
    def make_root_class(cls, number: int) -> Change:
        """As `Runtime.make_root_class`."""
        return cls(_header.KINDS["MAKES_ROOT_CLASS"], number)

    @classmethod
    def remove(cls, of: Class, selector: int) -> Change:
        """As `Runtime.remove`."""
        return cls(_header.KINDS["REMOVES"], *_ref(of), selector)

    @classmethod
    def dispose_class(cls, number: int) -> Change:
        """As `Runtime.dispose_class`."""
        return cls(_header.KINDS["DISPOSES_CLASS"], number)

    @classmethod
    def cover(cls, of: Class, selector: int, imp: int) -> Change:
        """As `Runtime.attach` of one method: it stands before the one that is there."""
        return cls(_header.KINDS["COVERS"], *_ref(of), selector, imp)


def _at_collection(of: object, call: Callable[..., Any], *words: Any) -> weakref.finalize:
    """Not when the interpreter ends: daemon threads may be in a call then."""
    it = weakref.finalize(of, call, *words)
    it.atexit = False
    return it


class _Shared:
    """What a runtime and its senders share. It is freed with the last of them."""

    def __init__(self, holds_gil: bool, config: _header.msg_config) -> None:
        self.library = _library.load(holds_gil)
        self.handle = _header.msg_runtime()
        self.lock = threading.RLock()
        words = ctypes.cast(ctypes.byref(config), ctypes.POINTER(ctypes.c_uint32))
        # Before the open: a signal handler may raise right after it. Closing twice is harmless.
        _at_collection(self, self.library.msg_close, self.handle)
        _errors.must(self.library.msg_open_words(self.handle, words, ctypes.sizeof(config) // 4))


class Runtime:
    """A runtime without classes, which any thread may use. `with` closes it at its end. 0 is the
    default of `classes` and `senders`. `arrays`: nine numbers, how many arrays of 4, 8, .., 1,024
    entries the shared caches have, at most 65,535 of each. If all are 0 they are 4,096 2,048 512
    256 128 64 32 16 8; otherwise 0 is none. Calls hold the GIL. With `holds_gil=False` each gives
    it back and takes it again, so that other threads run meanwhile: for long lists of changes."""

    def __init__(
        self,
        classes: int = 0,
        senders: int = 0,
        arrays: Sequence[int] = (0,) * 9,
        holds_gil: bool = True,
    ) -> None:
        if len(arrays) != 9:
            raise TypeError(f"wants nine numbers of arrays, not {len(arrays)}")
        _checked(classes, senders, *arrays)
        self._shared = _Shared(
            holds_gil, _header.msg_config(classes, senders, (ctypes.c_uint32 * 9)(*arrays))
        )

    def __repr__(self) -> str:
        if not self._shared.handle.open:
            return "<yeldrost.Runtime, closed>"
        count = len(self.classes())
        return f"<yeldrost.Runtime of {count} classes, after {self.change_count} changes>"

    def __enter__(self) -> Runtime:
        return self

    def __exit__(self, *_: object) -> None:
        with contextlib.suppress(ClosedError):
            self.close()

    def close(self) -> None:
        """Closes it. Its senders find what they have noted or cached, and else raise
        ClosedError."""
        self._call("msg_close")

    @contextlib.contextmanager
    def held(self) -> Iterator[Runtime]:
        """Holds the runtime's lock. No other thread can make a change inside the block. Other
        threads find what is noted or cached, and so can see some of your changes before the rest. A
        find of theirs that misses waits until the block ends. The lock is re-entrant: inside the
        block you may call anything, `Sender.find` too."""
        with self._shared.lock:
            yield self

    def sender(self) -> Sender:
        """A sender of the calling thread, which has seen all changes."""
        return Sender(self._shared)

    def _call(self, name: str, *words: Any) -> None:
        shared = self._shared
        with shared.lock:
            _errors.must(getattr(shared.library, name)(shared.handle, *words))

    def _told(self, kind: Any, name: str, *words: Any) -> Any:
        """What the call writes, or None if it finds nothing."""
        shared, told = self._shared, kind()
        with shared.lock:
            answer = getattr(shared.library, name)(shared.handle, *words, ctypes.byref(told))
        if answer == _NONE:
            return None
        _errors.must(answer)
        return told

    def _shown(self, kind: Any, name: str, *words: Any) -> Any:
        """All that the call writes, in an array as long as it asks for."""
        shared, count, answer = self._shared, ctypes.c_size_t(), _NO_ROOM
        with shared.lock:
            while answer == _NO_ROOM:  # nothing was written: `count` places are wanted
                room = (kind * max(count.value, 1))()
                answer = getattr(shared.library, name)(
                    shared.handle, *words, room, count.value, ctypes.byref(count)
                )
        _errors.must(answer)
        return room[: count.value]

    def _answer(self, name: str, *words: Any) -> int:
        shared = self._shared
        with shared.lock:
            return getattr(shared.library, name)(shared.handle, *words)

    @property
    def class_count(self) -> int:
        """How many class numbers are reserved."""
        return self._told(ctypes.c_uint32, "msg_class_count").value

    @property
    def change_count(self) -> int:
        """How many changes were made. A list counts as one, and an empty one not at all."""
        return self._told(ctypes.c_uint64, "msg_change_count").value

    def seen_by_all(self) -> int:
        """Returns a count of changes: as many as every open sender had seen when it rested last, or
        was opened; all if none is open. Code that the first so many changes took out can be freed.
        You see to four things. A thread that rests keeps nothing that it found. No later change
        puts the code back. No thread calls what `lookup` or `methods` returned before: that isn't
        counted. And none calls what `recall` returned with a `since` below this count."""
        return self._told(ctypes.c_uint64, "msg_seen_by_all").value

    def report(self) -> Dict[str, Union[int, List[int]]]:
        """What was done to caches since it was opened, by name."""
        row = _header.msg_report_row()
        words = ctypes.cast(ctypes.byref(row), ctypes.POINTER(ctypes.c_uint64))
        self._call("msg_report_words", words, ctypes.sizeof(row) // 8)
        values = ((name, getattr(row, name)) for name, _ in row._fields_)
        return {name: value if isinstance(value, int) else list(value) for name, value in values}

    def lookup(self, of: Class, selector: int) -> Optional[int]:
        """What is found after all changes, or None. It notes nothing."""
        _checked(selector)
        return self._told(ctypes.c_uint32, "msg_lookup", *_ref(of), selector).value or None

    def superclass(self, of: Class) -> Optional[ClassRef]:
        """What stands above: of a metaclass the superclass's metaclass, and of a root's metaclass
        the root itself. None above a root class, and of a class that isn't made."""
        above = self._told(_header.msg_class, "msg_superclass", *_ref(of))
        return above and ClassRef(above.number, above.meta)

    def holder(self, of: Class, selector: int) -> Optional[ClassRef]:
        """Where the method stands that a lookup finds."""
        _checked(selector)
        at = self._told(_header.msg_class, "msg_holder", *_ref(of), selector)
        return at and ClassRef(at.number, at.meta)

    def methods(self, of: Class) -> List[Tuple[int, int]]:
        """The methods that the class or metaclass has itself, the newest first: pairs of a selector
        and an implementation. Of those of one selector a lookup finds the first."""
        return [
            (it.sel, it.imp) for it in self._shown(_header.msg_method, "msg_methods", *_ref(of))
        ]

    def classes(self) -> List[int]:
        """The classes that are made, each after its superclass."""
        return list(self._shown(ctypes.c_uint32, "msg_classes"))

    def classes_below(self, number: int) -> List[int]:
        """The subclasses, theirs, and so on."""
        _checked(number)
        return list(self._shown(ctypes.c_uint32, "msg_classes_below", number))

    def make_root_class(self, number: int) -> None:
        """Makes a root class and its metaclass, without methods."""
        _checked(number)
        self._call("msg_make_root_class", number)

    def make_class(self, number: int, superclass: int) -> None:
        """Makes a class and its metaclass, without methods, below a superclass that is made."""
        _checked(number, superclass)
        self._call("msg_make_class", number, superclass)

    def add(self, to: Class, selector: int, imp: int) -> None:
        """Adds a method that the class doesn't have of its own."""
        _checked(selector, imp)
        self._call("msg_add", *_ref(to), selector, imp)

    def replace(self, of: Class, selector: int, imp: int) -> None:
        """Replaces the class's own method, or adds it."""
        _checked(selector, imp)
        self._call("msg_replace", *_ref(of), selector, imp)

    def set_imp(self, of: Class, selector: int, imp: int) -> None:
        """Sets the implementation of the method that a lookup finds, wherever it stands."""
        _checked(selector, imp)
        self._call("msg_set_imp", *_ref(of), selector, imp)

    def exchange(self, of: Class, selector: int, other: Class, other_selector: int) -> None:
        """Exchanges the implementations of the methods that two lookups find, in one step."""
        _checked(selector, other_selector)
        self._call("msg_exchange", *_ref(of), selector, *_ref(other), other_selector)

    def attach(
        self,
        number: int,
        methods: Iterable[Tuple[int, int]] = (),
        class_methods: Iterable[Tuple[int, int]] = (),
    ) -> None:
        """Attaches pairs of a selector and an implementation, as a category does: before those that
        are there."""
        _checked(number)
        self._call("msg_attach", number, *_methods(methods), *_methods(class_methods))

    def remove(self, of: Class, selector: int) -> None:
        """Takes away the method that the class has of its own. One that it hid counts again."""
        _checked(selector)
        self._call("msg_remove", *_ref(of), selector)

    def dispose_class(self, number: int) -> None:
        """Takes a class away that no class is below, with its metaclass and the methods of both."""
        _checked(number)
        self._call("msg_dispose_class", number)

    def change_all(self, changes: Iterable[Change]) -> None:
        """Makes several changes as one: each lookup finds what was before all of them or what is
        after all. The list is refused for the first that would be refused after those before it.
        Then nothing has changed. The error has its `place`: None if a number doesn't fit in 32
        bits, or if the runtime isn't open."""
        rows, count = _changes(changes)
        place = ctypes.c_size_t()
        answer = self._answer("msg_change_all", rows, count, ctypes.byref(place))
        _errors.must_at(answer, place.value)

    def change_all_with_undo(self, changes: Iterable[Change]) -> List[Change]:
        """The same, and returns the list that undoes these changes. Make it before any other change
        to the same methods or classes. Later it may be refused: a class can't be taken away while a
        class is below it. Or it is accepted, and overwrites or removes what others put there.
        Nothing warns you. If several tools swap one method, take the swaps back in reverse
        order."""
        rows, count = _changes(changes)
        undone, place = ctypes.c_size_t(2 * count + 1), ctypes.c_size_t()
        answer = _NO_ROOM
        with self._shared.lock:
            while answer == _NO_ROOM:  # nothing was made: `undone` places are wanted
                undo = (_header.msg_change * undone.value)()
                answer = self._answer(
                    "msg_change_all_with_undo",
                    rows,
                    count,
                    undo,
                    len(undo),
                    ctypes.byref(undone),
                    ctypes.byref(place),
                )
        _errors.must_at(answer, place.value)
        return [
            Change(*(getattr(it, name) for name, _ in it._fields_)) for it in undo[: undone.value]
        ]

    def reach(self, changes: Iterable[Change]) -> List[ClassRef]:
        """Which lookups `change_all` may alter, without making the changes: those of the class
        references that it returns. All others stay as they are. It takes memory for all class
        numbers."""
        rows, count = _changes(changes)
        reached, place = (ctypes.c_bool * (2 * self.class_count))(), ctypes.c_size_t()
        with self._shared.lock:
            answer = self._shared.library.msg_reach(
                self._shared.handle, rows, count, reached, len(reached), ctypes.byref(place)
            )
        _errors.must_at(answer, place.value)
        return [ClassRef(slot // 2, slot % 2 == 1) for slot, it in enumerate(reached) if it]


def _changes(changes: Iterable[Change]) -> Tuple[Any, int]:
    """A list of the header's changes, never without a place, and how many there are."""
    changes = list(changes)
    for it in changes:
        _checked(*it)
    array: Any = _header.msg_change * max(1, len(changes))
    return array(*changes), len(changes)


def _lookups(pairs: Iterable[Tuple[Class, int]]) -> Tuple[Any, int]:
    """A list of the header's lookups, never without a place, and how many there are."""
    rows = [(*_ref(of), selector) for of, selector in pairs]
    for it in rows:
        _checked(*it)
    array: Any = _header.msg_lookup_row * max(1, len(rows))
    return array(*rows), len(rows)


def _methods(pairs: Iterable[Tuple[int, int]]) -> Tuple[Any, int]:
    """A list of the header's methods, never without a place, and how many there are."""
    pairs = list(pairs)
    for it in pairs:
        _checked(*it)
    array: Any = _header.msg_method * max(1, len(pairs))
    return array(*pairs), len(pairs)


def _close_sender(shared: _Shared, raw: _header.msg_sender) -> None:
    with shared.lock:
        return shared.library.msg_sender_close(shared.handle, raw)


class Sender:
    """What one thread looks methods up by: that which opened it, or that which `adopt`s it. Leave
    its `with`, or call `close`. Else it is closed when Python collects it. Until then it counts
    among `senders`, and holds `seen_by_all` back, even after its thread has ended. It may be closed
    inside `held()`. It may outlive its runtime. It *notes* what it finds in a cache of its own.
    What is *cached* lies in the cache that all senders share. A class's *stamp* is a count of
    changes: no change after so many has affected the class. From a change of the class until its
    next fill it is 2**64 - 1: then nothing noted counts."""

    def __init__(self, shared: _Shared) -> None:
        try:
            self._shared, self._raw = shared, _header.msg_sender()
        except MemoryError:
            raise NoMemoryError() from None
        self._thread = threading.current_thread()
        self._at = ctypes.pointer(self._raw)
        self._finalizer = _at_collection(self, _close_sender, shared, self._raw)
        with shared.lock:
            _errors.must(shared.library.msg_sender_open(shared.handle, self._at))

    def __repr__(self) -> str:
        closed = "" if self._finalizer.alive else ", closed"
        return f"<yeldrost.Sender of thread {self._thread.ident}{closed}>"

    def __enter__(self) -> Sender:
        return self

    def __exit__(self, *_: object) -> None:
        if self._finalizer.alive:
            self.close()

    def close(self) -> None:
        """Closes it. It may be closed after its runtime."""
        self._own()
        if not self._finalizer.alive:
            raise ClosedError()
        _close_sender(self._shared, self._raw)  # again where a signal's handler raised in it
        self._finalizer.detach()

    def adopt(self) -> None:
        """The calling thread is the sender's from now on. The one that had it uses it no more."""
        self._thread = threading.current_thread()

    def _own(self) -> None:
        """Asks for the thread's object, since a later thread may have the ident of one that ended.
        A thread that is ending, or that `threading` didn't start, may get another object later."""
        it = self._thread
        if it is threading.current_thread():
            return
        if it.ident != threading.get_ident() or not it.is_alive():
            raise WrongThreadError()

    def find(self, of: Class, selector: int) -> Optional[int]:
        """Returns the implementation of a method, or None if there is none. It sees every change
        that had returned when the call began. A probe, and after a miss a fill under the lock."""
        found = self.probe(of, selector)
        return self.fill(of, selector) if isinstance(found, Missed) else found

    def find_all(self, lookups: Iterable[Tuple[Class, int]]) -> List[Optional[int]]:
        """Several as one, each a pair of a class reference and a selector: all at one version,
        which the sender has then seen. The fault of one that isn't asked has its `place`."""
        self._own()
        rows, count = _lookups(lookups)
        shared, imps, place = self._shared, (ctypes.c_uint32 * max(1, count))(), ctypes.c_size_t()
        words = (self._at, rows, count, imps, count, ctypes.byref(place))
        answer = shared.library.msg_probe_all(*words)
        if answer == _MISSED:
            with shared.lock:
                answer = shared.library.msg_fill_all(shared.handle, *words)
        _errors.must_at(answer, place.value)
        return [imp or None for imp in imps[:count]]

    def probe(self, of: Class, selector: int) -> Union[int, None, Missed]:
        """What is noted or cached, at what the sender has then seen: an implementation, or None for
        forwarding. `MISSED` if it is neither; then `fill`."""
        self._own()
        _checked(selector)
        imp = ctypes.c_uint32()  # its own: a signal's handler may find by this sender, too
        answer = self._shared.library.msg_probe(self._at, *_ref(of), selector, ctypes.byref(imp))
        if answer == _MISSED:
            return MISSED
        _errors.must(answer)
        return imp.value or None

    def fill(self, of: Class, selector: int) -> Optional[int]:
        """The lookup after all changes, which the sender has then seen, and notes."""
        self._own()
        _checked(selector)
        shared, imp = self._shared, ctypes.c_uint32()
        words = (shared.handle, self._at, *_ref(of), selector, ctypes.byref(imp))
        with shared.lock:
            _errors.must(shared.library.msg_fill(*words))
        return imp.value or None

    def meet(self) -> None:
        """The sender has then seen all changes."""
        self._own()
        shared = self._shared
        with shared.lock:
            _errors.must(shared.library.msg_meet(shared.handle, self._at))

    def rest(self) -> None:
        """As `meet`. By calling it you promise that this thread runs, and keeps, nothing it found
        before."""
        self._own()
        shared = self._shared
        with shared.lock:
            _errors.must(shared.library.msg_rest(shared.handle, self._at))

    def refresh(self) -> int:
        """How many changes there are, which the sender has then seen."""
        self._own()
        count = ctypes.c_uint64()
        _errors.must(self._shared.library.msg_refresh(self._at, ctypes.byref(count)))
        return count.value

    def stamp(self, of: Class) -> int:
        """No change after so many has affected the class. From a change of the class until its next
        fill (a find that misses makes one) it is 2**64 - 1: then nothing noted counts. The sender
        has then seen all changes."""
        self._own()
        count = ctypes.c_uint64()
        _errors.must(self._shared.library.msg_stamp(self._at, *_ref(of), ctypes.byref(count)))
        return count.value

    def recall(self, of: Class, selector: int, since: int) -> Union[int, None, Missed]:
        """What is noted after `since` changes or more: an implementation, or None for forwarding.
        `MISSED` if nothing is. Since the class's `stamp` it is what `find` returns."""
        self._own()
        _checked(selector)
        _checked(since, most=_MOST_COUNT)
        number, meta = _ref(of)
        slot = 2 * number + bool(meta)
        found: int = self._shared.library.msg_recall(self._at, slot, selector, since)
        return MISSED if not found else found % _header.NOTED_NONE or None


class Texts:
    """Texts of any bytes with numbers, from 1 in the order in which they first came: names of
    selectors, or of classes. Any thread may use them."""

    def __init__(self, holds_gil: bool = True) -> None:
        self._library, self._handle, self._lock = (
            _library.load(holds_gil),
            _header.msg_texts(),
            threading.RLock(),
        )
        _at_collection(self, self._library.msg_texts_close, self._handle)
        _errors.must(self._library.msg_texts_open(self._handle))

    def __enter__(self) -> Texts:
        return self

    def __exit__(self, *_: object) -> None:
        with contextlib.suppress(ClosedError):
            self.close()

    def close(self) -> None:
        """Closes them, and gives their memory back."""
        with self._lock:
            _errors.must(self._library.msg_texts_close(self._handle))

    def _told(self, kind: Any, name: str, *words: Any) -> Any:
        """What the call writes last, or None if it finds nothing."""
        told = kind()
        with self._lock:
            answer = getattr(self._library, name)(self._handle, *words, ctypes.byref(told))
        if answer == _NONE:
            return None
        _errors.must(answer)
        return told.value

    def intern(self, text: bytes) -> int:
        """The number of a text: of one that is new the next."""
        return self._told(ctypes.c_uint32, "msg_texts_intern", *_bytes(text))

    def find(self, text: bytes) -> Optional[int]:
        """The number of a text, or None. It makes none."""
        return self._told(ctypes.c_uint32, "msg_texts_find", *_bytes(text))

    def text(self, number: int) -> Optional[bytes]:
        """The text of a number, or None."""
        _checked(number)
        length = self._told(ctypes.c_size_t, "msg_texts_text", number, *_bytes(b""))
        if length is None:
            return None
        into, _ = _bytes(bytes(length))
        self._told(ctypes.c_size_t, "msg_texts_text", number, into, length)
        return bytes(into[:length])

    def colons(self, number: int) -> Optional[int]:
        """Counts its colons, which are the arguments that a selector of this name takes. None if
        nobody has the number."""
        _checked(number)
        return self._told(ctypes.c_size_t, "msg_texts_colons", number)


def _bytes(text: bytes) -> Tuple[Any, int]:
    """An array of the text's bytes, never without a place, and how many they are."""
    return (ctypes.c_uint8 * max(1, len(text)))(*text), len(text)


class EncodedType(NamedTuple):
    """The first type of a text, as GCC's @encode spells types: its size and alignment in bytes, and
    the place behind it."""

    size: int
    align: int
    end: int


class EncodedMember(NamedTuple):
    """A member of a structure: where its type is in the text, the bits that it takes from the first
    to before the last, and its alignment in bytes."""

    begin: int
    end: int
    first: int
    last: int
    align: int


def first_type(text: bytes) -> EncodedType:
    """The `EncodedType` in front of a text."""
    size, align = ctypes.c_uint64(), ctypes.c_uint64()
    end = _library.load(True).msg_type_first(*_bytes(text), size, align)
    return EncodedType(size.value, align.value, end)


def next_member(text: bytes, before: int) -> Optional[EncodedMember]:
    """Returns the first `EncodedMember` of a text. `before` is the bit at which the members before
    it end, and 0 for a union. None if the structure or the text ends there."""
    _checked(before, most=_MOST_COUNT)
    places, bits = (ctypes.c_size_t * 2)(), (ctypes.c_uint64 * 3)()
    size, bit = ctypes.sizeof(ctypes.c_size_t), ctypes.sizeof(ctypes.c_uint64)
    told: List[Any] = [ctypes.c_size_t.from_buffer(places, size * at) for at in range(2)]
    told += [ctypes.c_uint64.from_buffer(bits, bit * at) for at in range(3)]
    answer = _library.load(True).msg_type_member(*_bytes(text), before, *map(ctypes.byref, told))
    return None if answer else EncodedMember(*places, *bits)
