"""Small objects that processes share, and that no dead one holds up: `SharedCounter`, `SharedRegister`, `SharedCounters`,
`SharedQueue`, `SharedStack`, `SharedMap`, `SharedBook`, `SharedMachine`, and `SharedProgram` of your own.

    with SharedQueue("jobs", 100, seats=8, create=True) as jobs:  # once; the name goes with the block
        ...
    jobs = SharedQueue("jobs", 100, seats=8)  # in any other process
    jobs.put(7)

A process may be killed at any instruction: the calls of the others return as before. A thread has a seat from its first call
on, or from `claim`, and gives it back as it ends. A seat whose process died can be claimed anew. `claim` tells how many calls
its owners made, with the words of the last one and of its reply: so no call is made twice, or half. One that hadn't begun is
made by nobody, until who claims the seat makes it.

An object pickles by its name, so `multiprocessing` hands it to a worker, by fork or by spawn. A forked child has its parent's
objects, and claims seats of its own. With no name (`None`) forked children alone can share it. Linux on x86-64 alone.

The code of the objects is proved; this module and `universal_shared.c` are tested. The library `libuniversal_shared.so` is the
one that the variable `UNIVERSAL_SHARED_LIBRARY` names, or else the one in the package.
"""

from __future__ import annotations

import ctypes
import os
import threading
from collections.abc import Sequence
from ctypes import POINTER, byref, c_char_p, c_int64, c_size_t, c_uint32, c_uint64, c_void_p
from enum import IntEnum
from queue import Full
from typing import Any, NamedTuple, TypeVar, cast

from . import Fault, Refused, _number, _tables
from ._calls import BookCalls, Calls, CounterCalls, CountersCalls, MachineCalls, MapCalls, Over, QueueCalls
from ._calls import RegisterCalls, Short, StackCalls
from ._native import load, one_at_a_time
from .program import Program, ProgramCalls

__all__ = ["Full", "Last", "Over", "SharedBook", "SharedCounter", "SharedCounters", "SharedMachine", "SharedMap"]
__all__ += ["SharedProgram", "SharedQueue", "SharedRegister", "SharedStack", "Short", "Was", "unlink"]


class _Kind(ctypes.Structure):
    _fields_ = [
        ("object", c_uint32),
        ("capacity", c_uint32),
        ("states", c_uint32),
        ("invocations", c_uint32),
        ("next", POINTER(c_uint32)),
        ("reply", POINTER(c_uint32)),
        ("code", POINTER(c_uint64)),
        ("count", c_size_t),
        ("start", POINTER(c_uint64)),
        ("words", c_size_t),
        ("invocation", c_uint64),
        ("answer", c_uint64),
    ]


class _Last(ctypes.Structure):
    _fields_ = [
        ("process", c_uint64),
        ("was", c_uint64),
        ("made", c_uint64),
        ("ended", c_uint64),
        ("version", c_uint64),
        ("invocation", c_uint64 * 4),
        ("reply", c_uint64 * 2),
        ("is_next", c_uint64),
        ("next", c_uint64 * 4),
    ]


_U64S = POINTER(c_uint64)
_LIBRARY = load(
    ctypes.PyDLL if one_at_a_time() else ctypes.CDLL,
    "libuniversal_shared",
    "UNIVERSAL_SHARED_LIBRARY",
    {
        "universal_shared_create_named": [c_char_p, POINTER(_Kind), c_uint64, POINTER(c_void_p)],
        "universal_shared_attach_named": [c_char_p, POINTER(_Kind), c_uint64, POINTER(c_void_p)],
        "universal_shared_unlink": [c_char_p],
        "universal_shared_claim": [c_void_p, c_int64, POINTER(c_void_p), POINTER(_Last)],
        "universal_shared_apply": [c_void_p, _U64S, c_size_t, _U64S, c_size_t, _U64S],
        "universal_shared_made": [c_void_p],
        "universal_shared_release": [c_void_p],
        "universal_shared_detach": [c_void_p],
    },
    use_errno=True,
)
_LIBRARY.universal_shared_made.restype = c_uint64
_LIBRARY.universal_shared_release.restype = _LIBRARY.universal_shared_detach.restype = None


def _check(status: int, name: str | None = None) -> None:
    if status == Fault.SYSTEM:
        why = ctypes.get_errno()
        raise OSError(why, os.strerror(why), name)
    if status != 0:
        raise Refused(Fault(status))


class Was(IntEnum):
    """What became of a seat before it was claimed."""

    NEW = 0
    RELEASED = 1
    DIED = 2


class Last(NamedTuple):
    """What who claims a seat is told of the calls that its owners made.

    A call is made when it has taken effect and its reply stands here. A call that its owner died in counts as made where it
    had begun: the claim ends it.
    """

    #: which seat it is, from 0 on
    process: int
    was: Was
    #: how many calls were made
    made: int
    #: whether this claim ended the last of them, whose reply nobody was told; `False` says nothing
    ended: bool
    #: a version that the last call is in; 0 where none was made
    version: int
    #: the words of the last call, and of its reply; none where none was made
    invocation: tuple[int, ...]
    reply: tuple[int, ...]
    #: the words of a call that was asked for and hadn't begun: it has no effect
    next: tuple[int, ...] | None


_generation = 0


def _in_child() -> None:
    """A forked child has no seat of its parent's."""
    global _generation
    _generation += 1


os.register_at_fork(after_in_child=_in_child)


class _Seat:
    """A seat of a thread. It is given back once nothing names it."""

    def __init__(self, at: c_void_p, last: Last, words: int, replies: int) -> None:
        self.at, self.last, self.generation = at, last, _generation
        self.invocation, self.reply, self.version = (c_uint64 * words)(), (c_uint64 * replies)(), c_uint64()

    def __del__(self) -> None:
        _LIBRARY.universal_shared_release(self.at)


class _Mine(threading.local):
    seat: _Seat | None = None


_Self = TypeVar("_Self", bound="_Shared")


class _Shared(Calls):
    """An object that processes share. A thread makes its calls by a seat of its own."""

    _object: int
    _words = 1

    def __init__(
        self,
        name: str | None,
        create: bool,
        seats: int,
        capacity: int = 0,
        tables: list[Any] | None = None,
        program: Program | None = None,
    ) -> None:
        self._at = c_void_p()
        self._mine = _Mine()
        self.name, self.seats, self._created = name, _number(seats, 64), create
        if name is None and not create:
            raise ValueError("an object with no name can't be attached")
        if name is not None and (name == "" or "\0" in name):
            raise ValueError("a name isn't empty, and has no null")
        states, invocations, next, _, reply, _ = tables or (0, 0, None, 0, None, 0)
        kind = _Kind(self._object, _number(capacity, 32), states, invocations, next, reply)
        if program is not None:
            code, start, (kind.invocation, kind.answer) = program.words(), program._start, program._widths
            kind.code, kind.count = (c_uint64 * max(1, len(code)))(*code), len(code) // 5
            kind.start, kind.words = (c_uint64 * max(1, len(start)))(*start), len(start)
        make = _LIBRARY.universal_shared_create_named if create else _LIBRARY.universal_shared_attach_named
        _check(make(None if name is None else os.fsencode(name), byref(kind), self.seats, byref(self._at)), name)

    def __repr__(self) -> str:
        return f"<{type(self).__name__} {self.name!r}{'' if self._at else ', closed'}>"

    def _shape(self) -> tuple[object, ...]:
        """What an object of this class is made of, beside its seats."""
        return ()

    def __reduce__(self) -> tuple[object, ...]:
        if self.name is None:
            raise TypeError("an object with no name can't be pickled: forked children alone can share it")
        return _attached, (type(self), self.name, self.seats, *self._shape())

    def _open_at(self) -> c_void_p:
        if not self._at:
            raise ValueError("the object is closed")
        return self._at

    def claim(self, process: int | None = None) -> Last:
        """Claims the seat of this number for the thread, or any without a living owner: what is told of its calls.

        Raises `Refused`: it has a living owner (`TAKEN`); all have one, or there is none (`NO_SEAT`); memory was refused.
        Raises `ValueError`: the thread has a seat of this object, or the object is closed. Raises `OSError`.
        """
        if self._mine.seat is not None and self._mine.seat.generation == _generation:
            raise ValueError("this thread has a seat")
        return self._claimed(-1 if process is None else _number(process, 63)).last

    def _claimed(self, process: int) -> _Seat:
        seat, last = c_void_p(), _Last()
        self._mine.seat = None
        _check(_LIBRARY.universal_shared_claim(self._open_at(), process, byref(seat), byref(last)), self.name)
        words, replies = (self._words, self._replies) if last.made else (0, 0)
        told = Last(
            last.process,
            Was(last.was),
            last.made,
            last.ended != 0,
            last.version,
            tuple(last.invocation[:words]),
            tuple(last.reply[:replies]),
            tuple(last.next[: self._words]) if last.is_next else None,
        )
        self._mine.seat = _Seat(seat, told, self._words, self._replies)
        return self._mine.seat

    def release(self) -> None:
        """Gives the thread's seat back, if it has one."""
        self._mine.seat = None

    @property
    def made(self) -> int:
        """How many calls the thread's seat has made, by all its owners. 0 where it has none."""
        seat = self._mine.seat
        return 0 if seat is None or seat.generation != _generation else int(_LIBRARY.universal_shared_made(seat.at))

    @property
    def version(self) -> int:
        """A version that the thread's latest call is in: greater than each that its seat had before. 0 where there is none."""
        return 0 if self._mine.seat is None else int(self._mine.seat.version.value)

    def _apply(self, *words: int) -> Sequence[int]:
        self._open_at()
        seat = self._mine.seat or self._claimed(-1)
        status = self._applied(seat, words)
        if status == Fault.WRONG_HANDLE:  # the seat was that of the process that this one was forked from
            seat = self._claimed(-1)
            status = self._applied(seat, words)
        _check(status, self.name)
        return list(seat.reply)

    def _applied(self, seat: _Seat, words: Sequence[int]) -> int:
        seat.invocation[:] = list(words)
        reply, version = seat.reply, byref(seat.version)
        return int(_LIBRARY.universal_shared_apply(seat.at, seat.invocation, len(words), reply, len(reply), version))

    def close(self) -> None:
        """Lets the object go, with this thread's seat. Other threads' seats go with their threads."""
        self._mine.seat = None
        if self._at:
            at, self._at = self._at, c_void_p()
            _LIBRARY.universal_shared_detach(at)

    def unlink(self) -> None:
        """Takes the name away. Who has the object keeps it; its memory goes with the last. Raises `FileNotFoundError`."""
        if self.name is not None:
            unlink(self.name)

    def __enter__(self: _Self) -> _Self:
        return self

    def __exit__(self, *_: object) -> None:
        """Closes the object, and takes the name away where it was made here."""
        self.close()
        if self._created:
            self.unlink()

    def __del__(self) -> None:
        if hasattr(self, "_mine"):
            self.close()


def _attached(kind: type[_Self], name: str, seats: int, *shape: object) -> _Self:
    """What an object is, unpickled."""
    make: Any = kind
    return cast(_Self, make(name, *shape, seats=seats))


def unlink(name: str) -> None:
    """Takes the name of an object away, whatever it is of. Raises `FileNotFoundError`."""
    _check(_LIBRARY.universal_shared_unlink(os.fsencode(name)), name)


class SharedCounter(CounterCalls, _Shared):
    """A counter modulo 2^64, 0 at the start."""

    _object = 1

    def __init__(self, name: str | None, *, seats: int, create: bool = False) -> None:
        """A counter for so many seats, made under this name or attached.

        Raises `OSError`: `FileExistsError` where the name is taken, `FileNotFoundError` where there is none. Raises
        `Refused`: the file is no segment, or is one of another object, count or build of the library; its address is taken
        in this process; `seats` isn't from 1 to 64; a state would have more than 65,536 words; memory was refused.
        """
        super().__init__(name, create, seats)


class SharedRegister(RegisterCalls, _Shared):
    """A register of 64 bits, 0 at the start."""

    _object, _words = 2, 3

    def __init__(self, name: str | None, *, seats: int, create: bool = False) -> None:
        """A register for so many seats. Raises as `SharedCounter`."""
        super().__init__(name, create, seats)


class _Sized(_Shared):
    def __init__(self, name: str | None, capacity: int, *, seats: int, create: bool = False) -> None:
        """An object of this capacity for so many seats. Raises as `SharedCounter`."""
        super().__init__(name, create, seats, capacity)
        self.capacity = self._width = capacity

    def _shape(self) -> tuple[object, ...]:
        return (self.capacity,)


class SharedCounters(CountersCalls, _Sized):
    """An array of `capacity` counters modulo 2^64, each 0 at the start."""

    _object, _words = 3, 2


class SharedQueue(QueueCalls, _Sized):
    """A queue of at most `capacity` numbers from 1 to 2^64 - 1."""

    _object = 4


class SharedStack(StackCalls, _Sized):
    """A stack of at most `capacity` numbers from 1 to 2^64 - 1."""

    _object = 5


class SharedMap(MapCalls, _Sized):
    """A map from words to words, of at most `capacity` keys."""

    _object, _words = 6, 3


class SharedBook(BookCalls, _Shared):
    """A book of sixteen accounts, each with a balance up to 999,999,999,999 that is 0 at the start."""

    _object, _words = 7, 4

    def __init__(self, name: str | None, *, seats: int, create: bool = False) -> None:
        """A book for so many seats. Raises as `SharedCounter`."""
        super().__init__(name, create, seats)


class SharedMachine(MachineCalls, _Shared):
    """A machine by its tables, with a row for each state and an entry for each invocation; 0 is the start."""

    _object = 8

    def __init__(
        self,
        name: str | None,
        next: Sequence[Sequence[int]],
        reply: Sequence[Sequence[int]],
        *,
        seats: int,
        create: bool = False,
    ) -> None:
        """The machine for so many seats. Raises as `SharedCounter`, and `Refused`: the tables aren't those of a machine."""
        self._tables = [[list(row) for row in table] for table in (next, reply)]
        super().__init__(name, create, seats, 0, _tables(next, reply))

    def _shape(self) -> tuple[object, ...]:
        return tuple(self._tables)


class SharedProgram(ProgramCalls, _Shared):
    """An object by a program, whose invocation has at most 4 words, and its reply at most 2."""

    _object = 9

    def __init__(self, name: str | None, program: Program, *, seats: int, create: bool = False) -> None:
        """The object for so many seats. Raises as `SharedCounter`, and `Refused`: something of the program is wrong."""
        self._program = program
        self._words, self._replies = program._widths
        super().__init__(name, create, seats, program=program)

    def _shape(self) -> tuple[object, ...]:
        return (self._program,)
