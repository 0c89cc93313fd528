"""Shared objects that no thread can hold up.

`universal.small` has a counter, a register, a queue, a stack, a map and more on words of 64 bits, whose seats make up
to 2^50 calls; `universal.program` has objects of your own. A `Log` is a tally, a sticky register, a register or a
machine of two tables on words of 31 bits, and tells all its calls in the end.

A `Log` is an object that n processes share. It gives out a `Seat` for each, and a seat makes up to k calls. A call
takes no lock of its own and no memory, and ends within 12n + 15 steps on shared words, whatever the other threads do.
The last seat closes the log and gets all calls in their one order.

    with Log.tally(4, 1000) as log:
        seats = log.seats()
    in_threads(seats, lambda seat: seat.apply(5))   # [Entry(seq=2, process=.., nth=0, inv=5, reply=0), ..]

What is proved of the functions behind this module is in docs/bindings.md; this module is tested. A call keeps the interpreter's lock, so a seat is in one
call at a time, and no exception of a signal handler comes between its parts. Where an interpreter has no such lock, a
seat that a second thread uses meanwhile is refused as `BUSY`. The library `libuniversal.so` is the one that the
variable `UNIVERSAL_LIBRARY` names, or else the one in the package, where `pip install bindings/python` puts it.
"""

from __future__ import annotations

import ctypes
import operator
import threading
from collections.abc import Callable, Mapping, Sequence
from ctypes import POINTER, byref, c_size_t, c_uint32, c_uint64, c_void_p
from enum import IntEnum
from typing import Any, Generic, NamedTuple, NoReturn, Protocol, TypeVar

from ._native import load, one_at_a_time

__all__ = ["Differs", "Entry", "Fault", "Log", "Refused", "Reply", "Seat", "in_threads"]


class Fault(IntEnum):
    """Why a call was refused, as `universal.h` numbers it, and from 20 on `universal_shared.h`."""

    BAD_COUNT = 1
    BAD_ROW = 2
    MEMORY = 3
    SPENT = 4
    FULL = 4  # the same, by the name that it had until 0.3.0
    NO_SEAT = 5
    BUSY = 6
    WRONG_HANDLE = 7
    BAD_TABLE = 8
    DIFFERS = 9
    BAD_CAPACITY = 10
    BAD_WIDTH = 11
    NO_OPERATION = 12
    NO_REGISTER = 13
    NO_PLACE = 14
    JUMPS_BACK = 15
    NO_TARGET = 16
    GOES_FORWARD = 17
    NO_LOOP = 18
    TOO_LONG = 19
    NOT_A_SEGMENT = 20
    OTHER_LIBRARY = 21
    OTHER_OBJECT = 22
    ADDRESS = 23
    SYSTEM = 24
    TAKEN = 25
    BAD_KIND = 26
    NOT_EMPTY = 27


class Refused(Exception):
    """A call was refused, and `fault` says why."""

    def __init__(self, fault: Fault) -> None:
        super().__init__(fault.name.lower().replace("_", " "))
        self.fault = fault

    def __reduce__(self) -> tuple[object, ...]:
        return type(self), (self.fault,)


class Differs(Refused):
    """A closed log hasn't what a process was told: `nth` is the number, from 0, of its first call in which they differ."""

    def __init__(self, process: int, nth: int) -> None:
        super().__init__(Fault.DIFFERS)
        self.process, self.nth = process, nth

    def __reduce__(self) -> tuple[object, ...]:
        return type(self), (self.process, self.nth)


class Reply(NamedTuple):
    """What a call was answered, and how many turns of the construction's loop it took."""

    reply: int
    turns: int


class Entry(NamedTuple):
    """A call that took effect: the nth one of its process, from 0. Its reply is `None` only where it never returned."""

    seq: int
    process: int
    nth: int
    inv: int
    reply: int | None


class _Handle(ctypes.Structure):
    _fields_ = [("at", c_void_p)]


class _Reply(ctypes.Structure):
    _fields_ = [("reply", c_uint32), ("turns", c_uint32)]


class _Call(ctypes.Structure):
    _fields_ = [("inv", c_uint64), ("answer", _Reply)]


class _Entry(ctypes.Structure):
    _fields_ = [
        ("seq", c_uint64),
        ("process", c_uint64),
        ("nth", c_uint64),
        ("inv", c_uint64),
        ("reply", c_uint32),
        ("is_replied", c_uint32),
    ]


_TABLES: list[Any] = [c_uint32, c_uint32, POINTER(c_uint32), c_size_t, POINTER(c_uint32), c_size_t]

# Of the functions that answer an invocation of a small object.
_ASKED: list[Any] = [POINTER(_Handle), POINTER(c_uint64), c_size_t, POINTER(c_uint64), c_size_t, POINTER(c_uint64)]

_SIGNATURES: Mapping[str, list[Any]] = {
    "universal_open_tally": [c_uint64, c_uint64, POINTER(_Handle)],
    "universal_open_sticky": [c_uint64, c_uint64, POINTER(_Handle)],
    "universal_open_register": [c_uint64, c_uint64, POINTER(_Handle)],
    "universal_open_machine": [c_uint64, c_uint64, *_TABLES, POINTER(_Handle)],
    "universal_open_counter": [c_uint64, POINTER(_Handle)],
    "universal_open_register64": [c_uint64, POINTER(_Handle)],
    "universal_open_book": [c_uint64, POINTER(_Handle)],
    "universal_open_counters": [c_uint64, c_uint32, POINTER(_Handle)],
    "universal_open_queue": [c_uint64, c_uint32, POINTER(_Handle)],
    "universal_open_stack": [c_uint64, c_uint32, POINTER(_Handle)],
    "universal_open_map": [c_uint64, c_uint32, POINTER(_Handle)],
    "universal_open_small_machine": [c_uint64, *_TABLES, POINTER(_Handle)],
    "universal_open_program": [
        c_uint64,
        POINTER(c_uint64),
        c_size_t,
        POINTER(c_uint64),
        c_size_t,
        c_uint64,
        c_uint64,
        POINTER(c_uint64),
        POINTER(_Handle),
    ],
    "universal_small_seat": [POINTER(_Handle), POINTER(_Handle), POINTER(c_uint64)],
    "universal_small_apply": _ASKED,
    "universal_small_read": _ASKED,
    "universal_small_follows": [POINTER(_Handle), c_uint64, POINTER(c_uint32)],
    "universal_small_close": [POINTER(_Handle), POINTER(c_uint64), c_size_t],
    "universal_seat": [POINTER(_Handle), POINTER(_Handle), POINTER(c_uint64)],
    "universal_apply": [POINTER(_Handle), c_uint64, POINTER(_Reply)],
    "universal_follows": [POINTER(_Handle), c_uint64, c_uint64, POINTER(c_uint32)],
    "universal_close": [POINTER(_Handle)],
    "universal_read": [POINTER(_Handle), POINTER(_Entry), c_size_t, POINTER(c_size_t)],
    "universal_compare": [POINTER(_Handle), c_uint64, POINTER(_Call), c_size_t, POINTER(c_uint64)],
    "universal_drop": [POINTER(_Handle)],
}


_ONE_AT_A_TIME = one_at_a_time()
_LIBRARY = load(ctypes.PyDLL if _ONE_AT_A_TIME else ctypes.CDLL, "libuniversal", "UNIVERSAL_LIBRARY", _SIGNATURES)
_LIBRARY.universal_drop.restype = None


_Self = TypeVar("_Self", bound="_Held")
_Given = TypeVar("_Given")
_State = TypeVar("_State", covariant=True)


def _number(value: int, bits: int) -> int:
    value = operator.index(value)
    if not 0 <= value < 1 << bits:
        raise ValueError(f"{value} isn't from 0 to 2^{bits} - 1")
    return value


def _tables(next: Sequence[Sequence[int]], reply: Sequence[Sequence[int]]) -> list[object]:
    states, invocations = len(next), len(next[0]) if next else 0
    if any(len(row) != invocations for row in [*next, *reply]) or len(reply) != states:
        raise Refused(Fault.BAD_TABLE)
    tables: list[object] = [states, invocations]
    for table in (next, reply):
        entries = [operator.index(entry) for row in table for entry in row]
        if any(not 0 <= entry < 1 << 32 for entry in entries):
            raise Refused(Fault.BAD_TABLE)
        tables += [(c_uint32 * max(1, len(entries)))(*entries), len(entries)]
    return tables


class _Held:
    """A handle of the library, and, where the interpreter has no lock of its own, one that keeps it in one call at a time."""

    def __init__(self) -> None:
        self._handle = _Handle()
        self._at = byref(self._handle)
        self._lock = None if _ONE_AT_A_TIME else threading.Lock()

    def _alone(self, function: Callable[..., int], *args: object) -> int:
        if self._lock is None:
            return function(self._at, *args)
        if not self._lock.acquire(False):
            raise Refused(Fault.BUSY)
        try:
            return function(self._at, *args)
        finally:
            self._lock.release()

    @staticmethod
    def _check(status: int) -> None:
        if status != 0:
            raise Refused(Fault(status))

    def _call(self, function: Callable[..., int], *args: object) -> None:
        self._check(self._alone(function, *args))

    def close(self) -> None:
        """Lets go what is held. Each later call raises `Refused` with `WRONG_HANDLE`. Raises `Refused`: busy."""
        self._alone(_LIBRARY.universal_drop)

    def _is_closed(self) -> bool:
        return self._handle.at is None

    def __enter__(self: _Self) -> _Self:
        return self

    def __exit__(self, *_: object) -> None:
        self.close()

    def __del__(self) -> None:
        if hasattr(self, "_lock"):
            self.close()

    def __reduce_ex__(self, _: object) -> NoReturn:
        raise TypeError(f"a {type(self).__name__} can't be copied: it is one handle of the library")


class _Shared(_Held, Generic[_Given]):
    """What n processes share, with the seats that are still to be given out."""

    def __init__(self) -> None:
        super().__init__()
        self._given: list[_Given] = []
        # what its seats keep, and by which they are told from those of another one
        self._mark = object()

    def seat(self) -> _Given:
        """The seat of the greatest process that has none yet."""
        raise NotImplementedError

    def seats(self) -> list[_Given]:
        """All seats that are left, that of the greatest process first.

        Raises `Refused`: memory; then those that were had are among those of the next call.
        """
        while True:
            try:
                self._given.append(self.seat())
            except Refused as refused:
                if refused.fault is not Fault.NO_SEAT:
                    raise
                given, self._given = self._given, []
                return given


class Log(_Shared["Seat"]):
    """An object that n processes share, with the seats that are still to be given out."""

    @classmethod
    def _open(cls, function: Callable[..., int], *args: object) -> Log:
        log = cls()
        status = function(*args, log._at)
        if status != 0:
            raise Refused(Fault(status))
        return log

    def __repr__(self) -> str:
        return "<Log, closed>" if self._is_closed() else "<Log>"

    @classmethod
    def tally(cls, n: int, k: int) -> Log:
        """A sum, 0 at the start: a call adds its number modulo 2^31, and is answered the sum before.

        Raises `Refused`: n isn't from 1 to 64; k isn't from 1 to 4096; memory was refused; in this order.
        """
        return cls._open(_LIBRARY.universal_open_tally, _number(n, 64), _number(k, 64))

    @classmethod
    def sticky(cls, n: int, k: int) -> Log:
        """A register that keeps the first value: a call from 1 to 10^9 sets it if it is unset, and each other reads.

        The reply is the value afterwards, 0 for unset. Raises as `tally`.
        """
        return cls._open(_LIBRARY.universal_open_sticky, _number(n, 64), _number(k, 64))

    @classmethod
    def register(cls, n: int, k: int) -> Log:
        """A register of 31 bits, 0 at the start: `i >> 31` is the operation of a call i, and the lowest 31 bits a value.

        0 reads, 1 writes, 2 swaps, 3 adds, 4 writes a greater value, and 2^31 + e writes where the register has e. A
        write is answered 0, and each other call the value before. Raises as `tally`.
        """
        return cls._open(_LIBRARY.universal_open_register, _number(n, 64), _number(k, 64))

    @classmethod
    def machine(cls, n: int, k: int, next: Sequence[Sequence[int]], reply: Sequence[Sequence[int]]) -> Log:
        """The machine of two tables with a row for each state and an entry for each invocation; 0 is the start.

        Raises `Refused`: the tables aren't those of a machine; and then as `tally`.
        """
        return cls._open(_LIBRARY.universal_open_machine, _number(n, 64), _number(k, 64), *_tables(next, reply))

    def seat(self) -> Seat:
        """The seat of the greatest process that has none yet. Raises `Refused`: all are given out, or memory."""
        seat, process = Seat(self), c_uint64()
        self._call(_LIBRARY.universal_seat, seat._at, byref(process))
        seat.process = process.value
        return seat


class Seat(_Held):
    """A process of a log, which makes its calls. `process` is which it is."""

    process: int

    def __init__(self, log: Log) -> None:
        super().__init__()
        self._mark = log._mark

    def __repr__(self) -> str:
        return "<Seat, closed>" if self._is_closed() else f"<Seat of process {self.process}>"

    def apply(self, inv: int) -> Reply:
        """A call. Raises `Refused`: the seat is busy; or it has made its calls, and nothing is changed."""
        answer = _Reply()
        self._call(_LIBRARY.universal_apply, _number(inv, 64), byref(answer))
        return Reply(answer.reply, answer.turns)

    def follows(self, process: int, nth: int) -> bool:
        """Whether the call nth, from 0, of a process stands in the log: all later calls of this seat come after it then.

        By a law a call that has returned does, but no clause of this call says so: be ready for False.
        """
        is_there = c_uint32()
        self._call(_LIBRARY.universal_follows, _number(process, 64), _number(nth, 64), byref(is_there))
        return is_there.value != 0

    def finish(self, told: Mapping[int, Sequence[tuple[int, int]]] | None = None) -> list[Entry]:
        """Closes the log, by the last that has it: all calls, in their order.

        `told` has for processes the calls that they made, each with its reply, with which the log is compared. That it
        has those of the process whose seat closes it is proved.

        Raises `ValueError` and `TypeError`: a number of `told` has too many bits, or is none. Raises `Refused`: another has the log. The seat stays in
        both. Raises `Refused`: memory was refused; the log is closed then, and a further call reads it. Raises `Differs`, for the first of these processes
        of which the log has other calls: the log is let go.
        """
        lists = {
            _number(process, 64): [(_number(inv, 64), _number(reply, 32)) for inv, reply in calls]
            for process, calls in (told or {}).items()
        }
        self._call(_LIBRARY.universal_close)
        try:
            for process, calls in lists.items():
                self._compare(process, calls)
            return self._entries()
        finally:
            self.close()

    def _compare(self, process: int, calls: list[tuple[int, int]]) -> None:
        made = (_Call * max(1, len(calls)))(*[_Call(inv, _Reply(reply, 0)) for inv, reply in calls])
        nth = c_uint64()
        try:
            self._call(_LIBRARY.universal_compare, process, made, len(calls), byref(nth))
        except Refused as refused:
            if refused.fault is Fault.DIFFERS:
                raise Differs(process, nth.value) from None
            raise

    def _entries(self) -> list[Entry]:
        count = c_size_t()
        self._call(_LIBRARY.universal_read, (_Entry * 1)(), 0, byref(count))
        entries = (_Entry * max(1, count.value))()
        self._call(_LIBRARY.universal_read, entries, count.value, byref(count))
        return [Entry(e.seq, e.process, e.nth, e.inv, e.reply if e.is_replied else None) for e in entries[: count.value]]


class _Finishing(Protocol[_State]):
    """A seat of a log or of a small object."""

    _mark: object

    def close(self) -> None: ...

    def finish(self) -> _State: ...


class _Worker(threading.Thread):
    """Works with a seat. `ended` tells that it is over; `join` doesn't, once an exception has come out of it."""

    def __init__(self, work: Callable[[Any], object], seat: object) -> None:
        super().__init__()
        self._task, self._seat, self.ended = work, seat, threading.Event()
        self.raised: BaseException | None = None

    def run(self) -> None:
        try:
            self._task(self._seat)
        except BaseException as fault:
            self.raised = fault
        finally:
            self.ended.set()


def _join(workers: Sequence[_Worker]) -> None:
    for worker in workers:
        worker.ended.wait()
        worker.join()


def in_threads(seats: Sequence[_Finishing[_State]], work: Callable[[Any], object]) -> _State:
    """Runs `work(seat)` for each seat in a thread of its own, joins them all, and closes what they are seats of: what `finish`
    gives, which is all calls of a log, in their order, or the last state of a small object.

    The seats are those that a log or a small object has given out, which was closed before. All but the first are closed,
    and the first closes the log. Raises what `work` raised, that of the first seat where several did: all threads are joined
    then, the log is not closed, and the seats stay. So they do where a signal handler raises, as at Ctrl-C: that comes once
    all are joined, and a second time at once. Raises `ValueError`: there is no seat, one is there twice, or two are of two
    logs. Else raises as `Seat.finish`.
    """
    if not seats:
        raise ValueError("there is no seat")
    if len({id(seat) for seat in seats}) < len(seats):
        raise ValueError("a seat is there twice")
    if any(seat._mark is not seats[0]._mark for seat in seats):
        raise ValueError("the seats are of two logs")
    workers = [_Worker(work, seat) for seat in seats]
    try:
        for worker in workers:
            worker.start()
        _join(workers)
    except BaseException:
        _join([worker for worker in workers if worker.ident is not None])
        raise
    for worker in workers:
        if worker.raised is not None:
            raise worker.raised
    for seat in seats[1:]:
        seat.close()
    return seats[0].finish()
