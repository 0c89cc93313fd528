"""Objects on words of 64 bits: `Counter`, `Register`, `Counters`, `Queue`, `Stack`,
`Map`, `Book` and `Machine`.

`open` of a class gives a `Small`, the object for n processes, with its seats of that class:

    with Queue.open(4, 100) as queue:
        seats = queue.seats()
    in_threads(seats, lambda seat: seat.put(seat.process + 1))   # the numbers that are left, the oldest first

A call comes with a version: a number of the object's state, in which the call is. A seat has that of its latest call in
`version`. Who is told a version, by whatever means, can follow it. A seat makes up to 2^50 calls; a further one raises
`Refused`, with `SPENT`. What only reads, as `Map.get`, first tries to read the present state without a call (`try_read`); then
`version` is the one that was read, which may be that before.

Where another process's call came since the process's own last one, a call copies the whole state, also while the object is
empty: some 1.3 nanoseconds a word of capacity (docs/measured.md). Where none came, it takes the time of what it touches. To either
Python adds some 4 microseconds.
"""

from __future__ import annotations

from collections.abc import Callable, Sequence
from ctypes import byref, c_uint32, c_uint64
from queue import Full
from typing import Any, Generic, TypeVar, cast

from . import _LIBRARY, _Held, _number, _Shared, _tables, in_threads
from ._calls import BookCalls, Calls, CounterCalls, CountersCalls, MachineCalls, MapCalls, Over, QueueCalls
from ._calls import RegisterCalls, Short, StackCalls

__all__ = ["Book", "Counter", "Counters", "Full", "Machine", "Map", "Over", "Queue", "Register", "Short", "Small"]
__all__ += ["Stack", "in_threads"]


_State = TypeVar("_State")


_CHANGED = 28


class _Seat(Calls, _Held, Generic[_State]):
    """A process of a small object, which makes its calls. `process` is which it is, and `version` that of its latest call, or
    the one that it has read since."""

    def __init__(self, object_: Small[Any, Any]) -> None:
        super().__init__()
        self._mark, self._width = object_._mark, object_._width
        self.process = self.version = 0

    def __repr__(self) -> str:
        name = type(self).__name__
        return f"<{name}, closed>" if self._is_closed() else f"<{name} of process {self.process}>"

    def _apply(self, *words: int) -> Sequence[int]:
        status, reply = self._asked(_LIBRARY.universal_small_apply, words)
        self._check(status)
        return reply

    def _asked(self, function: Callable[..., int], words: Sequence[int]) -> tuple[int, list[int]]:
        """The status and the reply of a function that answers an invocation; where it has, the version is the seat's."""
        invocation, version = (c_uint64 * len(words))(*words), c_uint64()
        reply = (c_uint64 * self._replies)()
        status = self._alone(function, invocation, len(words), reply, self._replies, byref(version))
        if status == 0:
            self.version = version.value
        return status, list(reply)

    def _look(self, *words: int) -> Sequence[int]:
        for _ in range(3):
            found = self.try_read(*words)
            if found is not None:
                return found
        return self._apply(*words)

    def try_read(self, *words: int) -> tuple[int, ...] | None:
        """What a call with the words of an invocation would be answered at the present state, without the call: the words of
        the reply. `None`: another version came meanwhile; ask again. Who has to be answered within a bound makes a call.

        Nothing is stored in a shared word. The state is that of `version` then: all calls of this seat are in it, and all later
        calls of this seat come after all calls that are in it. The words are those of the macros of `universal.h`, as 0 of a
        counter, whose number is the answer. Raises `Refused`: these aren't as many words as those of the object; the seat is spent.
        """
        status, reply = self._asked(_LIBRARY.universal_small_read, [_number(word, 64) for word in words])
        if status == _CHANGED:
            return None
        self._check(status)
        return tuple(reply)

    def follows(self, version: int) -> bool:
        """Whether a version has come: all later calls of this seat come after all calls that are in it then.

        By a law one that a call was answered has come, but no clause of this call says so: be ready for False. Raises
        `Refused`: the seat is busy.
        """
        has_come = c_uint32()
        self._call(_LIBRARY.universal_small_follows, _number(version, 64), byref(has_come))
        return has_come.value != 0

    def finish(self) -> _State:
        """Closes the object, by the last that has it: the last state.

        Raises `Refused`: another has the object, and the seat stays.
        """
        return self._state(_words(self, self._width))

    @classmethod
    def _state(cls, words: list[int]) -> _State:
        return cast(_State, words)


_S = TypeVar("_S", bound=_Seat[Any])


def _words(held: _Held, width: int) -> list[int]:
    state = (c_uint64 * max(1, width))()
    held._call(_LIBRARY.universal_small_close, state, width)
    return list(state[:width])


class Small(_Shared[_S], Generic[_S, _State]):
    """A small object that n processes share, with the seats that are still to be given out."""

    def __init__(self, seats_of: type[_S], width: int) -> None:
        super().__init__()
        self._seats_of, self._width = seats_of, width

    def __repr__(self) -> str:
        name = self._seats_of.__name__
        return f"<Small {name}, closed>" if self._is_closed() else f"<Small {name}>"

    @classmethod
    def _open(cls, seats_of: type[_S], width: int, function: Callable[..., int], *args: object) -> Small[_S, _State]:
        opened = cls(seats_of, width)
        cls._check(function(*args, opened._at))
        return opened

    def seat(self) -> _S:
        """The seat of the greatest process that has none yet. Raises `Refused`: all are given out, or memory."""
        seat, process = self._seats_of(self), c_uint64()
        self._call(_LIBRARY.universal_small_seat, seat._at, byref(process))
        seat.process = process.value
        return seat

    def finish(self) -> _State:
        """Closes the object, if all its seats are closed: the last state.

        Raises `Refused`: a seat has the object, which stays.
        """
        return cast(_State, self._seats_of._state(_words(self, self._width)))


class Counter(CounterCalls, _Seat[int]):
    """A seat of a counter modulo 2^64, 0 at the start. The last state is the sum."""

    @classmethod
    def open(cls, n: int) -> Small[Counter, int]:
        """A counter for n processes. Raises `Refused`: n isn't from 1 to 64; memory was refused."""
        return Small._open(cls, 1, _LIBRARY.universal_open_counter, _number(n, 64))

    @classmethod
    def _state(cls, words: list[int]) -> int:
        return words[0]


class Register(RegisterCalls, _Seat[int]):
    """A seat of a register of 64 bits, 0 at the start. The last state is the value."""

    @classmethod
    def open(cls, n: int) -> Small[Register, int]:
        """A register for n processes. Raises as `Counter.open`."""
        return Small._open(cls, 1, _LIBRARY.universal_open_register64, _number(n, 64))

    @classmethod
    def _state(cls, words: list[int]) -> int:
        return words[0]


class Counters(CountersCalls, _Seat[list[int]]):
    """A seat of an array of counters modulo 2^64, each 0 at the start. The last state is their list."""

    @classmethod
    def open(cls, n: int, count: int) -> Small[Counters, list[int]]:
        """So many counters for n processes; a copy is so many words.

        Raises `Refused`: n isn't from 1 to 64; there are more than 65,536 counters; memory was refused.
        """
        return Small._open(cls, count, _LIBRARY.universal_open_counters, _number(n, 64), _number(count, 32))


class Queue(QueueCalls, _Seat[list[int]]):
    """A seat of a queue of numbers from 1 to 2^64 - 1. The last state is their list, the oldest one first."""

    @classmethod
    def open(cls, n: int, capacity: int) -> Small[Queue, list[int]]:
        """A queue of at most `capacity` numbers for n processes; a copy is 2 + capacity words.

        Raises `Refused`: n isn't from 1 to 64; capacity is more than 65,534; memory was refused.
        """
        return Small._open(cls, 2 + capacity, _LIBRARY.universal_open_queue, _number(n, 64), _number(capacity, 32))

    @classmethod
    def _state(cls, words: list[int]) -> list[int]:
        count, first, *slots = words
        return [*slots[first:], *slots[:first]][:count]


class Stack(StackCalls, _Seat[list[int]]):
    """A seat of a stack of numbers from 1 to 2^64 - 1. The last state is their list, the newest one last."""

    @classmethod
    def open(cls, n: int, capacity: int) -> Small[Stack, list[int]]:
        """A stack of at most `capacity` numbers for n processes; a copy is 1 + capacity words.

        Raises `Refused`: n isn't from 1 to 64; capacity is more than 65,535; memory was refused.
        """
        return Small._open(cls, 1 + capacity, _LIBRARY.universal_open_stack, _number(n, 64), _number(capacity, 32))

    @classmethod
    def _state(cls, words: list[int]) -> list[int]:
        return words[1 : 1 + words[0]]


class Map(MapCalls, _Seat[dict[int, int]]):
    """A seat of a map from words to words. The last state is a dictionary, with the oldest key first."""

    @classmethod
    def open(cls, n: int, capacity: int) -> Small[Map, dict[int, int]]:
        """A map of at most `capacity` keys for n processes; a copy is 1 + 2 * capacity words.

        Raises `Refused`: n isn't from 1 to 64; capacity is more than 32,767; memory was refused.
        """
        return Small._open(cls, 1 + 2 * capacity, _LIBRARY.universal_open_map, _number(n, 64), _number(capacity, 32))

    @classmethod
    def _state(cls, words: list[int]) -> dict[int, int]:
        return dict(zip(words[1 : 1 + 2 * words[0] : 2], words[2::2]))


class Book(BookCalls, _Seat[list[int]]):
    """A seat of a book of sixteen accounts, each with a balance up to 999,999,999,999 that is 0 at the start.

    The last state is the list of the balances.
    """

    @classmethod
    def open(cls, n: int) -> Small[Book, list[int]]:
        """A book for n processes. Raises as `Counter.open`."""
        return Small._open(cls, 16, _LIBRARY.universal_open_book, _number(n, 64))


class Machine(MachineCalls, _Seat[int]):
    """A seat of a machine by its tables. The last state is the number of its state."""

    @classmethod
    def open(cls, n: int, next: Sequence[Sequence[int]], reply: Sequence[Sequence[int]]) -> Small[Machine, int]:
        """The machine of two tables with a row for each state and an entry for each invocation; 0 is the start.

        Raises `Refused`: the tables aren't those of a machine; and then as `Counter.open`.
        """
        return Small._open(cls, 1, _LIBRARY.universal_open_small_machine, _number(n, 64), *_tables(next, reply))

    @classmethod
    def _state(cls, words: list[int]) -> int:
        return words[0]
