"""The calls of each small object, by the words of invocations and replies, whoever makes them."""

from __future__ import annotations

from collections.abc import Sequence
from queue import Full

from . import _number


class Over(Exception):
    """A balance would be too great. Nothing is changed."""


class Short(Exception):
    """A balance is too small. Nothing is changed."""


class Calls:
    """Makes calls of an object: `_replies` is how many words a reply has, and `_width` how many a state."""

    _replies = 1
    _width: int

    def _apply(self, *words: int) -> Sequence[int]:
        raise NotImplementedError

    def _look(self, *words: int) -> Sequence[int]:
        """A call that changes nothing."""
        return self._apply(*words)


class CounterCalls(Calls):
    """The calls of a counter."""

    def add(self, number: int) -> int:
        """Adds a number modulo 2^64: the sum before."""
        return self._apply(number % (1 << 64))[0]


class RegisterCalls(Calls):
    """The calls of a register."""

    def read(self) -> int:
        """The value."""
        return self._look(0, 0, 0)[0]

    def write(self, value: int) -> int:
        """Writes a value: the one before."""
        return self._apply(1, _number(value, 64), 0)[0]

    def compare_exchange(self, expected: int, value: int) -> int:
        """Writes a value where the register has the expected one: the value before.

        So it has written where that is the expected one.
        """
        return self._apply(2, _number(expected, 64), _number(value, 64))[0]


class CountersCalls(Calls):
    """The calls of an array of counters."""

    def add(self, index: int, number: int) -> int:
        """Adds a number modulo 2^64 to the counter at an index: the sum before. Raises `IndexError`: there is none."""
        if not 0 <= index < self._width:
            raise IndexError(f"there is no counter {index}")
        return self._apply(index, number % (1 << 64))[0]


class RowCalls(Calls):
    """The calls of a queue or a stack."""

    def _put(self, number: int) -> None:
        if number == 0:
            raise ValueError("0 can't be put in")
        if self._apply(_number(number, 64))[0] == 0:
            raise Full

    def _take(self) -> int | None:
        return self._apply(0)[0] or None


class QueueCalls(RowCalls):
    """The calls of a queue."""

    def put(self, number: int) -> None:
        """Puts a number in. Raises `Full`, which is `queue.Full`."""
        self._put(number)

    def take(self) -> int | None:
        """Takes the oldest number out."""
        return self._take()


class StackCalls(RowCalls):
    """The calls of a stack."""

    def push(self, number: int) -> None:
        """Puts a number on. Raises `Full`, which is `queue.Full`."""
        self._put(number)

    def pop(self) -> int | None:
        """Takes the newest number off."""
        return self._take()


class MapCalls(Calls):
    """The calls of a map."""

    _replies = 2

    def _before(self, operation: int, key: int, value: int) -> int | None:
        kind, before = self._apply(operation, _number(key, 64), _number(value, 64))
        if kind == 2:
            raise Full
        return before if kind == 1 else None

    def get(self, key: int) -> int | None:
        """The value of a key."""
        kind, value = self._look(0, _number(key, 64), 0)
        return value if kind == 1 else None

    def insert(self, key: int, value: int) -> int | None:
        """Gives a key a value: the value before. Raises `Full`, which is `queue.Full`: a new key has no room."""
        return self._before(1, key, value)

    def remove(self, key: int) -> int | None:
        """Takes a key out: its value."""
        return self._before(2, key, 0)


class BookCalls(Calls):
    """The calls of a book."""

    _replies = 2

    def _number_of(self, operation: int, account: int, target: int, amount: int) -> int:
        if not (0 <= account < 16 and 0 <= target < 16 and 0 <= amount < 10**12):
            raise ValueError("an account isn't from 0 to 15, or an amount isn't from 0 to 999999999999")
        kind, number = self._apply(operation, account, target, amount)
        if kind == 1:
            raise Over
        if kind == 2:
            raise Short
        return number

    def deposit(self, account: int, amount: int) -> int:
        """Puts an amount into an account: its balance. Raises `Over`."""
        return self._number_of(0, account, 0, amount)

    def withdraw(self, account: int, amount: int) -> int:
        """Takes an amount out of an account: its balance. Raises `Short`."""
        return self._number_of(1, account, 0, amount)

    def transfer(self, source: int, target: int, amount: int) -> None:
        """Takes an amount out of an account, and puts it into another one. Raises `Over` and `Short`."""
        self._number_of(2, source, target, amount)

    def total(self) -> int:
        """The sum of all balances."""
        return self._look(3, 0, 0, 0)[1]


class MachineCalls(Calls):
    """The calls of a machine."""

    def call(self, invocation: int) -> int:
        """A call: the reply. An invocation past the tables is the last one."""
        return self._apply(_number(invocation, 64))[0]
