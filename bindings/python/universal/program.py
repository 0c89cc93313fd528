"""Objects of one's own: a program that reads like code, and the object that it opens.

An account of at most 100, whose call adds its word where the sum is no more than that, and is answered the sum, else 0:

    p = Program([0], invocation=1, reply=1)
    total = p.state[0] + p.invocation[0]  # the call ends where it is no number of 64 bits
    with p.when(total <= 100):
        p.state[0] = total
        p.reply[0] = total
    with p.open(4) as account:
        seats = account.seats()
    in_threads(seats, lambda seat: seat.call(5))  # (5,), (10,) ..

A program goes through its instructions in each call, on 16 registers of 64 bits; its state stays as it left it. It is written by
running these lines once, so `if` and `for` of Python write it, and `when` and `repeat` are of the program. The library checks it as
it is opened, and what a program means is proved; this module is tested.
"""

from __future__ import annotations

import operator
from collections.abc import Iterator, Sequence
from contextlib import contextmanager
from ctypes import byref, c_uint64
from typing import Any, Union

from . import _LIBRARY, Fault, Refused, _number
from ._calls import Calls
from .small import Small, _Seat

__all__ = ["BadProgram", "Label", "Program", "ProgramCalls", "ProgramSeat", "Register", "Test"]

_REGISTERS = 14  # of 16; the last two take the numbers that an instruction names
_SET, _LOAD, _STORE, _ANSWER, _CHECKED, _WRAPPING, _JUMP, _AGAIN = 0x10, 0x20, 0x30, 0x32, 0x40, 0x50, 0x60, 0x70
_ADD, _SUBTRACT, _MULTIPLY, _DIVIDE, _REMAINDER = range(5)
_ALWAYS, _EQUAL, _NOT_EQUAL, _LESS, _AT_MOST = range(5)


class BadProgram(Refused):
    """A program was refused: `place` is the number of the first instruction that is wrong, `None` where it is the whole."""

    def __init__(self, fault: Fault, place: int | None) -> None:
        super().__init__(fault)
        self.place = place

    def __reduce__(self) -> tuple[object, ...]:
        return type(self), (self.fault, self.place)


class Label:
    """A place where a program goes on, which `Program.here` tells."""

    _at: int | None = None


class Register:
    """A number of a call. Operators make a new one; `set`, and `+=` and the like, change it.

    Where a sum or a product is no number of 64 bits, a difference is below 0, or one would divide by 0, the call ends there.
    """

    def __init__(self, program: Program, number: int) -> None:
        self._program, self._number = program, number

    def set(self, value: Value) -> None:
        """Gives it a number, or that of another register."""
        if isinstance(value, Register):
            self._program._write(_WRAPPING, self._number, value._number, self._program._constant(15, 0))
        else:
            self._program._write(_SET, self._number, _number(value, 64))

    def __add__(self, other: Value) -> Register:
        return self._program.compute(_ADD, self, other)

    def __radd__(self, other: int) -> Register:
        return self._program.compute(_ADD, other, self)

    def __sub__(self, other: Value) -> Register:
        return self._program.compute(_SUBTRACT, self, other)

    def __rsub__(self, other: int) -> Register:
        return self._program.compute(_SUBTRACT, other, self)

    def __mul__(self, other: Value) -> Register:
        return self._program.compute(_MULTIPLY, self, other)

    def __rmul__(self, other: int) -> Register:
        return self._program.compute(_MULTIPLY, other, self)

    def __floordiv__(self, other: Value) -> Register:
        return self._program.compute(_DIVIDE, self, other)

    def __mod__(self, other: Value) -> Register:
        return self._program.compute(_REMAINDER, self, other)

    def __iadd__(self, other: Value) -> Register:
        return self._program.compute(_ADD, self, other, self)

    def __isub__(self, other: Value) -> Register:
        return self._program.compute(_SUBTRACT, self, other, self)

    def __imul__(self, other: Value) -> Register:
        return self._program.compute(_MULTIPLY, self, other, self)

    def __eq__(self, other: object) -> Test:  # type: ignore[override]
        return Test(_EQUAL, self, other)

    def __ne__(self, other: object) -> Test:  # type: ignore[override]
        return Test(_NOT_EQUAL, self, other)

    def __lt__(self, other: Value) -> Test:
        return Test(_LESS, self, other)

    def __le__(self, other: Value) -> Test:
        return Test(_AT_MOST, self, other)

    def __gt__(self, other: Value) -> Test:
        return Test(_LESS, other, self)

    def __ge__(self, other: Value) -> Test:
        return Test(_AT_MOST, other, self)

    __hash__ = None  # type: ignore[assignment]


Value = Union[Register, int]


class Test:
    """A comparison, for `when` and `go`. Python can't tell whether it holds."""

    def __init__(self, by: int, left: Any, right: Any) -> None:
        self._by, self._left, self._right = by, left, right

    def __invert__(self) -> Test:
        by, left, right = self._by, self._left, self._right
        if by in (_EQUAL, _NOT_EQUAL):
            return Test(_EQUAL + _NOT_EQUAL - by, left, right)
        return Test(_LESS + _AT_MOST - by, right, left)

    def __bool__(self) -> bool:
        raise TypeError("a comparison of registers is made in the call: give it to `when`")


class _Area:
    """Words of a call: `words[place]` is a new register with one of them. A place is a number, or a register.

    Where a register's place lies outside, the call ends.
    """

    def __init__(self, program: Program, load: int, store: int | None) -> None:
        self._program, self._load, self._store = program, load, store

    def __getitem__(self, place: Value) -> Register:
        return self._program.load(self, place)

    def __setitem__(self, place: Value, value: Value) -> None:
        self._program.store(self, place, value)


class Program:
    """A program that is being written, over a state, an invocation and a reply. The reply is 0 as a call begins."""

    def __init__(self, start: Sequence[int], *, invocation: int, reply: int) -> None:
        """The words of the first state, and how many words an invocation and a reply have."""
        self._start = [_number(word, 64) for word in start]
        self._widths = operator.index(invocation), operator.index(reply)
        self._code: list[list[Any]] = []
        self._taken = self._loops = 0
        #: where the call ends
        self.end = Label()
        self.state, self.invocation, self.reply = _Area(self, 0, _STORE), _Area(self, 2, None), _Area(self, 4, _ANSWER)

    def _write(self, operation: int, to: Any = 0, left: Any = 0, right: Any = 0, otherwise: Any = 0) -> None:
        self._code.append([operation, to, left, right, otherwise])

    def _constant(self, register: int, number: int) -> int:
        self._write(_SET, register, _number(number, 64))
        return register

    def _of(self, value: Value, scratch: int) -> int:
        return value._number if isinstance(value, Register) else self._constant(scratch, value)

    def register(self, value: Value | None = None) -> Register:
        """A new register. In a `block`, a `when` or a `repeat` it is the block's. Raises `ValueError`: all 14 are taken."""
        if self._taken == _REGISTERS:
            raise ValueError("a program has 14 registers")
        register = Register(self, self._taken)
        self._taken += 1
        if value is not None:
            register.set(value)
        return register

    def load(self, area: _Area, place: Value, otherwise: Label | None = None) -> Register:
        """A new register with a word; where there is none, the program goes on at the label."""
        register = self.register()
        by = isinstance(place, Register)
        at = place._number if isinstance(place, Register) else _number(place, 64)
        self._write(_LOAD + area._load + by, register._number, at, 0, otherwise or self.end)
        return register

    def store(self, area: _Area, place: Value, value: Value, otherwise: Label | None = None) -> None:
        """Writes a word; where there is none, the program goes on at the label."""
        if area._store is None:
            raise TypeError("an invocation can't be written")
        by = isinstance(place, Register)
        at = place._number if isinstance(place, Register) else _number(place, 64)
        self._write(area._store + by, at, self._of(value, 14), 0, otherwise or self.end)

    def compute(
        self, by: int, left: Value, right: Value, to: Register | None = None, otherwise: Label | None = None
    ) -> Register:
        """Sum, difference, product, quotient, remainder: 0 to 4. Where there is none, it goes on at the label."""
        numbers = self._of(left, 14), self._of(right, 15)
        to = to or self.register()
        self._write(_CHECKED + by, to._number, *numbers, otherwise or self.end)
        return to

    def add(self, left: Value, right: Value, otherwise: Label) -> Register:
        """The sum; where it is no number of 64 bits, the program goes on at the label."""
        return self.compute(_ADD, left, right, None, otherwise)

    def subtract(self, left: Value, right: Value, otherwise: Label) -> Register:
        """The difference; where it is below 0, the program goes on at the label."""
        return self.compute(_SUBTRACT, left, right, None, otherwise)

    def multiply(self, left: Value, right: Value, otherwise: Label) -> Register:
        """The product; where it is no number of 64 bits, the program goes on at the label."""
        return self.compute(_MULTIPLY, left, right, None, otherwise)

    def wrapping_add(self, left: Value, right: Value) -> Register:
        """The sum modulo 2^64."""
        numbers = self._of(left, 14), self._of(right, 15)
        register = self.register()
        self._write(_WRAPPING, register._number, *numbers)
        return register

    def go(self, to: Label, test: Test | None = None) -> None:
        """Goes on at the label, where the test holds: always without one."""
        if test is None:
            self._write(_JUMP, to)
        else:
            self._write(_JUMP + test._by, to, self._of(test._left, 14), self._of(test._right, 15))

    def here(self, label: Label) -> None:
        """The label is here."""
        label._at = len(self._code)

    @contextmanager
    def block(self) -> Iterator[None]:
        """The registers that are made in the block are free again behind it."""
        taken = self._taken
        yield
        self._taken = taken

    @contextmanager
    def when(self, test: Test) -> Iterator[None]:
        """What is written in the block is done where the test holds."""
        past = Label()
        self.go(past, ~test)
        with self.block():
            yield
        self.here(past)

    @contextmanager
    def repeat(self, most: int) -> Iterator[Label]:
        """What is written in the block is done `most` times, or until the program goes on at the label, which is behind it.

        The count is of the whole call: a loop in another one isn't begun anew.
        """
        past, back, loop = Label(), len(self._code), self._loops
        self._loops += 1
        with self.block():
            yield past
        self._write(_AGAIN, back, _number(most - 1, 64), loop)
        self.here(past)

    def words(self) -> list[int]:
        """The words of the instructions. Raises `ValueError`: a label has no place."""
        self.end._at = len(self._code)
        words = [word._at if isinstance(word, Label) else word for row in self._code for word in row]
        if None in words:
            raise ValueError("a label has no place: `here` tells it")
        return words

    def open(self, n: int) -> Small[ProgramSeat, list[int]]:
        """The object for n processes. Its last state is the list of its words.

        Raises `BadProgram`: something of the program is wrong. Raises `Refused`: n isn't from 1 to 64; memory was refused.
        """
        code, (invocation, reply), place = self.words(), self._widths, c_uint64()
        seats = type("ProgramSeat", (ProgramSeat,), {"_replies": reply})
        array = (c_uint64 * max(1, len(code)))(*code)
        start = (c_uint64 * max(1, len(self._start)))(*self._start)
        try:
            return Small._open(
                seats, len(self._start), _LIBRARY.universal_open_program, _number(n, 64), array, len(code), start,
                len(self._start), _number(invocation, 64), _number(reply, 64), byref(place),
            )
        except Refused as refused:
            fault = refused.fault
            if Fault.BAD_CAPACITY <= fault <= Fault.TOO_LONG and fault != Fault.BAD_WIDTH:
                is_placed = Fault.NO_OPERATION <= fault < Fault.TOO_LONG
                raise BadProgram(fault, place.value if is_placed else None) from None
            raise


class ProgramCalls(Calls):
    """The calls of a program's object."""

    def call(self, *words: int) -> tuple[int, ...]:
        """A call with the words of an invocation: those of its reply. Raises `Refused`: these aren't so many words."""
        return tuple(self._apply(*(_number(word, 64) for word in words)))


class ProgramSeat(ProgramCalls, _Seat[list[int]]):
    """A seat of a program's object."""
