"""A map with `add`, compare-and-insert, a removal under a condition and a snapshot: a program, as docs/programs.md has it.

    python3 table.py CALLS

Four threads add to its keys, and to those of `universal.small.Map` by `get` and `insert`. The status is 1 where the program loses a
call, or differs from a dictionary.
"""

from __future__ import annotations

import random
import sys

from universal.program import Label, Program, ProgramSeat, Register
from universal.small import Full, Map, in_threads

ADD, COMPARE_INSERT, REMOVE_IF, ALL = range(4)
DONE = 1


def find(p: Program, key: Register, pairs: int, absent: Label) -> Register:
    """The place of a key's pair; at `absent` that of a new one. Word 0 is how many pairs there are, and then they come."""
    place, end = p.register(1), p.state[0]
    end *= 2
    end += 1
    with p.repeat(pairs + 1) as found:
        p.go(absent, place == end)
        p.go(found, p.state[place] == key)
        place += 2
    return place


def append(p: Program, key: Register, place: Register) -> None:
    with p.block():
        p.state[place] = key  # the call ends where there is no room
        p.state[0] = p.state[0] + 1


def table(pairs: int) -> Program:
    """The map of at most so many keys. A call's words are an operation, a key, and up to two numbers."""
    p = Program([0] * (1 + 2 * pairs), invocation=4, reply=1 + 2 * pairs)
    with p.when(p.invocation[0] == ALL):
        for word in range(1 + 2 * pairs):
            with p.block():
                p.reply[word] = p.state[word]
        p.go(p.end)
    operation, key, number = p.invocation[0], p.invocation[1], p.invocation[2]
    absent, write = Label(), Label()
    place, value = find(p, key, pairs, absent), p.register(0)
    with p.block():
        before = p.state[place + 1]
        p.reply[1] = before
        with p.when(operation == ADD):
            value.set(before + number)  # the call ends where it is no number of 64 bits
            p.go(write)
        p.go(p.end, before != number)
    with p.when(operation == REMOVE_IF):  # the last pair takes its place
        last = p.state[0] - 1
        p.state[0] = last
        last *= 2
        p.state[place], p.state[place + 1] = p.state[last + 1], p.state[last + 2]
        p.reply[0] = DONE
        p.go(p.end)
    value.set(p.invocation[3])
    p.go(write)
    p.here(absent)
    p.go(p.end, operation == REMOVE_IF)
    value.set(number)
    with p.when(operation == COMPARE_INSERT):
        p.go(p.end, number != 0)
        value.set(p.invocation[3])
    append(p, key, place)
    p.here(write)
    p.state[place + 1] = value
    p.reply[0] = DONE
    return p


class Table:
    """The calls, by a seat."""

    def __init__(self, seat: ProgramSeat) -> None:
        self.seat = seat

    def add(self, key: int, number: int) -> int:
        """Adds to a key's value, 0 where there is none: the value before. Raises `Full`: no room, or more than 64 bits."""
        done, before, *_ = self.seat.call(ADD, key, number, 0)
        if not done:
            raise Full
        return before

    def compare_insert(self, key: int, expected: int, value: int) -> bool:
        """Writes a value where the key has the expected one, 0 for none: whether it has."""
        return self.seat.call(COMPARE_INSERT, key, expected, value)[0] == DONE

    def remove_if(self, key: int, expected: int) -> bool:
        """Takes a key out where it has the expected value: whether it has."""
        return self.seat.call(REMOVE_IF, key, expected, 0)[0] == DONE

    def snapshot(self) -> dict[int, int]:
        """All keys with their values, at one moment."""
        count, *words = self.seat.call(ALL, 0, 0, 0)
        return dict(zip(words[: 2 * count : 2], words[1::2]))


def agrees(calls: int) -> bool:
    """Whether drawn calls are answered as a dictionary of at most 8 keys answers them."""
    drawn, plain = random.Random(7), dict[int, int]()
    with table(8).open(1) as opened:
        mine = Table(opened.seat())
    for _ in range(calls):
        operation, key, number, value = drawn.randrange(3), drawn.randrange(10), drawn.randrange(3), drawn.randrange(3)
        has_room, before = key in plain or len(plain) < 8, plain.get(key, 0)
        if operation == ADD:
            if has_room:
                plain[key] = before + number
                fits = mine.add(key, number) == before
            else:
                fits = mine.seat.call(ADD, key, number, 0)[0] == 0
        elif operation == COMPARE_INSERT:
            does = has_room and before == number
            if does:
                plain[key] = value
            fits = mine.compare_insert(key, number, value) == does
        else:
            does = plain.get(key) == number
            if does:
                del plain[key]
            fits = mine.remove_if(key, number) == does
        if not fits or mine.snapshot() != plain:
            return False
    return True


def added(calls: int) -> tuple[int, int]:
    """How many of 4 * calls additions of 1 are there in the end: by the program, and by `get` and `insert` of a map."""
    with table(8).open(4) as opened:
        seats = opened.seats()
    snapshots: list[int] = []

    def work(seat: ProgramSeat) -> None:
        mine = Table(seat)
        for k in range(calls):
            mine.add(k % 8, 1)
            if seat.process == 0:
                snapshots.append(sum(mine.snapshot().values()))

    last = in_threads(seats, work)
    assert snapshots == sorted(snapshots) and all(k < total for k, total in enumerate(snapshots))
    with Map.open(4, 8) as map_:
        maps = map_.seats()

    def get_and_insert(seat: Map) -> None:
        for k in range(calls):
            seat.insert(k % 8, (seat.get(k % 8) or 0) + 1)

    return sum(last[2::2]), sum(in_threads(maps, get_and_insert).values())


if __name__ == "__main__":
    count = int(sys.argv[1])
    is_plain, (by_program, by_map) = agrees(count), added(count)
    print(f"{4 * count} additions by four threads: {by_program} by the program, {by_map} by get and insert")
    sys.exit(not is_plain or by_program != 4 * count)
