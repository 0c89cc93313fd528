"""Objects by programs: an account, a rate limiter, a leaderboard and a map with compare-and-insert, each beside a function.

The variable CALLS tells how many calls four threads make on each, in all (40000).
"""

import os
import pickle
import random
import unittest
from collections.abc import Callable

from universal import Fault, Refused, in_threads
from universal.program import BadProgram, Label, Program, Register

Words = list[int]
LIMIT, CLIENTS, TOKENS, RATE, PAIRS, BEST, REPLY = 1000, 8, 5, 2, 8, 3, 8
EACH = int(os.environ.get("CALLS", "40000")) // 4


def counted(pairs: int) -> Program:
    """A program whose reply begins with how many calls there were before: the call's place among all calls."""
    p = Program([0] * (2 + 2 * pairs), invocation=3, reply=REPLY)
    with p.block():
        calls = p.state[0]
        p.reply[0] = calls
        p.state[0] = calls + 1
    return p


def account() -> Program:
    """At most LIMIT: (0, amount) adds, (1, amount) takes; the reply is whether that was done, and the balance."""
    p, refused = counted(0), Label()
    balance = p.state[1]
    p.reply[2] = balance
    total = p.register(balance)
    with p.when(p.invocation[0] == 1):
        total.set(p.subtract(balance, p.invocation[1], refused))
    with p.when(p.invocation[0] != 1):
        total.set(p.add(balance, p.invocation[1], refused))
        p.go(refused, total > LIMIT)
    p.state[1] = total
    p.reply[1] = 1
    p.reply[2] = total
    p.here(refused)
    return p


def plain_account(state: Words, call: Words, reply: Words) -> None:
    total = state[1] - call[1] if call[0] == 1 else state[1] + call[1]
    if 0 <= total <= (LIMIT if call[0] != 1 else total):
        state[1], reply[1] = total, 1
    reply[2] = state[1]


def limiter() -> Program:
    """Each of CLIENTS has at most TOKENS tokens, and gets RATE more with each unit of time: (client, now) takes one."""
    p, full, fresh, none = counted(CLIENTS), Label(), Label(), Label()
    now = p.invocation[1]
    place = p.invocation[0] * 2 + 1
    tokens, last = p.state[place], p.state[place + 1]
    elapsed = p.subtract(now, last, fresh)
    p.state[place + 1] = now
    more = p.add(tokens, p.multiply(elapsed, RATE, full), full)
    tokens.set(more)
    p.go(fresh, more <= TOKENS)
    p.here(full)
    tokens.set(TOKENS)
    p.here(fresh)
    p.compute(1, tokens, 1, tokens, none)
    p.reply[1] = 1
    p.here(none)
    p.state[place] = tokens
    return p


def plain_limiter(state: Words, call: Words, reply: Words) -> None:
    client, now, place = call[0], call[1], 1 + 2 * call[0]
    if client >= CLIENTS:
        return
    if now >= state[place + 1]:
        state[place] = min(TOKENS, state[place] + (now - state[place + 1]) * RATE)
        state[place + 1] = now
    if state[place] > 0:
        state[place] -= 1
        reply[1] = 1


def find(p: Program, key: Register, absent: Label) -> Register:
    """The place of a key's pair; at `absent`, of a new one. Word 1 is how many pairs there are, and then they come."""
    place, end = p.register(2), p.state[1]
    end *= 2
    end += 2
    with p.repeat(PAIRS + 1) as found:
        p.go(absent, place == end)
        p.go(found, p.state[place] == key)
        place += 2
    return place


def append(p: Program, key: Register, place: Register) -> None:
    with p.block():
        p.state[place] = key  # the call ends where there is no room
        p.state[1] = p.state[1] + 1


def leaderboard() -> Program:
    """(0, player, points) adds points, and is answered the sum; each other call the BEST best players with their points."""
    p, new, tell = counted(PAIRS), Label(), Label()
    with p.when(p.invocation[0] != 0):
        for word in range(2, 2 + 2 * BEST):
            with p.block():
                p.reply[word] = p.state[word]
        p.go(p.end)
    player, points = p.invocation[1], p.invocation[2]
    place = find(p, player, new)
    with p.block():
        points += p.state[place + 1]
    p.go(tell)
    p.here(new)
    append(p, player, place)
    p.here(tell)
    with p.block():
        p.state[place + 1] = points
    p.reply[1] = points
    with p.repeat(PAIRS) as sorted_in:
        p.go(sorted_in, place == 2)
        other, above = p.state[place - 2], p.state[place - 1]
        p.go(sorted_in, points <= above)
        p.state[place], p.state[place + 1] = other, above
        place -= 2
        p.state[place], p.state[place + 1] = player, points
    return p


def plain_find(state: Words, key: int) -> int:
    return next(place for place in range(2, 3 + 2 * state[1], 2) if place == 2 + 2 * state[1] or state[place] == key)


def plain_leaderboard(state: Words, call: Words, reply: Words) -> None:
    if call[0] != 0:
        reply[2 : 2 + 2 * BEST] = state[2 : 2 + 2 * BEST]
        return
    place = plain_find(state, call[1])
    if place == len(state):
        return
    is_new = place == 2 + 2 * state[1]
    points = call[2] + (0 if is_new else state[place + 1])
    if points >= 1 << 64:
        return
    state[1] += is_new
    state[place : place + 2] = call[1], points
    reply[1] = points
    while place > 2 and state[place - 1] < points:
        state[place - 2 : place + 2] = state[place : place + 2] + state[place - 2 : place]
        place -= 2


def compare_insert() -> Program:
    """(key, expected, value) writes the value where the key has the expected one, 0 for none: whether, and the one before."""
    p, absent, write = counted(PAIRS), Label(), Label()
    key, expected = p.invocation[0], p.invocation[1]
    place = find(p, key, absent)
    before = p.state[place + 1]
    p.reply[2] = before
    p.go(p.end, before != expected)
    p.go(write)
    p.here(absent)
    p.go(p.end, expected != 0)
    append(p, key, place)
    p.here(write)
    p.state[place + 1] = p.invocation[2]
    p.reply[1] = 1
    return p


def plain_compare_insert(state: Words, call: Words, reply: Words) -> None:
    place = plain_find(state, call[0])
    is_new = place == 2 + 2 * state[1]
    reply[2] = 0 if is_new else state[place + 1]
    if reply[2] != call[1] or place == len(state):
        return
    state[1] += is_new
    state[place : place + 2] = call[0], call[2]
    reply[1] = 1


EXAMPLES: list[tuple[Callable[[], Program], Callable[[Words, Words, Words], None], int]] = [
    (account, plain_account, 0),
    (limiter, plain_limiter, CLIENTS),
    (leaderboard, plain_leaderboard, PAIRS),
    (compare_insert, plain_compare_insert, PAIRS),
]


def drawn(random_: random.Random, time: int) -> Words:
    """A call that reaches each branch: small numbers, and now and then one of all 64 bits."""
    call = [random_.getrandbits(64) if random_.random() < 0.001 else random_.randrange(10 if k == 0 else 4) for k in range(3)]
    if random_.random() < 0.25:
        call[1] = time
    return call


class Programs(unittest.TestCase):
    def test_each_call_agrees_with_the_function(self) -> None:
        for program, plain, pairs in EXAMPLES:
            with self.subTest(program.__name__):
                state, random_ = [0] * (2 + 2 * pairs), random.Random(7)
                with program().open(1) as opened:
                    seat = opened.seat()
                for k in range(100_000):
                    call, reply = drawn(random_, k // 16), [k] + [0] * (REPLY - 1)
                    state[0] += 1
                    plain(state, call, reply)
                    self.assertEqual(list(seat.call(*call)), reply, f"call {k}: {call}")
                self.assertEqual(seat.finish(), state)

    def test_calls_of_four_threads_agree_in_their_order(self) -> None:
        for program, plain, pairs in EXAMPLES:
            with self.subTest(program.__name__):
                with program().open(4) as opened:
                    seats = opened.seats()
                told: dict[int, tuple[Words, Words]] = {}

                def work(seat: object) -> None:
                    random_ = random.Random(seat.process)  # type: ignore[attr-defined]
                    for k in range(EACH):
                        call = drawn(random_, k // 16)
                        reply = list(seat.call(*call))  # type: ignore[attr-defined]
                        told[reply[0]] = call, reply

                last = in_threads(seats, work)
                state = [0] * (2 + 2 * pairs)
                for k in range(4 * EACH):
                    call, found = told[k]
                    reply = [k] + [0] * (REPLY - 1)
                    state[0] += 1
                    plain(state, call, reply)
                    self.assertEqual(found, reply, f"call {k}: {call}")
                self.assertEqual(last, state)

    def test_each_refusal(self) -> None:
        def refused(fault: Fault, place: int | None, write: Callable[[Program], None], reply: int = 1) -> None:
            p = Program([0], invocation=1, reply=reply)
            p.register(5)
            write(p)
            with self.assertRaises(BadProgram) as caught:
                p.open(1)
            self.assertEqual((caught.exception.fault, caught.exception.place), (fault, place))
            again = pickle.loads(pickle.dumps(caught.exception))
            self.assertEqual((again.fault, again.place), (fault, place))

        refused(Fault.NO_PLACE, 1, lambda p: p.state[1] and None)
        refused(Fault.NO_OPERATION, 1, lambda p: p._write(0))
        refused(Fault.NO_REGISTER, 1, lambda p: p._write(0x10, 16))
        refused(Fault.JUMPS_BACK, 1, lambda p: p._write(0x60, 0))
        refused(Fault.NO_TARGET, 1, lambda p: p._write(0x60, 3))
        refused(Fault.GOES_FORWARD, 1, lambda p: p._write(0x70, 2, 1, 16))
        refused(Fault.NO_LOOP, 1, lambda p: p._write(0x70, 1, 1, 16))
        refused(Fault.TOO_LONG, None, lambda p: p._write(0x70, 1, 1 << 32, 0))
        refused(Fault.BAD_CAPACITY, None, lambda p: None, reply=0)
        with self.assertRaises(Refused) as caught:
            Program([0], invocation=1, reply=1).open(65)
        self.assertIs(caught.exception.fault, Fault.BAD_COUNT)

    def test_what_the_builder_refuses(self) -> None:
        p = Program([0], invocation=1, reply=1)
        first = p.register()
        for _ in range(13):
            p.register()
        self.assertRaises(ValueError, p.register)
        self.assertRaises(TypeError, bool, first == 1)
        p.go(Label())
        self.assertRaises(ValueError, p.words)
        with self.assertRaises(TypeError):
            p.invocation[0] = 1
        with self.assertRaises(ValueError):
            p.reply[0] = -1

    def test_other_words_than_an_invocation_has(self) -> None:
        p = Program([0], invocation=1, reply=1)
        with p.open(1) as opened, self.assertRaises(Refused) as caught:
            opened.seat().call(1, 2)
        self.assertIs(caught.exception.fault, Fault.BAD_WIDTH)


if __name__ == "__main__":
    unittest.main()
