"""Small objects: each call on its happy path, each refusal, and threads: python3 -m unittest"""

import copy
import queue
import threading
import unittest

from universal import Fault, Log, Refused
from universal.program import Program
from universal.small import Book, Counter, Counters, Full, Machine, Map, Over, Queue, Register, Short, Stack, in_threads

MOST = (1 << 64) - 1


def only_seat(opened):
    with opened:
        return opened.seat()


class Calls(unittest.TestCase):
    def refuses(self, fault, call):
        with self.assertRaises(Refused) as refused:
            call()
        self.assertIs(refused.exception.fault, fault)

    def test_counters(self):
        counter = only_seat(Counter.open(1))
        self.assertEqual([counter.add(5), counter.add(-1), counter.add(MOST), counter.add(0)], [0, 5, 4, 3])
        self.assertEqual(counter.finish(), 3)
        counters = only_seat(Counters.open(1, 3))
        self.assertEqual([counters.add(2, 8), counters.add(2, 1)], [0, 8])
        self.assertRaises(IndexError, lambda: counters.add(3, 1))
        self.assertEqual(counters.finish(), [0, 0, 9])

    def test_waiting_for_a_number(self):
        """A permit for each number that is in: so none finds the queue empty."""
        with Queue.open(4, 1000) as opened:
            seats = opened.seats()
        ready, taken = threading.Semaphore(0), []

        def work(seat):
            for number in range(1, 501):
                if seat.process < 2:
                    seat.put(number)
                    ready.release()
                else:
                    ready.acquire()
                    taken.append(seat.take())

        self.assertEqual(in_threads(seats, work), [])
        self.assertEqual(sorted(taken), sorted([*range(1, 501)] * 2))

    def test_register(self):
        register = only_seat(Register.open(1))
        self.assertEqual([register.write(MOST), register.compare_exchange(3, 9)], [0, MOST])
        self.assertEqual([register.compare_exchange(MOST, 9), register.read()], [MOST, 9])
        self.assertRaises(ValueError, lambda: register.write(-1))
        self.assertEqual(register.finish(), 9)

    def test_rows(self):
        row = only_seat(Queue.open(1, 2))
        self.assertIsNone(row.take())
        row.put(8)
        row.put(9)
        self.assertRaises(queue.Full, lambda: row.put(7))
        self.assertRaises(ValueError, lambda: row.put(0))
        self.assertEqual(row.take(), 8)
        self.assertEqual(row.finish(), [9])
        stack = only_seat(Stack.open(1, 2))
        self.assertIsNone(stack.pop())
        stack.push(8)
        stack.push(9)
        self.assertRaises(Full, lambda: stack.push(7))
        self.assertEqual(stack.pop(), 9)
        self.assertEqual(stack.finish(), [8])

    def test_map(self):
        numbers = only_seat(Map.open(1, 2))
        self.assertEqual([numbers.insert(7, 70), numbers.insert(7, 71), numbers.insert(0, 0)], [None, 70, None])
        self.assertRaises(Full, lambda: numbers.insert(9, 90))
        self.assertEqual([numbers.get(9), numbers.get(0), numbers.remove(7), numbers.remove(7)], [None, 0, 71, None])
        numbers.insert(9, MOST)
        self.assertEqual(numbers.finish(), {0: 0, 9: MOST})

    def test_book(self):
        book = only_seat(Book.open(1))
        self.assertEqual(book.deposit(3, 10), 10)
        self.assertRaises(Over, lambda: book.deposit(3, 10**12 - 1))
        self.assertRaises(Short, lambda: book.withdraw(3, 11))
        self.assertEqual(book.withdraw(3, 1), 9)
        book.transfer(3, 15, 4)
        self.assertRaises(Short, lambda: book.transfer(3, 15, 6))
        for bad in [(16, 1), (-1, 1), (0, 10**12), (0, -1)]:
            self.assertRaises(ValueError, lambda: book.deposit(*bad))
        self.assertEqual(book.total(), 9)
        self.assertEqual(book.finish(), [0, 0, 0, 5, *[0] * 11, 4])

    def test_machine(self):
        # a switch: 0 asks, and each greater invocation turns it over
        next, reply = [[0, 1], [1, 0]], [[0, 0], [1, 1]]
        switch = only_seat(Machine.open(1, next, reply))
        self.assertEqual([switch.call(invocation) for invocation in [0, 1, 0, MOST, 1]], [0, 0, 1, 1, 0])
        self.assertRaises(ValueError, lambda: switch.call(-1))
        self.assertEqual(switch.finish(), 1)
        uneven = [[0, 1], [1], [0, 1, 0]], [[0, 0]] * 3
        for bad in [([], []), ([[0, 1], [1, 2]], reply), (next, [[0, 0], [1, 1 << 31]]), (next, [[0, 0]]), uneven]:
            self.refuses(Fault.BAD_TABLE, lambda: Machine.open(0, *bad))
        self.refuses(Fault.BAD_COUNT, lambda: Machine.open(65, next, reply))

    def test_reads_without_a_call(self):
        """What a call would be answered, at rest: twice the same, and of the version that the seat has."""

        def at_rest(seat, words, answer):
            version = seat.version
            self.assertEqual([seat.try_read(*words), seat.try_read(*words)], [answer, answer])
            self.assertEqual(seat.version, version)

        counter = only_seat(Counter.open(1))
        at_rest(counter, [3], (0,))
        counter.add(5)
        at_rest(counter, [3], (5,))
        self.assertEqual([counter.add(1), counter.finish()], [5, 6])
        counters = only_seat(Counters.open(1, 3))
        counters.add(2, 8)
        at_rest(counters, [2, 1], (8,))
        at_rest(counters, [1, 1], (0,))
        self.assertEqual(counters.finish(), [0, 0, 8])
        register = only_seat(Register.open(1))
        register.write(7)
        at_rest(register, [0, 0, 0], (7,))
        at_rest(register, [1, 9, 0], (7,))
        version = register.version
        self.assertEqual([register.read(), register.version], [7, version])
        self.assertEqual(register.finish(), 7)
        row = only_seat(Queue.open(1, 2))
        row.put(8)
        at_rest(row, [9], (1,))
        row.put(9)
        at_rest(row, [7], (0,))
        at_rest(row, [0], (8,))
        self.assertEqual(row.finish(), [8, 9])
        stack = only_seat(Stack.open(1, 2))
        stack.push(8)
        stack.push(9)
        at_rest(stack, [0], (9,))
        self.assertEqual(stack.finish(), [8, 9])
        numbers = only_seat(Map.open(1, 1))
        numbers.insert(7, 70)
        at_rest(numbers, [0, 7, 0], (1, 70))
        at_rest(numbers, [2, 7, 0], (1, 70))
        at_rest(numbers, [1, 9, 90], (2, 0))
        version = numbers.version
        self.assertEqual([numbers.get(7), numbers.get(9), numbers.version], [70, None, version])
        numbers.try_read = lambda *words: None  # as where others are at work each time
        self.assertEqual([numbers.get(7), numbers.get(9)], [70, None])
        self.assertGreater(numbers.version, version)
        self.assertEqual(numbers.finish(), {7: 70})
        book = only_seat(Book.open(1))
        book.deposit(3, 10)
        at_rest(book, [3, 0, 0, 0], (4, 10))
        at_rest(book, [1, 3, 0, 4], (0, 6))
        at_rest(book, [1, 3, 0, 11], (2, 0))
        version = book.version
        self.assertEqual([book.total(), book.version], [10, version])
        self.assertEqual(book.finish(), [0, 0, 0, 10, *[0] * 12])
        switch = only_seat(Machine.open(1, [[0, 1], [1, 0]], [[0, 0], [1, 1]]))
        switch.call(1)
        at_rest(switch, [1], (1,))
        self.assertEqual(switch.finish(), 1)
        p = Program([40], invocation=1, reply=1)
        total = p.state[0] + p.invocation[0]
        p.state[0] = total
        p.reply[0] = total
        own = only_seat(p.open(1))
        at_rest(own, [2], (42,))
        self.assertEqual(own.call(3), (43,))
        at_rest(own, [2], (45,))
        self.assertEqual(own.finish(), [43])
        # by the other seat, which follows what it has read
        with Counter.open(2) as opened:
            first, second = opened.seats()
        first.add(5)
        self.assertEqual([second.try_read(0), second.version], [(5,), first.version])
        self.assertEqual(second.add(0), 5)
        self.assertGreater(second.version, first.version)
        for words in [(), (0, 0)]:
            self.refuses(Fault.BAD_WIDTH, lambda: first.try_read(*words))
        self.assertRaises(ValueError, lambda: first.try_read(-1))
        first.close()
        self.refuses(Fault.WRONG_HANDLE, lambda: first.try_read(0))

    def test_bad_sizes(self):
        self.refuses(Fault.BAD_COUNT, lambda: Counter.open(0))
        self.refuses(Fault.BAD_COUNT, lambda: Book.open(65))
        self.refuses(Fault.BAD_CAPACITY, lambda: Counters.open(1, 65537))
        self.refuses(Fault.BAD_CAPACITY, lambda: Queue.open(1, 65535))
        self.refuses(Fault.BAD_CAPACITY, lambda: Stack.open(1, 65536))
        self.refuses(Fault.BAD_CAPACITY, lambda: Map.open(1, 32768))
        self.assertRaises(ValueError, lambda: Queue.open(1, -1))
        self.assertRaises(ValueError, lambda: Map.open(1, 1 << 32))
        self.assertEqual(only_seat(Counters.open(1, 0)).finish(), [])

    def test_seats_and_closing(self):
        counter = Counter.open(2)
        first, second = counter.seats()
        self.assertEqual((repr(counter), repr(first), first.version), ("<Small Counter>", "<Counter of process 1>", 0))
        self.refuses(Fault.NO_SEAT, counter.seat)
        self.assertEqual(first.add(5), 0)
        self.assertTrue(second.follows(first.version))
        self.assertFalse(second.follows(first.version + 1))
        self.assertEqual(second.add(2), 5)
        self.assertGreater(second.version, first.version)
        self.refuses(Fault.BUSY, first.finish)
        second.close()
        self.refuses(Fault.BUSY, first.finish)
        self.refuses(Fault.BUSY, counter.finish)
        self.assertEqual(first.add(1), 7)
        first.close()
        self.assertEqual(counter.finish(), 8)
        for closed in [counter.finish, counter.seat, first.finish, lambda: first.add(1), lambda: first.follows(0)]:
            self.refuses(Fault.WRONG_HANDLE, closed)
        self.assertEqual((repr(counter), repr(first)), ("<Small Counter, closed>", "<Counter, closed>"))

    def test_one_handle(self):
        row = Queue.open(1, 1)
        for held in [row, row.seat()]:
            self.assertRaises(TypeError, lambda: copy.copy(held))
        seat = only_seat(Queue.open(1, 1))
        seat.put(1)
        with Log.tally(1, 1) as log, Counter.open(1) as counter:
            seats = [log.seat(), counter.seat()]
        self.assertRaises(ValueError, lambda: in_threads(seats, lambda seat: None))


class Threads(unittest.TestCase):
    """2,000 calls of each thread: the order is legal, by the replies and the versions."""

    COUNTS, CALLS = [2, 4, 16, 64], 2000

    def seats(self, opened):
        with opened:
            return opened.seats()

    def test_counter(self):
        for n in self.COUNTS:
            told, places = {}, []

            def work(seat):
                for turn in range(self.CALLS):
                    earlier = told.get((seat.process + 1 + turn) % n)
                    if earlier is not None:
                        self.assertTrue(seat.follows(earlier[1]))
                    place = seat.add(1)
                    self.assertGreater(place, earlier[0] if earlier else -1)
                    told[seat.process] = place, seat.version
                    places.append(place)

            self.assertEqual(in_threads(self.seats(Counter.open(n)), work), n * self.CALLS)
            self.assertEqual(sorted(places), list(range(n * self.CALLS)))

    def test_reads(self):
        """Two threads add, and a third one reads: it never goes down, and at the end it is the sum."""
        over, told = threading.Semaphore(0), []

        def work(seat):
            if seat.process != 0:
                for _ in range(self.CALLS):
                    seat.add(1)
                over.release()
                return
            added, sums = 0, [0]
            while added < 2:
                added += over.acquire(blocking=False)
                version, found = seat.version, seat.try_read(1)
                if found is not None:
                    sums.append(found[0])
                self.assertTrue(found is not None or added < 2, "nobody else is at work")
                self.assertGreaterEqual(seat.version, version)
            self.assertEqual(sums, sorted(sums))
            self.assertLessEqual(sums[-1], 2 * self.CALLS)
            told.append(seat.try_read(1))

        self.assertEqual(in_threads(self.seats(Counter.open(3)), work), 2 * self.CALLS)
        self.assertEqual(told, [(2 * self.CALLS,)])

    def test_map(self):
        for n in self.COUNTS:
            before = {}

            def work(seat):
                for turn in range(self.CALLS):
                    value = 1 + turn * n + seat.process
                    before[value] = seat.insert(turn % 8, value)

            # from the last value of each key back
            order = []
            for value in in_threads(self.seats(Map.open(n, 8)), work).values():
                while value is not None:
                    order.append(value)
                    value = before[value]
            self.assertEqual(sorted(order), list(range(1, 1 + n * self.CALLS)))
            for process in range(n):
                own = [(value - 1) // n for value in order if (value - 1) % n == process]
                for key in range(8):
                    turns = [turn for turn in own if turn % 8 == key]
                    self.assertEqual(turns, sorted(turns, reverse=True))

    def test_queue(self):
        for n in self.COUNTS:
            out = {}

            def work(seat):
                for turn in range(self.CALLS // 2):
                    seat.put(1 + turn * n + seat.process)
                    after = seat.version
                    taken = seat.take()
                    self.assertNotIn(taken, out)
                    out[taken] = after, seat.version

            self.assertEqual(in_threads(self.seats(Queue.open(n, 64)), work), [])
            self.assertEqual(len(out), n * (self.CALLS // 2))
            # no number of a process overtakes an earlier one
            for number, (_, version) in out.items():
                if number > n:
                    self.assertGreater(version, out[number - n][0])


if __name__ == "__main__":
    unittest.main()
