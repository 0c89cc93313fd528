"""Each call on its happy path and each refusal: python3 -m unittest"""

import contextlib
import copy
import gc
import os
import pickle
import signal
import threading
import time
import unittest

from universal import Differs, Entry, Fault, Log, Refused, in_threads

SWITCH = ([[0, 1], [1, 0]], [[0, 0], [1, 1]])


def replies(log, invs):
    with log:
        seat = log.seat()
    return [seat.apply(inv).reply for inv in invs]


class Calls(unittest.TestCase):
    def refuses(self, fault, call):
        with self.assertRaises(Refused) as refused:
            call()
        self.assertIs(refused.exception.fault, fault)

    def test_objects(self):
        self.assertEqual(replies(Log.tally(1, 3), [5, 2, 1]), [0, 5, 7])
        self.assertEqual(replies(Log.sticky(1, 4), [0, 8, 10, 0]), [0, 8, 8, 8])
        swap, add, exchange = 2 << 31, 3 << 31, (1 << 62) + (9 << 31)
        self.assertEqual(replies(Log.register(1, 4), [swap + 6, add + 3, exchange + 4, 0]), [0, 6, 9, 4])
        self.assertEqual(replies(Log.machine(1, 4, *SWITCH), [0, 1, 9, 0]), [0, 0, 1, 0])

    def test_bad_sizes(self):
        self.refuses(Fault.BAD_COUNT, lambda: Log.tally(0, 0))
        self.refuses(Fault.BAD_COUNT, lambda: Log.sticky(65, 1))
        self.refuses(Fault.BAD_ROW, lambda: Log.register(1, 0))
        self.refuses(Fault.BAD_ROW, lambda: Log.tally(64, 4097))
        self.assertRaises(ValueError, lambda: Log.tally(-1, 1))
        self.assertRaises(ValueError, lambda: Log.tally(1 << 64, 1))

    def test_bad_tables(self):
        self.refuses(Fault.BAD_TABLE, lambda: Log.machine(1, 1, [], []))
        self.refuses(Fault.BAD_TABLE, lambda: Log.machine(1, 1, [[0, 1], [1, 2]], SWITCH[1]))
        self.refuses(Fault.BAD_TABLE, lambda: Log.machine(1, 1, SWITCH[0], [[0, 0], [1, 1 << 31]]))
        self.refuses(Fault.BAD_TABLE, lambda: Log.machine(1, 1, SWITCH[0], [[0, 0]]))
        self.refuses(Fault.BAD_TABLE, lambda: Log.machine(1, 1, [[0, 1], [1]], SWITCH[1]))
        for entry in [-1, 1 << 32]:
            self.refuses(Fault.BAD_TABLE, lambda: Log.machine(1, 1, [[0, 1], [1, entry]], SWITCH[1]))
        self.assertRaises(TypeError, lambda: Log.machine(1, 1, [[0, 1.0], [1, 0]], SWITCH[1]))

    def test_seats(self):
        log = Log.tally(2, 1)
        self.assertEqual([seat.process for seat in log.seats()], [1, 0])
        self.assertEqual(log.seats(), [])
        self.refuses(Fault.NO_SEAT, log.seat)

    def test_full(self):
        with Log.tally(1, 1) as log:
            seat = log.seat()
        self.assertEqual(seat.apply(4).reply, 0)
        self.refuses(Fault.SPENT, lambda: seat.apply(4))
        self.assertIs(Fault.FULL, Fault.SPENT)
        self.assertRaises(ValueError, lambda: seat.apply(1 << 64))
        self.assertEqual(seat.finish(), [Entry(seq=2, process=0, nth=0, inv=4, reply=0)])

    def test_entries(self):
        with Log.tally(2, 2) as log:
            first, second = log.seats()
        self.assertEqual([first.apply(5).reply, first.apply(2).reply, second.apply(1).reply], [0, 5, 7])
        second.close()
        told = [(2, 1, 0, 5, 0), (3, 1, 1, 2, 5), (4, 0, 0, 1, 7)]
        self.assertEqual(first.finish(), [Entry(*entry) for entry in told])

    def test_follows(self):
        with Log.tally(2, 1) as log:
            first, second = log.seats()
        self.assertFalse(first.follows(0, 0))
        second.apply(5)
        self.assertTrue(first.follows(0, 0))
        self.assertFalse(first.follows(0, 1))
        self.assertFalse(first.follows(2, 0))
        self.assertEqual(first.apply(3).reply, 5)

    def test_busy(self):
        log = Log.tally(2, 2)
        first, second = log.seats()
        self.assertEqual(first.apply(3).reply, 0)
        self.refuses(Fault.BUSY, first.finish)
        log.close()
        self.refuses(Fault.BUSY, first.finish)
        self.assertEqual(first.apply(1).reply, 3)
        second.close()
        self.assertEqual(len(first.finish()), 2)

    def test_one_call_at_a_time(self):
        with Log.tally(1, 4096) as log:
            seat = log.seat()
        told = []

        def interrupt(*_):
            told.append(seat.apply(1))

        had = signal.signal(signal.SIGALRM, interrupt)
        signal.setitimer(signal.ITIMER_REAL, 0.001, 0.001)
        for _ in range(2000):
            told.append(seat.apply(1))
        signal.setitimer(signal.ITIMER_REAL, 0)
        signal.signal(signal.SIGALRM, had)
        # each call of the handler is one of the seat's
        self.assertEqual(sorted(answer.reply for answer in told), list(range(len(told))))
        self.assertEqual(len(seat.finish()), len(told))

    def test_an_exception_of_a_handler_leaves_the_seat(self):
        class Stop(Exception):
            pass

        def stop(*_):
            raise Stop

        had = signal.signal(signal.SIGALRM, stop)
        for round_ in range(300):
            with Log.tally(1, 4096) as log:
                seat = log.seat()
            made = 0
            with contextlib.suppress(Stop):
                signal.setitimer(signal.ITIMER_REAL, 0.0002 + round_ % 50 * 0.00001)
                for made in range(4095):
                    seat.apply(1)
                signal.pause()
            signal.setitimer(signal.ITIMER_REAL, 0)
            self.assertIn(seat.apply(1).reply, range(made, made + 3))
            seat.close()
        signal.signal(signal.SIGALRM, had)

    def test_a_second_thread_waits(self):
        with Log.tally(1, 4000) as log:
            seat = log.seat()
        threads = [threading.Thread(target=lambda: [seat.apply(1) for _ in range(1000)]) for _ in range(4)]
        for thread in threads:
            thread.start()
        for thread in threads:
            thread.join()
        self.assertEqual(len(seat.finish()), 4000)

    def test_a_fork_leaves_the_seat(self):
        with Log.tally(1, 4096) as log:
            seat = log.seat()
        seat.apply(1)
        child = os.fork()
        if child == 0:
            os._exit(seat.apply(1).reply)
        self.assertEqual(os.waitstatus_to_exitcode(os.waitpid(child, 0)[1]), 1)
        self.assertEqual(seat.apply(1).reply, 1)

    def test_faults_cross_processes(self):
        for fault in Fault:
            self.assertIs(pickle.loads(pickle.dumps(Refused(fault))).fault, fault)
        differs = pickle.loads(pickle.dumps(Differs(3, 7)))
        self.assertEqual((differs.process, differs.nth, differs.fault), (3, 7, Fault.DIFFERS))

    def test_handles_are_not_copied(self):
        log = Log.tally(1, 1)
        for held in [log, log.seat()]:
            for copied in [copy.copy, copy.deepcopy, pickle.dumps]:
                self.assertRaises(TypeError, lambda: copied(held))

    def test_closing(self):
        with contextlib.closing(Log.tally(2, 1)) as log:
            first, second = log.seats()
        self.assertEqual((repr(log), repr(first)), ("<Log, closed>", "<Seat of process 1>"))
        with contextlib.closing(second):
            second.apply(5)
        self.assertEqual(repr(second), "<Seat, closed>")
        self.assertEqual([entry.inv for entry in first.finish()], [5])

    def test_seats_of_two_logs(self):
        with Log.tally(2, 1) as one, Log.tally(1, 1) as other:
            seats, strangers = one.seats(), other.seats()
        for bad in [[*seats, *strangers], [seats[0], seats[0]]]:
            self.assertRaises(ValueError, lambda: in_threads(bad, lambda seat: seat.apply(1)))
        self.assertEqual(len(in_threads(seats, lambda seat: seat.apply(1))), 2)
        # also where one of them is gone by then
        for _ in range(200):
            with Log.tally(2, 1) as log:
                seats = log.seats()
            del log
            gc.collect()
            with Log.tally(2, 1) as log:
                strangers = log.seats()
            self.assertRaises(ValueError, lambda: in_threads([seats[0], strangers[1]], lambda seat: seat.apply(1)))

    def test_told(self):
        def seats():
            with Log.tally(2, 2) as log:
                first, second = log.seats()
            replies = [first.apply(3), first.apply(1), second.apply(7)]
            self.assertEqual([reply.reply for reply in replies], [0, 3, 4])
            second.close()
            return first

        told = {1: [(3, 0), (1, 3)], 0: [(7, 4)]}
        self.assertEqual([entry.inv for entry in seats().finish(told)], [3, 1, 7])
        self.assertEqual(len(seats().finish({0: [(7, 4)], 2: []})), 3)
        for other, process, nth in [
            ({0: [(7, 5)]}, 0, 0),
            ({1: [(3, 0)]}, 1, 1),
            ({1: [(3, 0), (1, 3), (1, 4)]}, 1, 2),
            ({0: []}, 0, 0),
            ({2: [(7, 4)]}, 2, 0),
        ]:
            seat = seats()
            with self.assertRaises(Differs) as raised:
                seat.finish(other)
            self.assertEqual((raised.exception.process, raised.exception.nth), (process, nth))
            self.refuses(Fault.WRONG_HANDLE, seat.finish)
        seat = seats()
        for told in [{0: [(1 << 64, 0)]}, {0: [], 1 << 64: []}, {0: [], 1: [(3, 1 << 32)]}]:
            self.assertRaises(ValueError, lambda: seat.finish(told))
        for told in [{0: [(5.0, 0)]}, {0: [(7, 4.0)]}, {0.0: [(7, 4)]}]:
            self.assertRaises(TypeError, lambda: seat.finish(told))
        self.assertEqual(len(seat.finish()), 3)

    def test_wrong_handle(self):
        with Log.tally(1, 1) as log:
            seat = log.seat()
        self.refuses(Fault.WRONG_HANDLE, log.seat)
        self.assertEqual(seat.finish(), [])
        self.refuses(Fault.WRONG_HANDLE, seat.finish)
        self.refuses(Fault.WRONG_HANDLE, lambda: seat.apply(1))

    def test_threads(self):
        with Log.tally(4, 200) as log:
            seats = log.seats()
        told = {}

        def work(seat):
            told[seat.process] = [seat.apply(i).reply for i in range(200)]

        calls = in_threads(seats, work)
        for seat in seats:
            self.refuses(Fault.WRONG_HANDLE, lambda: seat.apply(1))
        total = 0
        for place, call in enumerate(calls):
            self.assertEqual((call.seq, call.reply), (place + 2, total))
            self.assertEqual(call.reply, told[call.process][call.nth])
            total += call.inv
        self.assertEqual((len(calls), total), (800, 4 * 199 * 200 // 2))

    def test_threads_that_raise(self):
        with Log.tally(3, 2) as log:
            seats = log.seats()

        def work(seat):
            seat.apply(1)
            if seat.process < 2:
                raise KeyError(seat.process)

        with self.assertRaises(KeyError) as raised:
            in_threads(seats, work)
        # the seats are those of processes 2, 1 and 0
        self.assertEqual(raised.exception.args, (1,))
        # all three were joined, and none was dropped
        self.assertEqual(seats[2].apply(5).reply, 3)
        self.refuses(Fault.BUSY, seats[0].finish)
        self.assertRaises(ValueError, lambda: in_threads([], work))

    def test_threads_at_an_interrupt(self):
        with Log.tally(3, 1) as log:
            seats = log.seats()
        started = threading.active_count()

        def work(seat):
            time.sleep(0.4)
            seat.apply(1)

        def interrupt(*_):
            raise KeyboardInterrupt

        before = signal.signal(signal.SIGALRM, interrupt)
        try:
            signal.setitimer(signal.ITIMER_REAL, 0.1)
            self.assertRaises(KeyboardInterrupt, lambda: in_threads(seats, work))
        finally:
            signal.signal(signal.SIGALRM, before)
        # all three were joined, and made their calls
        self.assertEqual(threading.active_count(), started)
        for seat in seats:
            self.refuses(Fault.SPENT, lambda: seat.apply(1))

    def test_threads_beside_a_log(self):
        log = Log.tally(2, 1)
        seats = log.seats()
        self.refuses(Fault.BUSY, lambda: in_threads(seats, lambda seat: seat.apply(4)))
        log.close()
        self.assertEqual(sorted(call.reply for call in seats[0].finish()), [0, 4])


if __name__ == "__main__":
    unittest.main()
