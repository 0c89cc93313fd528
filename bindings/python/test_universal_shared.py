"""Objects that processes share: each call, each refusal, forks, spawned processes, threads, and kills: python3 -m unittest"""

import ctypes
import errno
import gc
import multiprocessing
import os
import pickle
import queue
import signal
import threading
import unittest

from universal import Fault, Refused, shared
from universal.program import Program
from universal.shared import Full, Last, Over, SharedBook, SharedCounter, SharedCounters, SharedMachine, SharedMap
from universal.shared import SharedProgram, SharedQueue, SharedRegister, SharedStack, Short, Was, unlink

MOST = (1 << 64) - 1


def name(of):
    return f"test.{os.getpid()}.{of}"


def in_child(work):
    """What a forked child ends with: 0 where the work is done."""
    child = os.fork()
    if child == 0:
        code = 1
        try:
            work()
            code = 0
        finally:
            os._exit(code)
    return os.waitstatus_to_exitcode(os.waitpid(child, 0)[1])


def add_some(counter, times):
    for _ in range(times):
        counter.add(1)


def take_over(counter, told):
    told.put(counter.claim(0))


class Calls(unittest.TestCase):
    def refuses(self, fault, call):
        with self.assertRaises(Refused) as refused:
            call()
        self.assertIs(refused.exception.fault, fault)

    def test_each_object(self):
        with SharedCounter(None, seats=1, create=True) as counter:
            self.assertEqual([counter.add(5), counter.add(-1), counter.add(MOST), counter.add(0)], [0, 5, 4, 3])
            self.assertEqual((counter.made, counter.version > 0), (4, True))
        with SharedRegister(None, seats=1, create=True) as register:
            self.assertEqual([register.write(MOST), register.compare_exchange(3, 9)], [0, MOST])
            self.assertEqual([register.compare_exchange(MOST, 9), register.read()], [MOST, 9])
        with SharedCounters(None, 3, seats=1, create=True) as counters:
            self.assertEqual([counters.add(2, 8), counters.add(2, 1)], [0, 8])
            self.assertRaises(IndexError, lambda: counters.add(3, 1))
        with SharedQueue(None, 2, seats=1, create=True) as row:
            self.assertIsNone(row.take())
            row.put(8)
            row.put(9)
            self.assertRaises(queue.Full, lambda: row.put(7))
            self.assertRaises(ValueError, lambda: row.put(0))
            self.assertEqual([row.take(), row.take()], [8, 9])
        with SharedStack(None, 2, seats=1, create=True) as stack:
            stack.push(8)
            stack.push(9)
            self.assertRaises(Full, lambda: stack.push(7))
            self.assertEqual([stack.pop(), stack.pop(), stack.pop()], [9, 8, None])
        with SharedMap(None, 2, seats=1, create=True) as numbers:
            self.assertEqual([numbers.insert(7, 70), numbers.insert(7, 71), numbers.insert(0, 0)], [None, 70, None])
            self.assertRaises(Full, lambda: numbers.insert(9, 90))
            self.assertEqual([numbers.get(9), numbers.get(0), numbers.remove(7)], [None, 0, 71])
        with SharedBook(None, seats=1, create=True) as book:
            self.assertEqual([book.deposit(3, 10), book.withdraw(3, 1), book.total()], [10, 9, 9])
            self.assertRaises(Over, lambda: book.deposit(3, 10**12 - 1))
            self.assertRaises(Short, lambda: book.transfer(3, 4, 10))
        with SharedMachine(None, [[1], [0]], [[7], [8]], seats=1, create=True) as machine:
            self.assertEqual([machine.call(0), machine.call(0), machine.call(0)], [7, 8, 7])

    def test_layouts(self):
        self.assertEqual((ctypes.sizeof(shared._Kind), ctypes.sizeof(shared._Last)), (80, 128))

    def test_programs(self):
        p = Program([40], invocation=1, reply=2)  # an account of at most 100
        total = p.state[0] + p.invocation[0]
        with p.when(total <= 100):
            p.state[0] = total
            p.reply[0] = 1
        p.reply[1] = p.state[0]
        with SharedProgram(name("program"), p, seats=2, create=True) as account:
            self.assertEqual([account.call(50), account.call(11), account.call(10)], [(1, 90), (0, 90), (1, 100)])
            again = pickle.loads(pickle.dumps(account))
            self.assertEqual(in_child(lambda: self.assertEqual(again.call(1), (0, 100))), 0)
            self.refuses(Fault.OTHER_OBJECT, lambda: SharedProgram(account.name, Program([], invocation=1, reply=2), seats=2))
            account.release()
            self.assertEqual(account.claim(0).invocation, (10,))
        wide = [Program([], invocation=5, reply=1), Program([], invocation=1, reply=3), Program([], invocation=1, reply=0)]
        for program in wide:
            self.refuses(Fault.BAD_CAPACITY, lambda: SharedProgram(None, program, seats=1, create=True))
        bad = Program([], invocation=1, reply=1)
        bad.reply[1] = 0
        self.refuses(Fault.NO_PLACE, lambda: SharedProgram(None, bad, seats=1, create=True))

    def test_names(self):
        of = name("names")
        with SharedMap(of, 10, seats=2, create=True) as made:
            self.assertRaises(FileExistsError, lambda: SharedMap(of, 10, seats=2, create=True))
            again = SharedMap(of, 10, seats=2)
            again.insert(1, 2)
            self.assertEqual(made.get(1), 2)
            self.refuses(Fault.OTHER_OBJECT, lambda: SharedMap(of, 11, seats=2))
            self.refuses(Fault.OTHER_OBJECT, lambda: SharedMap(of, 10, seats=3))
            self.refuses(Fault.OTHER_OBJECT, lambda: SharedCounter(of, seats=2))
            self.assertEqual(repr(again), f"<SharedMap '{of}'>")
            again.close()
            self.assertEqual(repr(again), f"<SharedMap '{of}', closed>")
            self.assertRaises(ValueError, lambda: again.get(1))
            self.assertRaises(ValueError, again.claim)
            again.close()
        self.assertRaises(FileNotFoundError, lambda: SharedMap(of, 10, seats=2))
        self.assertRaises(FileNotFoundError, lambda: unlink(of))
        with open(f"/dev/shm/universal.{of}", "wb") as file:
            file.write(bytes(10_000))
        self.refuses(Fault.NOT_A_SEGMENT, lambda: SharedMap(of, 10, seats=2))
        unlink(of)
        with self.assertRaises(OSError) as too_long:
            SharedCounter("x" * 5000, seats=1, create=True)
        self.assertEqual(too_long.exception.errno, errno.ENAMETOOLONG)
        for bad in ["", "a\0b"]:
            self.assertRaises(ValueError, lambda: SharedCounter(bad, seats=1, create=True))
        self.assertRaises(ValueError, lambda: SharedCounter(None, seats=1))
        self.refuses(Fault.BAD_COUNT, lambda: SharedCounter(None, seats=65, create=True))
        self.refuses(Fault.BAD_CAPACITY, lambda: SharedQueue(None, 65535, seats=1, create=True))
        self.refuses(Fault.BAD_TABLE, lambda: SharedMachine(None, [[2]], [[0]], seats=1, create=True))

    def test_seats(self):
        with SharedCounter(None, seats=2, create=True) as counter:
            self.assertEqual(counter.claim(1), Last(1, Was.NEW, 0, False, 0, (), (), None))
            self.assertRaises(ValueError, counter.claim)
            counter.add(5)
            # a thread has a seat of its own, and gives it back as it ends
            told = []
            threading.Thread(target=lambda: told.append((counter.claim().process, counter.add(1)))).start()
            others = [thread for thread in threading.enumerate() if thread is not threading.current_thread()]
            for thread in others:
                thread.join()
            self.assertEqual(told, [(0, 5)])
            # both seats are taken now, and a third one isn't there
            held, go = threading.Event(), threading.Event()
            thread = threading.Thread(target=lambda: (counter.add(0), held.set(), go.wait()))
            thread.start()
            held.wait()
            faults = []

            def third(process):
                try:
                    counter.claim(process)
                except Refused as refused:
                    faults.append(refused.fault)

            for process in [None, 0, 2]:
                other = threading.Thread(target=third, args=[process])
                other.start()
                other.join()
            self.assertEqual(faults, [Fault.NO_SEAT, Fault.TAKEN, Fault.NO_SEAT])
            go.set()
            thread.join()
            counter.release()
            last = counter.claim(1)
            self.assertEqual(last[:4] + last[5:], (1, Was.RELEASED, 1, False, (5,), (0,), None))
            self.assertEqual(counter.made, 1)

    def test_forks(self):
        with SharedCounter(None, seats=3, create=True) as counter:
            self.assertEqual(counter.claim().process, 0)
            counter.add(1)

            def child():
                assert counter.made == 0
                assert counter.add(1) == 1
                assert counter.made == 1
                assert in_child(lambda: counter.claim().process == 2 or os._exit(3)) == 0

            self.assertEqual(in_child(child), 0)
            self.assertEqual(counter.add(0), 2)
            # one that is killed: its seat is free, with what it did
            self.assertEqual(in_child(lambda: (counter.claim(1), counter.add(7), os.kill(os.getpid(), signal.SIGKILL))), -signal.SIGKILL)
            counter.release()
            last = counter.claim(1)
            self.assertEqual((last.was, last.made, last.invocation, last.reply), (Was.DIED, 2, (7,), (2,)))

    def test_pickles(self):
        with SharedCounters(name("pickles"), 4, seats=2, create=True) as counters:
            other = pickle.loads(pickle.dumps(counters))
            counters.add(3, 9)
            self.assertEqual((type(other), other.capacity), (SharedCounters, 4))
            counters.release()
            self.assertEqual(other.add(3, 0), 9)
            other.close()
        self.assertRaises(TypeError, lambda: pickle.dumps(SharedCounter(None, seats=1, create=True)))
        with SharedMachine(name("machine"), [[1], [0]], [[7], [8]], seats=2, create=True) as machine:
            self.assertEqual(pickle.loads(pickle.dumps(machine)).call(0), 7)

    def test_workers(self):
        for method in ["fork", "spawn"]:
            context = multiprocessing.get_context(method)
            with SharedCounter(name(method), seats=5, create=True) as counter:
                workers = [context.Process(target=add_some, args=(counter, 500)) for _ in range(4)]
                for worker in workers:
                    worker.start()
                for worker in workers:
                    worker.join()
                self.assertEqual([worker.exitcode for worker in workers], [0] * 4)
                self.assertEqual(counter.add(0), 2000)
                counter.release()
                told = context.SimpleQueue()
                after = context.Process(target=take_over, args=(counter, told))
                after.start()
                last = told.get()
                after.join()
                self.assertEqual((last.process, last.was), (0, Was.RELEASED))

    def test_nothing_is_left(self):
        def count():
            with open("/proc/self/maps") as maps:
                return len(os.listdir("/proc/self/fd")), sum(line.startswith("2") for line in maps)

        gc.collect()
        before = count()
        for _ in range(20):
            with SharedQueue(name("left"), 5, seats=2, create=True) as jobs:
                jobs.put(1)
                self.assertEqual(pickle.loads(pickle.dumps(jobs)).take(), 1)
            SharedCounter(None, seats=1, create=True).add(1)
        gc.collect()
        self.assertEqual(count(), before)


if __name__ == "__main__":
    unittest.main()
