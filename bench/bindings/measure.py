"""Calls on a shared counter or queue by the Python package: measure.py OBJECT FORM N K R, as in measure.c."""

import collections
import sys
import threading
import time

from universal.small import Counter, Queue

CAPACITY = 64


def counter_of(seat):
    return lambda nth: seat.add(nth + 1)


def queue_of(seat):
    # the queue never fills: each thread has put at most one number more than it has taken
    return lambda nth: seat.take() if nth % 2 else seat.put(nth + 1)


class GuardedCounter:
    def __init__(self):
        self.lock, self.sum = threading.Lock(), 0

    def add(self, number):
        with self.lock:
            before = self.sum
            self.sum += number
        return before


class GuardedQueue:
    def __init__(self):
        self.lock, self.row = threading.Lock(), collections.deque()

    def put(self, number):
        with self.lock:
            if len(self.row) < CAPACITY:
                self.row.append(number)

    def take(self):
        with self.lock:
            return self.row.popleft() if self.row else None


def seats_of(kind, form, n):
    if form == "mutex":
        return [GuardedCounter() if kind == "counter" else GuardedQueue()] * n
    opened = Counter.open(n) if kind == "counter" else Queue.open(n, CAPACITY)
    with opened:
        return [opened.seat() for _ in range(n)]


def round_of(kind, form, n, calls):
    barrier, spans = threading.Barrier(n), []

    def work(call):
        barrier.wait()
        first = time.perf_counter_ns()
        for nth in range(calls):
            call(nth)
        spans.append((first, time.perf_counter_ns()))

    of = counter_of if kind == "counter" else queue_of
    threads = [threading.Thread(target=work, args=(of(seat),)) for seat in seats_of(kind, form, n)]
    for thread in threads:
        thread.start()
    for thread in threads:
        thread.join()
    return max(last for _, last in spans) - min(first for first, _ in spans)


kind, form = sys.argv[1:3]
n, calls, rounds = map(int, sys.argv[3:])
for _ in range(rounds):
    print(round_of(kind, form, n, calls))
