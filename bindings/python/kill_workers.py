"""A killer among the workers of `multiprocessing`, which share an object: each answer is accounted for.

    python3 kill_workers.py counter|register|queue|map|program fork|spawn KILLS [again]
    python3 kill_workers.py value fork KILLS

A worker writes down, in memory that outlives it too, what it was answered; who comes after it goes on from there. `program` is a
counter with a limit, by a program of one's own. With `again` a worker makes a call again that its forerunner's seat had made:
that has to be seen as wrong. `value` is a `multiprocessing.Value` with its lock, for comparison. The status is 1 where something
is wrong.

Most kills come once at least three workers make calls, and one in eight whatever they do, also as they start. With `-S` spawned
workers start sooner.
"""

import mmap
import multiprocessing
import os
import sys
import time
from collections import Counter
from collections.abc import Sequence
from ctypes import c_uint64
from multiprocessing.process import BaseProcess
from typing import Any

from universal.program import Program
from universal.shared import SharedCounter, SharedMap, SharedProgram, SharedQueue, SharedRegister

WORKERS, BUSY, CAPACITY, KEYS = 8, 3, 24, 8


class Diary:
    """What the workers write down, in a file that each of them maps: of so many calls of each."""

    def __init__(self, path: str, room: int) -> None:
        self.path, self.room = path, room
        size = 4 * WORKERS * room
        with open(path, "r+b") as file:
            file.truncate(24 * WORKERS + 2 * size)
            memory = memoryview(mmap.mmap(file.fileno(), 0))
        words = memory[: 24 * WORKERS].cast("Q")
        self.recorded, self.ended, self.wrong = (words[k * WORKERS : (k + 1) * WORKERS] for k in range(3))
        # of a number: the call that has put it in, or was answered it
        self.put_in, self.answered = memory[24 * WORKERS : -size].cast("I"), memory[-size:].cast("I")

    def __reduce__(self) -> tuple[object, ...]:
        return Diary, (self.path, self.room)


def draw(p: int, c: int) -> int:
    x = (c * 6364136223846793005 + p * 1442695040888963407 + 88172645463325252) % (1 << 64)
    return (x ^ x >> 29) >> 32


def counter_with_limit() -> Program:
    """A call adds its word where the sum is at most 2^40, and is answered the sum before."""
    p = Program([0], invocation=1, reply=1)
    before = p.state[0]
    p.reply[0] = before
    total = before + p.invocation[0]
    with p.when(total <= 1 << 40):
        p.state[0] = total
    return p


def words_of(kind: str, p: int, c: int, room: int) -> tuple[int, ...]:
    """What call c of a worker is; its number is told by no other call."""
    number = p * room + c + 1
    if kind == "register":
        return 1, number, 0
    if kind == "queue":
        return (number if draw(p, c) % 2 else 0,)
    if kind == "map":
        return 1, draw(p, c) % KEYS, number
    return (1,)


def account(diary: Diary, kind: str, p: int, c: int, words: Sequence[int], reply: Sequence[int]) -> None:
    call = c * WORKERS + p + 1

    def meet(numbers: memoryview, number: int) -> None:
        if numbers[number] not in (0, call):
            diary.wrong[p] += 1
        numbers[number] = call

    if kind == "queue":
        if words[0] and reply[0]:
            meet(diary.put_in, words[0])
        if not words[0] and reply[0]:
            meet(diary.answered, reply[0])
    elif kind in ("register", "map"):
        meet(diary.put_in, words[1 if kind == "register" else 2])
        before = reply[0] if kind == "register" else reply[1]
        if before:
            meet(diary.answered, before)
    else:
        meet(diary.answered, reply[0])


def go_on(shared: Any, diary: Diary, kind: str, p: int, makes_again: bool) -> int:
    """Claims a worker's seat, and counts a call that was made and isn't counted: how many are."""
    last, c = shared.claim(p), diary.recorded[p]
    diary.ended[p] += last.ended
    if last.made == c + 1 and not makes_again:
        if last.invocation != words_of(kind, p, c, diary.room):
            diary.wrong[p] += 1
        account(diary, kind, p, c, last.invocation, last.reply)
        diary.recorded[p] = c = c + 1
    elif last.made != c and not makes_again:
        diary.wrong[p] += 1
    return c


def work(shared: Any, diary: Diary, kind: str, p: int, makes_again: bool) -> None:
    c = go_on(shared, diary, kind, p, makes_again)
    while c < diary.room - 1:
        words = words_of(kind, p, c, diary.room)
        account(diary, kind, p, c, words, shared._apply(*words))
        diary.recorded[p] = c = c + 1
    time.sleep(3600)


def left(shared: Any, kind: str, diary: Diary) -> bool:
    """Takes out what is left, and whether the state fits all answers."""
    calls = sum(diary.recorded)
    if kind in ("counter", "program"):
        total = shared._apply(0)[0]
        missing = sum(not met for met in diary.answered[:total])
        print(f"{kind}: {calls} answers, the sum is {total}; sums that nobody was answered: {missing}")
        return bool(total == calls and missing == 0)
    if kind == "register":
        values: list[int] = [shared.write(0)]
    elif kind == "map":
        values = [shared.remove(key) for key in range(KEYS)]
    else:
        values = list(iter(shared.take, None))
    fits = True
    for value in filter(None, values):
        fits &= diary.answered[value] == 0
        diary.answered[value] = (1 << 32) - 1
    met: Counter[tuple[bool, bool]] = Counter()
    for p, recorded in enumerate(diary.recorded):
        numbers = slice(p * diary.room + 1, p * diary.room + recorded + 2)
        met.update(zip(map(bool, diary.put_in[numbers]), map(bool, diary.answered[numbers])))
    both, lost, unknown = met[True, True], met[True, False], met[False, True]
    print(f"{kind}: {calls} answers; {both + lost} went in, {both + unknown} came out; lost {lost}, not known to have gone in "
          f"{unknown}")
    return fits and lost == 0 and unknown == 0


def opened(kind: str, name: str) -> Any:
    if kind == "counter":
        return SharedCounter(name, seats=WORKERS + 1, create=True)
    if kind == "register":
        return SharedRegister(name, seats=WORKERS + 1, create=True)
    if kind == "program":
        return SharedProgram(name, counter_with_limit(), seats=WORKERS + 1, create=True)
    made: Any = {"queue": SharedQueue, "map": SharedMap}[kind]
    return made(name, CAPACITY, seats=WORKERS + 1, create=True)


class Pool:
    """The workers, and their killer."""

    def __init__(self, method: str, shared: Any, diary: Diary, kind: str, makes_again: bool) -> None:
        self.context: Any = multiprocessing.get_context(method)
        self.shared, self.diary, self.kind, self.makes_again = shared, diary, kind, makes_again
        self.begun = [0] * WORKERS  # how many calls each seat had made as its worker was begun
        self.workers = [self.start(p) for p in range(WORKERS)]

    def start(self, p: int) -> BaseProcess:
        self.begun[p] = self.diary.recorded[p]
        worker: BaseProcess = self.context.Process(
            target=work, args=(self.shared, self.diary, self.kind, p, self.makes_again), daemon=True
        )
        worker.start()
        return worker

    def making_calls(self, least: int, seconds: float) -> list[int]:
        """Who makes calls, once so many do, or after so long."""
        limit = time.monotonic() + seconds
        while True:
            calling = [p for p in range(WORKERS) if self.diary.recorded[p] != self.begun[p]]
            if len(calling) >= least or time.monotonic() > limit:
                return calling
            time.sleep(0.001)

    def kill(self, p: int) -> None:
        self.workers[p].kill()
        self.workers[p].join()

    def kill_one(self) -> bool:
        """Kills a worker, and begins another one with its number: whether it made calls."""
        calling = self.making_calls(BUSY, 5) if random.randrange(8) else []
        time.sleep(random.random() * 0.003)
        p = random.choice(calling or range(WORKERS))
        made_calls = bool(self.diary.recorded[p] != self.begun[p])
        self.kill(p)
        self.workers[p] = self.start(p)
        return made_calls

    def end(self) -> int:
        """Kills all, and counts their last calls: how many made none within a minute, and had some left to make."""
        self.begun[:] = self.diary.recorded
        calling = self.making_calls(WORKERS, 60)
        still = sum(p not in calling and self.begun[p] < self.diary.room - 1 for p in range(WORKERS))
        for p in range(WORKERS):
            self.kill(p)
        for p in range(WORKERS):
            go_on(self.shared, self.diary, self.kind, p, self.makes_again)
            self.shared.release()
        return still


def main(kind: str, method: str, kills: int, makes_again: bool) -> bool:
    began = time.monotonic()
    with tempfile.NamedTemporaryFile(dir="/dev/shm") as file, opened(kind, f"kill.{os.getpid()}") as shared:
        diary = Diary(file.name, (1 << 18) + 2000 * kills)
        pool = Pool(method, shared, diary, kind, makes_again)
        met = sum(pool.kill_one() for _ in range(kills))
        still = pool.end()
        fits = left(shared, kind, diary)
    wrong, full = sum(diary.wrong), sum(c == diary.room - 1 for c in diary.recorded)
    print(f"{method}: {kills} kills in {time.monotonic() - began:.0f} s, {met} of them amid calls; a call was ended "
          f"{sum(diary.ended)} times; workers that stood still {still}, that had made all calls {full}; wrong {wrong}")
    return fits and wrong == 0 and still == 0


def add_with_lock(value: Any, told: Any, p: int) -> None:
    while True:
        with value.get_lock():
            value.value += 1
        told[p] += 1


def with_value(method: str, kills: int) -> bool:
    context: Any = multiprocessing.get_context(method)
    value, told = context.Value(c_uint64, 0), context.RawArray(c_uint64, WORKERS)

    def start(p: int) -> BaseProcess:
        worker: BaseProcess = context.Process(target=add_with_lock, args=(value, told, p), daemon=True)
        worker.start()
        return worker

    workers = [start(p) for p in range(WORKERS)]
    seen = f"went on after {kills} kills"
    for kill in range(kills):
        time.sleep(random.random() * 0.005)
        p = random.randrange(WORKERS)
        workers[p].kill()
        workers[p].join()
        workers[p] = start(p)
        if kill % 10 == 9:
            before = sum(told)
            time.sleep(3)
            if sum(told) == before:
                seen = f"ALL {WORKERS} workers stood still for good, seen after {kill + 1} kills"
                break
    print(f"multiprocessing.Value with its lock, {method}: {seen}")
    for worker in workers:
        worker.kill()
        worker.join()
    return True


if __name__ == "__main__":
    import random  # a spawned worker, which runs the rest of this file, needs neither
    import tempfile

    words = sys.argv[1:]
    if words[0] == "value":
        sys.exit(not with_value(words[1], int(words[2])))
    sys.exit(not main(words[0], words[1], int(words[2]), "again" in words))
