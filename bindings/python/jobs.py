"""A pool of workers that does each job exactly once, whoever is killed. It is the program of docs/processes.md.

python3 jobs.py WORKERS JOBS KILLS
"""

import os
import random
import sys
import time

from multiprocessing import Process

from universal.shared import Full, SharedCounters, SharedQueue


def work(me: int, jobs: SharedQueue, counts: SharedCounters) -> None:
    """Worker number `me`, as the first or after one that died."""
    taken, counted = jobs.claim(me), counts.claim(me)
    last = taken.reply[0] if taken.made else 0  # the last job that was taken; 0 where there was none to take
    if last and counted.invocation[:1] != (last,):  # its effect isn't there yet
        do(last, counts)
    while True:
        job = jobs.take()
        if job is None:
            time.sleep(0.001)
        else:
            do(job, counts)


def do(job: int, counts: SharedCounters) -> None:
    time.sleep(0.001)  # the work, which may be cut off and done again
    counts.add(job, 1)  # its effect, once


def main(workers: int, all_jobs: int, kills: int) -> bool:
    jobs = SharedQueue(f"jobs.{os.getpid()}", 100, seats=workers + 1, create=True)
    counts = SharedCounters(f"counts.{os.getpid()}", all_jobs + 1, seats=workers + 1, create=True)
    with jobs, counts:
        jobs.claim(workers), counts.claim(workers)  # the seats of this process

        def start(me: int) -> Process:
            worker = Process(target=work, args=(me, jobs, counts), daemon=True)
            worker.start()
            return worker

        pool = [start(me) for me in range(workers)]
        put = killed = 0
        while put < all_jobs or killed < kills:
            try:
                while put < all_jobs:
                    jobs.put(put + 1)
                    put += 1
            except Full:
                pass
            time.sleep(random.random() * 0.01)
            if killed < kills:
                me = random.randrange(workers)
                pool[me].kill()
                pool[me].join()
                pool[me] = start(me)
                killed += 1
        limit = time.monotonic() + 30
        while (done := [counts.add(job, 0) for job in range(1, all_jobs + 1)]).count(0) and time.monotonic() < limit:
            time.sleep(0.01)
        for worker in pool:
            worker.kill()
            worker.join()
    print(f"{all_jobs} jobs, {killed} kills: done once {done.count(1)}, never {done.count(0)}, "
          f"more than once {sum(count > 1 for count in done)}")
    return done.count(1) == all_jobs


if __name__ == "__main__":
    sys.exit(not main(*map(int, sys.argv[1:])))
