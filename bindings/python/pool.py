"""More threads than seats: a pool lends each seat to one thread at a time. It is the program of docs/bindings.md.

    python3 pool.py [THREADS]

A thousand short-lived threads, or so many, add to a counter of four seats. The status is 1 where the sum isn't theirs.
"""

import contextlib
import queue
import sys
import threading
from collections.abc import Iterator

from universal.small import Counter


class Pool:
    def __init__(self, seats: list[Counter]) -> None:
        self.seats: queue.SimpleQueue[Counter] = queue.SimpleQueue()
        for seat in seats:
            self.seats.put(seat)

    @contextlib.contextmanager
    def seat(self) -> Iterator[Counter]:
        seat = self.seats.get()  # waits while all are lent
        try:
            yield seat
        finally:
            self.seats.put(seat)


def main(threads: int) -> int:
    with Counter.open(4) as counter:
        seats = counter.seats()
    pool = Pool(seats)

    def work() -> None:
        with pool.seat() as seat:
            seat.add(5)

    running = [threading.Thread(target=work) for _ in range(threads)]
    for thread in running:
        thread.start()
    for thread in running:
        thread.join()
    for seat in seats[1:]:
        seat.close()
    total = seats[0].finish()
    print(f"{threads} threads, {len(seats)} seats: {total}")
    return 0 if total == 5 * threads else 1


if __name__ == "__main__":
    raise SystemExit(main(int(sys.argv[1]) if len(sys.argv) > 1 else 1000))
