"""A queue under a lock, which four threads share: right."""

import collections
import pathlib
import sys
import threading

sys.dont_write_bytecode = True
sys.path.insert(0, str(pathlib.Path(__file__).resolve().parent.parent))
from recorder import Log

lock = threading.Lock()
queue = collections.deque()
logs = [Log(f"T{i}") for i in range(4)]


def enq(number):
    with lock:
        queue.append(number)
        return "ok"


def deq():
    with lock:
        return queue.popleft() if queue else "empty"


def work(log, first):
    for call in range(2000):
        if call % 2 == 0:
            log.call(f"enq {first + call}", lambda: enq(first + call))
        else:
            log.call("deq", deq)


threads = [threading.Thread(target=work, args=(logs[i], 2000 * i)) for i in range(4)]
for thread in threads:
    thread.start()
for thread in threads:
    thread.join()
for log in logs:
    log.print()
