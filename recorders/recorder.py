"""Records what threads do with an object, as lines that `unicheck` reads: NAME CALL -> REPLY BEGIN END.

A number is drawn from one counter, under a lock, before a call begins, and another after it has returned, so calls that the
lines put one after the other were made so. Each thread has a log of its own, and the logs are printed after the join.
"""

import sys
import threading

_lock = threading.Lock()
_number = 0


def _drawn():
    global _number
    with _lock:
        _number += 1
        return _number


class Log:
    """The part of one thread, whose name is 1 to 20 letters and digits."""

    def __init__(self, name):
        self.name, self.calls = name, []

    def call(self, words, body):
        """Makes a call whose body returns the reply, as log.call("deq", lambda: queue.take()), and returns that."""
        made = [words, None, _drawn(), None]
        self.calls.append(made)
        reply = body()
        made[3] = _drawn()
        made[1] = reply
        return reply

    def print(self, out=sys.stdout):
        for words, reply, begin, end in self.calls:
            told = f"? {begin}" if end is None else f"{reply} {begin} {end}"
            print(f"{self.name} {words} -> {told}", file=out)
