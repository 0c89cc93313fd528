"""Programs of several languages add to one counter, at the same time as this one.

python3 languages.py PROGRAM..

Each PROGRAM is a command, which gets a counter's name, its number of seats, and how many times it is to add 1. The status is 1 where
a call is missing.
"""

import os
import shlex
import subprocess
import sys

from universal.shared import SharedCounter

CALLS = 50_000


def main(programs: list[str]) -> bool:
    seats = len(programs) + 1
    name = f"languages.{os.getpid()}"
    with SharedCounter(name, seats=seats, create=True) as counter:
        counter.claim(seats - 1)
        words = [name, str(seats), str(CALLS)]
        running = [subprocess.Popen([*shlex.split(program), *words]) for program in programs]
        mine = 0
        while any(program.poll() is None for program in running):
            counter.add(1)
            mine += 1
        total = counter.add(0)
        told = 0
        for seat in range(seats - 1):  # (one that ended early may have left its seat to another)
            counter.release()
            told += counter.claim(seat).made
    print(f"{len(programs)} programs added {CALLS} times each, and this one {mine}: the sum is {total}")
    ended = all(program.returncode == 0 for program in running)
    return ended and total == mine + CALLS * len(programs) and told == CALLS * len(programs)


if __name__ == "__main__":
    sys.exit(not main(sys.argv[1:]))
