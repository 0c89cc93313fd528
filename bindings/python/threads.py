"""Threads that count, that agree on a value, and that run a machine by its tables."""

from collections.abc import Callable

from universal import Entry, Log, Seat, in_threads

THREADS, CALLS = 4, 1000


def shared(log: Log, inv_of: Callable[[int, int], int]) -> list[Entry]:
    """Each seat in a thread of its own; then all calls in their order."""
    with log:
        seats = log.seats()

    def work(seat: Seat) -> None:
        for i in range(CALLS):
            seat.apply(inv_of(seat.process, i))

    return in_threads(seats, work)


calls = shared(Log.tally(THREADS, CALLS), lambda process, i: process + 1)
print(f"count: {len(calls)} calls, sum {sum(call.inv for call in calls)}")

calls = shared(Log.sticky(THREADS, CALLS), lambda process, i: process + 1)
print(f"agree: one value {str(all(call.reply == calls[0].inv for call in calls)).lower()}")

# A turnstile of two states, locked and unlocked: a coin (0) unlocks it, and a push (1) locks it. The reply is 1 to a
# push that passes.
calls = shared(Log.machine(THREADS, CALLS, [[1, 0], [1, 0]], [[0, 0], [0, 1]]), lambda process, i: process % 2)
unlocked, told = False, True
for call in calls:
    told = told and call.reply == int(unlocked and call.inv == 1)
    unlocked = call.inv == 0
print(f"machine: {len(calls)} calls, as its tables say {str(told).lower()}")
