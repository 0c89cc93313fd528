#!/usr/bin/env python3
"""Judges histories of `unidraw --history`: whether the calls and replies of each are those of one object that does
each call at once, in an order that keeps real time.

It is the search of Wing and Gong (Testing and verification of concurrent objects, 1993), which remembers what it has
tried, as Lowe's does (Testing for linearizability, 2017). It shares nothing with the library: what a queue and a sticky
register answer is written in bench/oracle/oracle.py. Histories of other objects are left out.

    judge.py HISTORY...    first judges histories whose verdict is known; then each of these, which has to be
                           linearizable; and then each again with one reply changed, for each reply, which must not be
"""
import json
import pathlib
import sys

sys.dont_write_bytecode = True
sys.path.insert(0, str(pathlib.Path(__file__).resolve().parent.parent / "oracle"))
from oracle import OBJECTS

# A reply that no object gives.
FOREIGN = "1000001"

# Histories of a queue, each with its verdict: lines `process invocation` and `process -> reply`.
KNOWN = [
    (True, ["0 enq 1", "0 -> ok", "1 deq", "1 -> 1"]),
    (False, ["0 enq 1", "0 -> ok", "1 deq", "1 -> empty"]),
    # Calls that overlap take effect in either order; one that has returned comes first.
    (True, ["0 enq 1", "1 enq 2", "0 -> ok", "1 -> ok", "0 deq", "0 -> 2"]),
    (False, ["0 enq 1", "0 -> ok", "1 enq 2", "1 -> ok", "0 deq", "0 -> 2"]),
    # A call that hasn't returned may have taken effect, or not.
    (True, ["0 enq 1", "1 deq", "1 -> 1"]),
    (True, ["0 enq 1", "1 deq", "1 -> empty"]),
    # Each process alone sees what a queue would answer, and both together do not.
    (False, ["0 enq 1", "0 -> ok", "1 enq 2", "1 -> ok", "1 deq", "1 -> 2", "0 deq", "0 -> 1"]),
    (False, ["0 enq 1", "1 deq", "1 -> 1", "0 -> ok", "1 deq", "1 -> 1"]),
]


class Call:
    """A call: when it began, its words, and when it returned with which reply, if it has."""

    def __init__(self, began, words):
        self.began, self.words = began, words
        self.returned, self.reply = float("inf"), None


def calls_of(lines):
    """The calls of a history, in the order in which they began."""
    calls = {}
    for place, line in enumerate(lines):
        if line["type"] == "invoke":
            calls[line["call"]] = Call(place, line["words"].split())
        elif line["type"] == "ok":
            call = calls[line["call"]]
            assert call.reply is None, f"{line['call']} returns twice"
            call.returned, call.reply = place, line["reply"]
        else:
            raise ValueError(f"a line of the type {line['type']}")
    return list(calls.values())


def is_linearizable(calls, answer):
    """Whether some order of the calls gives their replies and keeps real time; one without a reply may be left out."""
    returned = sum(1 << place for place, call in enumerate(calls) if call.reply is not None)
    tried, left = set(), [(0, None)]
    while left:
        done, state = left.pop()
        if done & returned == returned:
            return True
        if (done, state) in tried:
            continue
        tried.add((done, state))
        open_calls = [(place, call) for place, call in enumerate(calls) if not done >> place & 1]
        first = min(call.returned for _, call in open_calls)
        for place, call in open_calls:
            if call.began < first:
                after, reply = answer(state, call.words)
                if call.reply is None or call.reply == reply:
                    left.append((done | 1 << place, after))
    return False


def judge_known():
    """Judges the histories whose verdict is known."""
    for verdict, lines in KNOWN:
        history, counts = [], {}
        for line in lines:
            process, rest = line.split(" ", 1)
            if rest.startswith("-> "):
                history.append({"type": "ok", "call": f"{process}.{counts[process]}", "reply": rest[3:]})
            else:
                counts[process] = counts.get(process, 0) + 1
                history.append({"type": "invoke", "call": f"{process}.{counts[process]}", "words": rest})
        assert is_linearizable(calls_of(history), OBJECTS["queue"]) == verdict, lines


def judge(path):
    """Judges a history, and each that has one other reply; the answer is a line on it, and whether all is well."""
    run, *lines = [json.loads(line) for line in pathlib.Path(path).read_text().splitlines()]
    name = pathlib.Path(path).stem
    if run["object"] not in OBJECTS:
        return f"{name}: left out, a {run['object']}", True
    answer, calls = OBJECTS[run["object"]], calls_of(lines)
    if not is_linearizable(calls, answer):
        return f"{name}: NOT linearizable", False
    changed = passed = 0
    for place, line in enumerate(lines):
        if line["type"] == "ok":
            changed += 1
            other = lines[:place] + [{**line, "reply": FOREIGN}] + lines[place + 1 :]
            passed += is_linearizable(calls_of(other), answer)
    pending = sum(call.reply is None for call in calls)
    told = f"calls {len(calls)}, without a reply {pending}; replies changed {changed}, still linearizable {passed}"
    return f"{name}: linearizable; {told}", passed == 0


def main(paths):
    judge_known()
    verdicts = [judge(path) for path in paths]
    for told, _ in verdicts:
        print(told)
    bad = sum(not well for _, well in verdicts)
    print(f"{len(KNOWN)} known histories judged as they must be; {len(verdicts)} read, {bad} bad")
    return 1 if bad else 0


if __name__ == "__main__":
    sys.exit(main(sys.argv[1:]))
