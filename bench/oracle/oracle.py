#!/usr/bin/env python3
"""Answers scripts: a second implementation, in Python.

It is written from the algorithm in docs/course.md, line by line, over one dictionary of shared places, and from the
tables of docs/script-language.md, and shares nothing with the code of the library. So it tells what a new case of
`crates/cases/data` has to be answered, without asking the program that the case is to test.
"""
import argparse
import pathlib
import re
import sys

ANCHOR = "anchor"
MOST_LINES, MOST_BYTES, MOST_EVENTS = 100_000, 200, 1_048_576


def queue(state, words):
    """The next state of a queue and its reply; a state is a tuple of numbers, None at the start."""
    numbers = state or ()
    if words[0] == "enq":
        return (numbers, "full") if len(numbers) == 1000 else (numbers + (int(words[1]),), "ok")
    return (numbers[1:], str(numbers[0])) if numbers else (numbers, "empty")


def sticky(state, words):
    """The same of a sticky register; a state is the number that is settled, or None."""
    if words[0] == "stick" and state is None:
        state = int(words[1])
    return state, "unset" if state is None else str(state)


def directory(state, words):
    """The same of a directory; a state is a tuple of pairs of a name and a number, in the order in which names came."""
    pairs = dict(state or ())
    if words[0] == "size":
        return tuple(pairs.items()), str(len(pairs))
    if words[0] == "at":
        numbers = list(pairs.values())
        return tuple(pairs.items()), str(numbers[int(words[1])]) if int(words[1]) < len(numbers) else "none"
    had = pairs.get(words[1])
    if words[0] == "put":
        reply = "new" if had is None else f"was {had}"
        if had is None and len(pairs) == 256:
            reply = "full"
        else:
            pairs[words[1]] = int(words[2])
    else:
        reply = "none" if had is None else str(had)
        if words[0] == "del":
            pairs.pop(words[1], None)
    return tuple(pairs.items()), reply


def book(state, words):
    """The same of a book; a state is a tuple of sixteen balances."""
    balances = list(state or (0,) * 16)
    if words[0] == "total":
        return tuple(balances), str(sum(balances))
    *accounts, amount = map(int, words[1:])
    if words[0] != "deposit":
        if balances[accounts[0]] < amount:
            return tuple(balances), "short"
        balances[accounts[0]] -= amount
    if words[0] != "withdraw":
        if balances[accounts[-1]] + amount > 999_999_999_999:
            return state or (0,) * 16, "over"
        balances[accounts[-1]] += amount
    return tuple(balances), "moved" if words[0] == "move" else str(balances[accounts[0]])


OBJECTS = {"queue": queue, "directory": directory, "book": book, "sticky": sticky}

# The calls of each object, and the commands; a word in capitals is a field.
CALLS = {
    "queue": ["enq V", "deq"],
    "directory": ["put NAME V", "get NAME", "del NAME", "size", "at I"],
    "book": ["deposit A V", "withdraw A V", "move A A V", "total"],
    "sticky": ["stick V", "read"],
}
COMMANDS = ["step P", "step P M", "finish P", "trim", "log", "heads"]
LEAST = {"M": 1}
MOST = {"M": 1000, "A": 15, "I": 255}

# What a world with a flaw does, as the first line says it; where there is no flaw at all the world is told as none.
FLAWS = {
    "nothing": "a plain world that has no flaw",
    "never-helps": "it never helps",
    "helps-blindly": "it helps without looking at the helped number",
    "number-first": "it writes the number before the state is settled",
    "last-wins": "it lets the last proposal win",
    "newest-reply": "it takes the reply from the newest state",
    "trims-pending": "it trims with a call pending",
}


# What a step does with its place, and what that is to its process; those that propose aren't here.
ROLES = {
    "A": ("writes", "its own cell"),
    "H": ("reads", "in its scan"),
    "S": ("reads", "the number of that head"),
    "G": ("writes", "the greatest of the heads"),
    "T": ("reads", "the number of its own cell"),
    "R": ("reads", "whose turn it is"),
    "N": ("reads", "the number of that cell"),
    "B": ("writes", "the way back"),
    "W": ("writes", "the number of that cell"),
    "U": ("writes", "and moves on"),
}


def named(cell):
    """A cell's name."""
    return ANCHOR if cell[0] == ANCHOR else "%d.%d" % cell


def counted(count, word):
    """A number of things."""
    return f"{count} {word}" if count == 1 else f"{count} {word}s"


class World:
    """Processes that share an object. A cell is the anchor, or a pair: a process and the number of its call."""

    def __init__(self, apply, processes, row, flaw="nothing"):
        self.apply, self.processes, self.row, self.flaw = apply, processes, row, flaw
        self.calls = {}  # process -> the generator of its pending call
        self.begun, self.era_began = {}, {}
        self.steps, self.turns, self.most = {}, {}, {}
        self.inv, self.seq, self.after, self.before, self.new = {}, {}, {}, {}, {}
        self.eras, self.events, self.ended, self.returns, self.broken = 0, 0, [], [], []
        self.told = []  # the steps, as `unidraw --steps` tells them, but for their numbers and those that settle a reply
        self.open(None, 1)

    def open(self, state, number):
        """An era begins: the anchor alone, with a state and a number. Cells of earlier eras are out of its list."""
        self.announce, self.head = {}, {}
        self.eras += 1
        self.anchor = (ANCHOR, self.eras)
        self.seq[self.anchor] = number
        self.new[self.anchor] = (state, None)

    def begin(self, p, words):
        """Process p begins a call."""
        self.events += 1
        nth = self.begun.get(p, 0)
        self.begun[p] = nth + 1
        self.steps[p] = self.turns[p] = 0
        self.most[p] = 10 * self.processes + 12
        mine = (p, nth)
        self.inv[mine] = words
        self.told.append(f"P{p}  calls {' '.join(words)}: its cell is {named(mine)}.")
        self.calls[p] = (mine, self.call(p, mine))
        return mine

    def call(self, p, mine):
        """The steps of a call, one at each `yield`: its letter, its place, and what that holds."""
        self.announce[p] = mine
        best, best_seq = self.anchor, 0
        yield "A", f"announce[{p}]", named(mine)
        q = 0
        while True:  # no `range`: with a flaw the number of processes can change meanwhile
            h = self.head.get(q, self.anchor)
            yield "H", f"head[{q}]", named(h)
            number = self.seq.get(h, 0)
            if number > best_seq:
                best, best_seq = h, number
            q += 1
            is_last = q >= self.processes
            yield "S", f"{named(h)}.seq", number
            if is_last:
                break
        self.head[p], c, c_seq = best, best, best_seq
        yield "G", f"head[{p}]", named(best)
        while self.seq.get(mine, 0) == 0:
            self.turns[p] += 1
            yield "T", f"{named(mine)}.seq", 0
            turn = c_seq % self.processes
            helped = self.announce.get(turn, self.anchor)
            yield "R", f"announce[{turn}]", named(helped)
            prefer = self.preferred(mine, helped)
            yield "N", f"{named(helped)}.seq", self.seq.get(helped, 0)
            won = self.after.get(c) is None
            d = self.decide(self.after, c, prefer)
            what = "won." if won else f"{named(d)} is there already: lost."
            yield "L", f"{named(c)}.after", f"proposes {named(prefer)} for {named(c)}.after{':' if won else ';'} {what}"
            yield from self.thread_early(c, c_seq, d) if self.flaw == "number-first" else self.thread(c, c_seq, d)
            self.head[p], c, c_seq = d, d, c_seq + 1
            yield "U", f"head[{p}]", named(d)
        found = self.seq[mine]
        yield "T", f"{named(mine)}.seq", found
        newest = c
        if c_seq < found:
            self.head[p] = newest = mine
        self.give(p, mine, newest if self.flaw == "newest-reply" else mine)
        yield "F", f"head[{p}]", named(self.head[p])

    def preferred(self, mine, helped):
        """The cell that is proposed by a process that could help another one."""
        if self.flaw == "never-helps":
            return mine
        if self.flaw == "helps-blindly" or self.seq.get(helped, 0) == 0:
            return helped
        return mine

    def decide(self, places, key, value):
        """A proposal for a place: the first one stands."""
        if self.flaw == "last-wins":
            places[key] = value
        return places.setdefault(key, value)

    def settle(self, c, d):
        """The state and the reply of d after c; an anchor has a state, and what follows no state has none."""
        if d in self.inv and c in self.new:
            self.decide(self.new, d, self.apply(self.new[c][0], self.inv[d]))

    def thread(self, c, c_seq, d):
        """The steps from the state on to the number."""
        self.settle(c, d)
        yield "V", named(d), None
        self.before[d] = c
        yield "B", f"{named(d)}.before", named(c)
        self.seq[d] = c_seq + 1
        yield "W", f"{named(d)}.seq", self.seq[d]

    def thread_early(self, c, c_seq, d):
        """The same, but the number comes first."""
        self.seq[d] = c_seq + 1
        yield "W", f"{named(d)}.seq", self.seq[d]
        self.settle(c, d)
        yield "V", named(d), None
        self.before[d] = c
        yield "B", f"{named(d)}.before", named(c)

    def give(self, p, mine, cell):
        """A call returns the reply that is settled in a cell."""
        self.reply = self.new[cell][1] if cell in self.new else None
        if self.steps[p] > self.most[p]:
            self.broken.append("call %d.%d has taken %d steps" % (*mine, self.steps[p]))
        if self.reply is None:
            self.broken.append("call %d.%d has returned without a reply" % mine)
        else:
            self.returns.append((mine, self.reply))

    def step(self, p):
        """The next step of p; its reply where that was the last one, `?` where it has none."""
        mine, steps = self.calls[p]
        self.events += 1
        self.steps[p] += 1
        letter, place, text = next(steps)
        if letter in ROLES:
            does, role = ROLES[letter]
            self.told.append(f"P{p}  {letter}  {does} {place}: {text}, {role}.")
        elif letter == "L":
            self.told.append(f"P{p}  L  {text}")
        elif letter == "F":
            spent = f"{counted(self.steps[p], 'step')} and {counted(self.turns[p], 'turn')}"
            self.told.append(f"P{p}  F  returns {self.reply} after {spent}; {place} is {text}.")
            del self.calls[p]
            return self.reply or "?"
        return None

    def chain(self):
        """The linked cells in order, and the one at which the list comes back, if it does."""
        cells, cell = [self.anchor], self.anchor
        while cell in self.after:
            cell = self.after[cell]
            if cell in cells:
                return cells[1:], cell
            cells.append(cell)
        return cells[1:], None

    def entries(self):
        """The entries of the era: number, call, invocation, reply. An anchor that is linked has none."""
        for place, cell in enumerate(self.chain()[0]):
            if cell in self.inv:
                reply = self.new[cell][1] if cell in self.new else None
                yield self.seq[self.anchor] + place + 1, cell, self.inv[cell], reply

    def end_entries(self):
        """The entries of the era are kept, and a circle of its list is noted."""
        self.ended += self.entries()
        circle = self.chain()[1]
        if circle is not None:
            name = "%d.%d" % circle if circle in self.inv else "the anchor"
            self.broken.append(f"the list has a circle at {name}")

    def end_era(self, processes):
        """The list is replaced by its last cell that has a state; the number of that cell."""
        self.end_entries()
        self.events += 1
        number, state = self.seq[self.anchor], self.new[self.anchor][0]
        for place, cell in enumerate(self.chain()[0]):
            if cell in self.new:
                number, state = self.seq[self.anchor] + place + 1, self.new[cell][0]
        self.open(state, number)
        self.processes, self.era_began = processes, dict(self.begun)
        return number


def audit(world):
    """The first fault of the entries, replayed in order, and then of the returns; None where there is none."""
    state, replies, counts = None, {}, {}
    for place, (_, call, inv, reply) in enumerate(world.ended):
        if call[1] != counts.get(call[0], 0):
            return f"audit: entry {place} call"
        counts[call[0]] = call[1] + 1
        state, answer = world.apply(state, inv)
        if reply not in (None, answer):
            return f"audit: entry {place} reply"
        replies[call] = reply
    seen = set()
    for call, reply in world.returns:
        name = "audit: return %d.%d" % call
        if call in seen:
            return f"{name} twice"
        if replies.get(call) is None:
            return f"{name} missing"
        if replies[call] != reply:
            return f"{name} reply"
        seen.add(call)
    return None


def broken(world):
    """What broke: the bound and replies, circles, and what the audit finds; or `end`."""
    for p, (mine, _) in sorted(world.calls.items()):
        if world.steps[p] > world.most[p]:
            world.broken.append("call %d.%d has taken %d steps" % (*mine, world.steps[p]))
    world.end_entries()
    found = audit(world)
    return [*world.broken, *([found] if found else [])] or ["end"]


def take_steps(world, p, most):
    """The answer to at most so many steps of p."""
    mine, reply = world.calls[p][0], None
    for _ in range(most):
        reply = world.step(p)
        if reply is not None:
            break
    counts = f"steps {world.steps[p]} turns {world.turns[p]}"
    name = "%d.%d" % mine
    return f"going {name} {counts}" if reply is None else f"returned {name} {reply} {counts}"


def process_line(world, words):
    """The answer to a command of one process: a call, a step, or a finish."""
    p = int(words[1])
    if p >= world.processes:
        return f"refused process {p}"
    if words[0] == "call":
        if p in world.calls:
            return f"refused busy {p}"
        if world.begun.get(p, 0) - world.era_began.get(p, 0) == world.row:
            return f"refused row {p}"
        return "called %d.%d" % world.begin(p, words[2:])
    if p not in world.calls:
        return f"refused idle {p}"
    if words[0] == "finish":
        return take_steps(world, p, 10 * world.processes + 12)
    return take_steps(world, p, int(words[2]) if len(words) == 3 else 1)


def era_line(world, words):
    """The answer to a trim or a reshape."""
    if words[0] == "reshape" and not 1 <= int(words[1]) <= 64:
        return f"refused count {words[1]}"
    if world.calls and world.flaw != "trims-pending":
        return f"refused pending {min(world.calls)}"
    if words[0] == "trim":
        return f"trimmed {world.end_era(world.processes)}"
    return f"reshaped {words[1]} at {world.end_era(int(words[1]))}"


def log_lines(world):
    """The entries of the era."""
    for number, call, inv, reply in world.entries():
        yield "%d %d.%d %s -> %s" % (number, *call, " ".join(inv), "?" if reply is None else reply)


def reason_of(line):
    """Why a line has a bad byte."""
    byte = next(byte for byte in line if not 32 <= byte <= 126)
    if byte == 13:
        return "a carriage return: the file has Windows line ends"
    return "a tab: between two words there is one space" if byte == 9 else f"byte {byte} isn't from 32 to 126"


class Fault(Exception):
    """The first fault of a script, as its line says it, the answers to the lines before it, and the reason, if it is told."""

    def __init__(self, line, answered, reason=None):
        super().__init__(line)
        self.answered = "".join(f"{answer}\n" for answer in answered)
        self.reason = "" if reason is None else f"{reason}\n"


def is_field(field, word):
    """A word is what a field asks for."""
    if field == "NAME":
        return re.fullmatch("[a-z0-9]{1,16}", word) is not None
    if re.fullmatch("0|[1-9][0-9]{0,11}", word) is None:
        return False
    return LEAST.get(field, 0) <= int(word) <= MOST.get(field, 999_999_999_999)


def has_form(form, words):
    """Words have this form."""
    fields = form.split(" ")
    return len(fields) == len(words) and all(
        is_field(field, word) if field.isupper() else field == word for field, word in zip(fields, words)
    )


def header_of(line):
    """The version, object, number of processes and row of a header; None where the line is none."""
    words = line.split(" ")
    if not has_form("universal V", words[:2]) or len(words) != 5 or words[1] not in ("1", "2"):
        return None
    most = 16 if words[1] == "1" else 64
    if words[2] not in OBJECTS or not has_form("N K", words[3:]):
        return None
    if not (1 <= int(words[3]) <= most and 1 <= int(words[4]) <= 4096):
        return None
    return int(words[1]), words[2], int(words[3]), int(words[4])


def is_command(header, words):
    """Words after this header are a command."""
    if words[0] == "call":
        return len(words) > 2 and is_field("P", words[1]) and any(has_form(form, words[2:]) for form in CALLS[header[1]])
    if words[0] == "reshape":
        return header[0] == 2 and has_form("reshape N", words)
    return any(has_form(form, words) for form in COMMANDS)


def command_lines(world, words):
    """The answers to a command."""
    if words[0] in ("call", "step", "finish"):
        return [process_line(world, words)]
    if words[0] in ("trim", "reshape"):
        return [era_line(world, words)]
    if words[0] == "log":
        return list(log_lines(world))
    heads = (world.seq.get(world.head.get(p, world.anchor), 0) for p in range(world.processes))
    return [" ".join(["heads", *map(str, heads)])]


def lines_of(script):
    """The lines of a script, without their ends."""
    return script.removesuffix(b"\n").split(b"\n") if script else []


def answers(script, flaw="nothing"):
    """The answers to a script, and what broke at its end."""
    world, said = played(script, flaw)
    return "".join(f"{line}\n" for line in [*said, *broken(world)])


def played(script, flaw="nothing"):
    """The world of a script, and the answers to it."""
    header, world, said = None, None, []
    for number, line in enumerate(lines_of(script), 1):
        if number > MOST_LINES:
            raise Fault(f"line {number}: too many lines", said)
        if len(line) > MOST_BYTES:
            raise Fault(f"line {number}: too long", said)
        if not all(32 <= byte <= 126 for byte in line):
            raise Fault(f"line {number}: bad byte", said, reason_of(line))
        text = line.decode()
        if is_note(text):
            continue
        if header is None:
            header = header_of(text)
            if header is None:
                raise Fault(f"line {number}: bad header", said)
            world = World(OBJECTS[header[1]], header[2], header[3], flaw)
        elif is_command(header, text.split(" ")):
            said += command_lines(world, text.split(" "))
        else:
            raise Fault(f"line {number}: bad line", said)
        if world.events > MOST_EVENTS:
            raise Fault(f"line {number}: more events than a history has by default: not answered here", said)
    if world is None:
        raise Fault(f"line {len(lines_of(script)) + 1}: no header", said)
    return world, said


def flawed(script, flaw):
    """The same of a world with a flaw, which is told on the first line."""
    return f"not the proved construction: {FLAWS[flaw]}\n{answers(script, flaw)}"


def is_note(line):
    """An empty line, or one that begins with `#`."""
    return not line or line.startswith("#")


def is_like(pattern, text):
    """The text has the bytes of the pattern, of which the first `..` stands for any bytes."""
    if ".." not in pattern:
        return pattern == text
    prefix, back = pattern.split("..", 1)
    return len(text) >= len(prefix) + len(back) and text.startswith(prefix) and text.endswith(back)


def come_in_order(patterns, lines):
    """A line is like the first pattern, one after it like the second, and so on."""
    rest = iter(lines)
    return all(any(is_like(pattern, line) for line in rest) for pattern in patterns)


def has_step(pattern, steps):
    """A step of the run is like the pattern. The sentence of a step that settles a reply isn't known here."""
    if re.match(r"P[0-9]+  V", pattern):
        raise Fault(f"only the program goal judges: {pattern}", [])
    return any(is_like(pattern, step) for step in steps)


def is_met(line, script, lines, steps):
    """A line of a goal is met by the lines of a script, of its answers, and of its steps."""
    words = line.split(" ")
    if line.startswith("order "):
        return come_in_order(line[len("order ") :].split("|"), lines)
    if line.startswith("P"):
        return has_step(line, steps)
    if line.startswith("no P"):
        return not has_step(line[len("no ") :], steps)
    if line.startswith("script "):
        return any(is_like(line[len("script ") :], said) for said in script)
    if words == ["no", "refusals"]:
        return not any(answer.startswith("refused ") for answer in lines)
    if len(words) == 4 and (words[0], words[1], words[3]) == ("at", "most", "lines"):
        return sum(not is_note(said) for said in script) <= int(words[2])
    if len(words) == 4 and (words[0], words[2]) == ("log", "before"):
        calls = [answer.split(" ")[1] for answer in lines if answer[:1].isdigit()]
        if words[1] not in calls or words[3] not in calls:
            return False
        return calls.index(words[1]) < calls.index(words[3])
    return any(is_like(line, answer) for answer in lines)


def judgement(goal, script):
    """`met`, or the first line of a goal that a script doesn't meet."""
    world, said = played(script)
    lines, script_lines = [*said, *broken(world)], script.decode().splitlines()
    steps = world.told if world.events <= 2000 else []
    for number, line in enumerate((line.rstrip() for line in goal.splitlines()), 1):
        if not is_note(line) and not is_met(line, script_lines, lines, steps):
            return f"line {number} is not met: {line}\n"
    return "met\n"


def told(tell, *said):
    """What is told of a script: the text, or what is answered before its fault, and the fault's line, with the reason."""
    try:
        return tell(*said), ""
    except Fault as fault:
        return fault.answered, f"{fault}\n{fault.reason}"


def pairs_of(script):
    """What is told of a case, beside the files that say it."""
    text = script.read_bytes()
    said, fault = told(answers, text)
    yield said, script.with_suffix(".answers")
    yield fault[: fault.find("\n") + 1], script.with_suffix(".fault")
    flaw, goal = script.with_suffix(".flaw"), script.with_suffix(".goal")
    if flaw.exists():
        yield flawed(text, flaw.read_text().strip()), script.with_suffix(".flawed")
    if goal.exists():
        beside = script.with_suffix(".beside").read_bytes()
        yield judgement(goal.read_text(), beside), script.with_suffix(".missing")
        yield judgement(goal.read_text(), text).removeprefix("met\n"), script.with_suffix(".unmet")


def compare(folders):
    """Compares what the files of folders say with what is told: how many agree, and the names of those that differ."""
    agree, differ = 0, []
    for script in sorted(script for folder in folders for script in pathlib.Path(folder).glob("*.script")):
        if any(script.with_suffix(end).exists() for end in (".words", ".lines", ".status")):
            continue
        for had, wanted in pairs_of(script):
            if had == (wanted.read_text() if wanted.exists() else ""):
                agree += 1
            else:
                differ.append(str(wanted))
    return agree, differ


def words_of(arguments):
    """The command line."""
    words = argparse.ArgumentParser(description="Answers scripts: a second implementation, in Python.")
    options = words.add_mutually_exclusive_group()
    options.add_argument("--flaw", choices=FLAWS, help="answers in a world with a flaw, and tells what broke")
    options.add_argument("--goal", metavar="GOAL", help="tells that each script meets a goal, or the line that isn't met")
    options.add_argument(
        "--compare",
        action="store_true",
        help="takes folders: compares NAME.answers and NAME.fault of NAME.script, NAME.flawed where NAME.flaw names a "
        "flaw, and NAME.missing of NAME.beside where there is NAME.goal, which NAME.script meets; scripts with words, "
        "lines or a status of their own are left out",
    )
    words.add_argument("names", nargs="+", metavar="SCRIPT", help="the scripts, or the folders of --compare")
    return words.parse_args(arguments)


def main(arguments):
    """The status: 0; 1 where a goal isn't met or a case differs; 2 for a fault of a script or of the command line."""
    words, status = words_of(arguments), 0
    if words.compare:
        agree, differ = compare(words.names)
        for name in differ:
            print(f"differs: {name}")
        print(f"{agree} agree, {len(differ)} differ")
        return 1 if differ else 0
    for name in words.names:
        try:
            script = pathlib.Path(name).read_bytes()
            if words.goal:
                said, fault = told(judgement, pathlib.Path(words.goal).read_text(), script)
                said = "" if fault else said
                status = max(status, 0 if said == "met\n" else 1)
            elif words.flaw:
                said, fault = told(flawed, script, words.flaw)
            else:
                said, fault = told(answers, script)
        except OSError as error:
            said, fault = "", f"{name}: {error.strerror}\n"
        sys.stdout.write(said)
        sys.stdout.flush()
        sys.stderr.write(fault)
        status = 2 if fault else status
    return status


if __name__ == "__main__":
    sys.exit(main(sys.argv[1:]))
