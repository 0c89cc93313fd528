import java.util.ArrayList;
import java.util.Arrays;
import java.util.List;
import java.util.SplittableRandom;
import fednayup.universal.Fault;
import fednayup.universal.Program;
import fednayup.universal.Program.Label;
import fednayup.universal.Program.Register;
import fednayup.universal.Refused;
import fednayup.universal.Small;

/**
 * Objects by programs: an account, a rate limiter, a leaderboard and a map with compare-and-insert, each beside a function: 100,000
 * calls one by one, and those of four threads, which are made again in the order that they were told: 1,000,000 in all, or as many
 * as the program's argument says.
 */
public final class Programs extends Checks {
    private static final int LIMIT = 1000, CLIENTS = 8, TOKENS = 5, RATE = 2, PAIRS = 8, BEST = 3, REPLY = 8, THREADS = 4;

    private interface Plain {
        void call(long[] state, long[] call, long[] reply);
    }

    private record Made(long[] call, long[] reply) {}

    /** A program whose reply begins with how many calls there were before: the call's place among all calls. */
    private static Program counted(int pairs) {
        Program p = new Program(new long[2 + 2 * pairs], 3, REPLY);
        p.block(() -> {
            Register calls = p.state(0);
            p.answer(0, calls);
            p.store(0, p.add(calls, 1));
        });
        return p;
    }

    /** At most LIMIT: (0, amount) adds, (1, amount) takes; the reply is whether that was done, and the balance. */
    private static Program account() {
        Program p = counted(0);
        Register kind = p.invocation(0), amount = p.invocation(1), balance = p.state(1);
        p.answer(2, balance);
        Register total = p.register(balance);
        p.when(kind.equalTo(1), () -> p.subtractFrom(total, amount, p.end));
        p.when(kind.differs(1), () -> {
            p.addTo(total, amount);
            p.go(total.more(LIMIT), p.end);
        });
        p.store(1, total);
        p.answer(1, Program.number(1));
        p.answer(2, total);
        return p;
    }

    private static void plainAccount(long[] state, long[] call, long[] reply) {
        long balance = state[1], amount = call[1];
        boolean fits = Long.compareUnsigned(amount, call[0] == 1 ? balance : LIMIT - balance) <= 0;
        if (fits) {
            state[1] = call[0] == 1 ? balance - amount : balance + amount;
            reply[1] = 1;
        }
        reply[2] = state[1];
    }

    /** Each of CLIENTS has at most TOKENS tokens, and gets RATE more with each unit of time: (client, now) takes one. */
    private static Program limiter() {
        Program p = counted(CLIENTS);
        Label full = new Label(), fresh = new Label(), none = new Label();
        Register now = p.invocation(1);
        Register place = p.multiply(p.invocation(0), Program.number(2), p.end);
        p.addTo(place, Program.number(1));
        Register next = p.add(place, 1), tokens = p.state(place), last = p.state(next);
        Register elapsed = p.subtract(now, last, fresh);
        p.store(next, now);
        Register more = p.add(tokens, p.multiply(elapsed, Program.number(RATE), full), full);
        p.set(tokens, more);
        p.go(more.atMost(TOKENS), fresh);
        p.here(full);
        p.set(tokens, Program.number(TOKENS));
        p.here(fresh);
        p.subtractFrom(tokens, Program.number(1), none);
        p.answer(1, Program.number(1));
        p.here(none);
        p.store(place, tokens);
        return p;
    }

    private static void plainLimiter(long[] state, long[] call, long[] reply) {
        if (Long.compareUnsigned(call[0], CLIENTS) >= 0) {
            return;
        }
        int place = 1 + 2 * (int) call[0];
        if (Long.compareUnsigned(call[1], state[place + 1]) >= 0) {
            long elapsed = call[1] - state[place + 1];
            boolean isFull = Long.compareUnsigned(elapsed, TOKENS) >= 0 || state[place] + elapsed * RATE > TOKENS;
            state[place] = isFull ? TOKENS : state[place] + elapsed * RATE;
            state[place + 1] = call[1];
        }
        if (state[place] > 0) {
            state[place]--;
            reply[1] = 1;
        }
    }

    /** The place of a key's pair; at `absent`, of a new one. Word 1 is how many pairs there are, and then they come. */
    private static Register find(Program p, Register key, Label absent) {
        Register place = p.register(Program.number(2)), end = p.state(1);
        p.addTo(end, end);
        p.addTo(end, Program.number(2));
        p.repeat(PAIRS + 1, found -> {
            p.go(place.equalTo(end), absent);
            p.go(p.state(place).equalTo(key), found);
            p.addTo(place, Program.number(2));
        });
        return place;
    }

    /** A new pair at this place; where there is no room for it, the call ends. */
    private static void append(Program p, Register key, Register place) {
        p.block(() -> {
            p.store(place, key);
            p.store(1, p.add(p.state(1), 1));
        });
    }

    /** (0, player, points) adds points, and is answered the sum; each other call the BEST best players with their points. */
    private static Program leaderboard() {
        Program p = counted(PAIRS);
        Label absent = new Label(), tell = new Label();
        p.when(p.invocation(0).differs(0), () -> {
            for (int word = 2; word < 2 + 2 * BEST; word++) {
                int at = word;
                p.block(() -> p.answer(at, p.state(at)));
            }
            p.go(p.end);
        });
        Register player = p.invocation(1), points = p.invocation(2), place = find(p, player, absent);
        p.block(() -> p.addTo(points, p.state(p.add(place, 1))));
        p.go(tell);
        p.here(absent);
        append(p, player, place);
        p.here(tell);
        p.block(() -> p.store(p.add(place, 1), points));
        p.answer(1, points);
        p.repeat(PAIRS, sorted -> {
            p.go(place.equalTo(2), sorted);
            Register before = p.subtract(place, Program.number(2), p.end), prior = p.add(before, 1), next = p.add(place, 1);
            Register other = p.state(before), above = p.state(prior);
            p.go(points.atMost(above), sorted);
            p.store(place, other);
            p.store(next, above);
            p.store(before, player);
            p.store(prior, points);
            p.set(place, before);
        });
        return p;
    }

    private static int plainFind(long[] state, long key) {
        int end = 2 + 2 * (int) state[1];
        int place = 2;
        while (place < end && state[place] != key) {
            place += 2;
        }
        return place;
    }

    private static void plainLeaderboard(long[] state, long[] call, long[] reply) {
        if (call[0] != 0) {
            System.arraycopy(state, 2, reply, 2, 2 * BEST);
            return;
        }
        int place = plainFind(state, call[1]);
        if (place == state.length) {
            return;
        }
        boolean isNew = place == 2 + 2 * state[1];
        long before = isNew ? 0 : state[place + 1], points = before + call[2];
        if (Long.compareUnsigned(points, before) < 0) {
            return;
        }
        state[1] += isNew ? 1 : 0;
        for (; place > 2 && Long.compareUnsigned(state[place - 1], points) < 0; place -= 2) {
            state[place] = state[place - 2];
            state[place + 1] = state[place - 1];
        }
        state[place] = call[1];
        state[place + 1] = points;
        reply[1] = points;
    }

    /** (key, expected, value) writes the value where the key has the expected one, 0 for none: whether, and the one before. */
    private static Program compareInsert() {
        Program p = counted(PAIRS);
        Label absent = new Label(), write = new Label();
        Register key = p.invocation(0), expected = p.invocation(1), value = p.invocation(2), place = find(p, key, absent);
        p.block(() -> {
            Register before = p.state(p.add(place, 1));
            p.answer(2, before);
            p.go(before.differs(expected), p.end);
        });
        p.go(write);
        p.here(absent);
        p.go(expected.differs(0), p.end);
        append(p, key, place);
        p.here(write);
        p.store(p.add(place, 1), value);
        p.answer(1, Program.number(1));
        return p;
    }

    private static void plainCompareInsert(long[] state, long[] call, long[] reply) {
        int place = plainFind(state, call[0]);
        boolean isNew = place == 2 + 2 * state[1];
        reply[2] = isNew ? 0 : state[place + 1];
        if (reply[2] == call[1] && place < state.length) {
            state[1] += isNew ? 1 : 0;
            state[place] = call[0];
            state[place + 1] = call[2];
            reply[1] = 1;
        }
    }

    /** A call that reaches each branch: small numbers, and now and then one of all 64 bits. */
    private static long[] drawn(SplittableRandom random, long time) {
        long[] call = new long[3];
        for (int k = 0; k < 3; k++) {
            call[k] = random.nextInt(1000) == 0 ? random.nextLong() : random.nextInt(k == 0 ? 10 : 4);
        }
        if (random.nextInt(4) == 0) {
            call[1] = time;
        }
        return call;
    }

    private static void again(Plain plain, long[] state, Made made) {
        long[] reply = new long[REPLY];
        reply[0] = state[0]++;
        plain.call(state, made.call(), reply);
        if (!Arrays.equals(made.reply(), reply)) {
            is(Arrays.toString(made.reply()), Arrays.toString(reply));
        }
    }

    private static List<Made> made(Small.Own seat, int count, long seed) throws Refused {
        SplittableRandom random = new SplittableRandom(seed);
        List<Made> made = new ArrayList<>();
        for (int k = 0; k < count; k++) {
            long[] call = drawn(random, k / 16);
            made.add(new Made(call, seat.call(call)));
        }
        return made;
    }

    private static Small.Own only(Small<Small.Own> object) throws Refused {
        try (object) {
            return object.seat();
        }
    }

    private static void agree(Program program, int pairs, Plain plain, int each) throws Exception {
        long[] state = new long[2 + 2 * pairs];
        try (Small.Own seat = only(program.open(1))) {
            for (Made call : made(seat, 100_000, 7)) {
                again(plain, state, call);
            }
            is(Arrays.toString(seat.finish()), Arrays.toString(state));
        }
        List<Made> all = new ArrayList<>();
        try (Small<Small.Own> object = program.open(THREADS)) {
            List<Thread> threads = new ArrayList<>();
            for (Small.Own seat : object.seats()) {
                threads.add(Thread.ofPlatform().start(() -> {
                    try (seat) {
                        List<Made> own = made(seat, each, seat.process);
                        synchronized (all) {
                            all.addAll(own);
                        }
                    } catch (Refused refused) {
                        throw new AssertionError(refused);
                    }
                }));
            }
            for (Thread thread : threads) {
                thread.join();
            }
            is(all.size(), THREADS * each);
            all.sort((a, b) -> Long.compare(a.reply()[0], b.reply()[0]));
            state = new long[2 + 2 * pairs];
            for (Made call : all) {
                again(plain, state, call);
            }
            is(Arrays.toString(object.finish()), Arrays.toString(state));
        }
    }

    private interface Writes {
        void on(Program p);
    }

    private static void wrong(Fault fault, long place, Writes writes) throws Exception {
        Program p = new Program(new long[1], 1, 1);
        p.register(Program.number(5));
        writes.on(p);
        try {
            p.open(1);
        } catch (Program.Bad bad) {
            is(bad.fault, fault);
            is(bad.place, place);
            return;
        }
        throw new AssertionError("not refused: " + fault);
    }

    public static void main(String[] words) throws Exception {
        int each = (words.length == 0 ? 1_000_000 : Integer.parseInt(words[0])) / THREADS;
        agree(account(), 0, Programs::plainAccount, each);
        agree(limiter(), CLIENTS, Programs::plainLimiter, each);
        agree(leaderboard(), PAIRS, Programs::plainLeaderboard, each);
        agree(compareInsert(), PAIRS, Programs::plainCompareInsert, each);
        wrong(Fault.NO_PLACE, 1, p -> p.state(1));
        wrong(Fault.JUMPS_BACK, 1, p -> {
            Label before = new Label();
            p.here(before);
            p.go(before);
        });
        wrong(Fault.NO_TARGET, 1, p -> p.go(new Label()));
        wrong(Fault.NO_LOOP, 17, p -> {
            for (int k = 0; k < 17; k++) {
                p.repeat(1, past -> {});
            }
        });
        wrong(Fault.TOO_LONG, -1, p -> p.repeat(1L << 33, past -> {}));
        refuses(Fault.BAD_CAPACITY, () -> new Program(new long[0], 0, 0).open(1));
        refuses(Fault.BAD_COUNT, () -> new Program(new long[0], 0, 1).open(65));
        try (Small.Own seat = only(new Program(new long[0], 1, 1).open(1))) {
            refuses(Fault.BAD_WIDTH, () -> seat.call(1, 2));
        }
        System.out.println("four programs agree with their functions, in " + THREADS * each + " calls of " + THREADS + " threads each");
    }
}
