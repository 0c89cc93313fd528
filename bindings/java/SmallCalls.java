import java.util.Arrays;
import java.util.List;
import java.util.Optional;
import java.util.OptionalLong;
import java.util.concurrent.ExecutionException;
import java.util.concurrent.atomic.AtomicInteger;
import java.util.concurrent.atomic.AtomicLongArray;
import fednayup.universal.Fault;
import fednayup.universal.Program;
import fednayup.universal.Refused;
import fednayup.universal.Small;

/** Small objects: each call on its happy path, each refusal, and threads, whose order is legal by replies and versions. */
public final class SmallCalls extends Checks {
    private static <S extends Small.Seat> S only(Small<S> object) throws Refused {
        try (object) {
            return object.seat();
        }
    }

    private static void state(long[] found, long... wanted) {
        is(Arrays.toString(found), Arrays.toString(wanted));
    }

    private static void objects() throws Exception {
        Small.Counter counter = only(Small.Counter.open(1));
        is(List.of(counter.add(5), counter.add(-1), counter.add(0)), List.of(0L, 5L, 4L));
        state(counter.finish(), 4);
        Small.Register register = only(Small.Register.open(1));
        is(List.of(register.write(-1), register.compareExchange(3, 9), register.compareExchange(-1, 9), register.read()), List.of(0L, -1L, -1L, 9L));
        state(register.finish(), 9);
        Small.Counters counters = only(Small.Counters.open(1, 3));
        is(List.of(counters.add(2, 8), counters.add(2, 1)), List.of(0L, 8L));
        throwsA(IndexOutOfBoundsException.class, () -> counters.add(-1, 1));
        throwsA(IndexOutOfBoundsException.class, () -> counters.add(3, 1));
        state(counters.finish(), 0, 0, 9);
        Small.Queue queue = only(Small.Queue.open(1, 2));
        is(List.of(queue.take(), queue.put(8), queue.put(9), queue.put(7), queue.take()), List.of(0L, true, true, false, 8L));
        state(queue.finish(), 1, 1, 0, 9);
        Small.Stack stack = only(Small.Stack.open(1, 2));
        is(List.of(stack.pop(), stack.push(8), stack.push(9), stack.push(7), stack.pop()), List.of(0L, true, true, false, 9L));
        state(stack.finish(), 1, 8, 0);
        Small.Map map = only(Small.Map.open(1, 2));
        is(List.of(map.insert(7, 70), map.insert(7, 71), map.insert(0, 5)), List.of(OptionalLong.empty(), OptionalLong.of(70), OptionalLong.empty()));
        refuses(Fault.NO_ROOM, () -> map.insert(9, 90));
        is(List.of(map.get(9), map.get(0), map.remove(7)), List.of(OptionalLong.empty(), OptionalLong.of(5), OptionalLong.of(71)));
        state(map.finish(), 1, 0, 5, 0, 0);
        Small.Book book = only(Small.Book.open(1));
        is(book.deposit(3, 10), 10L);
        refuses(Fault.OVER, () -> book.deposit(3, 999_999_999_999L));
        refuses(Fault.SHORT, () -> book.withdraw(3, 11));
        book.transfer(3, 15, 4);
        is(List.of(book.withdraw(3, 1), book.total()), List.of(5L, 9L));
        state(book.finish(), 0, 0, 0, 5, 0, 0, 0, 0, 0, 0, 0, 0, 0, 0, 0, 4);
    }

    /** A switch: 0 asks, and each other invocation turns it over. */
    private static void machine() throws Exception {
        int[][] next = {{0, 1}, {1, 0}}, reply = {{0, 0}, {1, 1}};
        Small.Machine machine = only(Small.Machine.open(1, next, reply));
        is(List.of(machine.call(0), machine.call(1), machine.call(0), machine.call(-1), machine.call(1)),
                List.of(0L, 0L, 1L, 1L, 0L));
        state(machine.finish(), 1);
        refuses(Fault.BAD_TABLE, () -> Small.Machine.open(0, new int[][] {}, new int[][] {}));
        refuses(Fault.BAD_TABLE, () -> Small.Machine.open(0, new int[][] {{0, 1}, {1, 2}}, reply));
        refuses(Fault.BAD_TABLE, () -> Small.Machine.open(0, next, new int[][] {{0, 0}, {1, -1}}));
        refuses(Fault.BAD_TABLE, () -> Small.Machine.open(0, next, new int[][] {{0, 0}}));
        refuses(Fault.BAD_TABLE, () -> Small.Machine.open(0, new int[][] {{0, 1}, {1, 0, 1}}, reply));
        refuses(Fault.BAD_COUNT, () -> Small.Machine.open(65, next, reply));
    }

    /** What a call would be answered, at rest: twice the same, and of the version that the seat has. */
    private static void atRest(Small.Seat seat, List<Long> words, Long... answer) throws Exception {
        long version = seat.version();
        long[] asked = words.stream().mapToLong(word -> word).toArray();
        for (int i = 0; i < 2; i++) {
            is(Arrays.toString(seat.tryRead(asked).orElseThrow()), Arrays.toString(answer));
            is(seat.version(), version);
        }
    }

    private static void reads() throws Exception {
        Small.Counter counter = only(Small.Counter.open(1));
        atRest(counter, List.of(3L), 0L);
        counter.add(5);
        atRest(counter, List.of(3L), 5L);
        state(counter.finish(), 5);
        Small.Register register = only(Small.Register.open(1));
        register.write(7);
        atRest(register, List.of(0L, 0L, 0L), 7L);
        atRest(register, List.of(1L, 9L, 0L), 7L);
        long written = register.version();
        is(List.of(register.read(), register.version()), List.of(7L, written));
        state(register.finish(), 7);
        Small.Counters counters = only(Small.Counters.open(1, 3));
        counters.add(2, 8);
        atRest(counters, List.of(2L, 1L), 8L);
        atRest(counters, List.of(1L, 1L), 0L);
        state(counters.finish(), 0, 0, 8);
        Small.Queue queue = only(Small.Queue.open(1, 2));
        queue.put(8);
        atRest(queue, List.of(9L), 1L);
        queue.put(9);
        atRest(queue, List.of(7L), 0L);
        atRest(queue, List.of(0L), 8L);
        state(queue.finish(), 2, 0, 8, 9);
        Small.Stack stack = only(Small.Stack.open(1, 2));
        stack.push(8);
        stack.push(9);
        atRest(stack, List.of(0L), 9L);
        state(stack.finish(), 2, 8, 9);
        Small.Map map = only(Small.Map.open(1, 1));
        map.insert(7, 70);
        atRest(map, List.of(0L, 7L, 0L), 1L, 70L);
        atRest(map, List.of(2L, 7L, 0L), 1L, 70L);
        atRest(map, List.of(1L, 9L, 90L), 2L, 0L);
        long version = map.version();
        is(List.of(map.get(7), map.get(9)), List.of(OptionalLong.of(70), OptionalLong.empty()));
        is(map.version(), version);
        state(map.finish(), 1, 7, 70);
        Small.Book book = only(Small.Book.open(1));
        book.deposit(3, 10);
        atRest(book, List.of(3L, 0L, 0L, 0L), 4L, 10L);
        atRest(book, List.of(1L, 3L, 0L, 4L), 0L, 6L);
        atRest(book, List.of(1L, 3L, 0L, 11L), 2L, 0L);
        version = book.version();
        is(List.of(book.total(), book.version()), List.of(10L, version));
        state(book.finish(), 0, 0, 0, 10, 0, 0, 0, 0, 0, 0, 0, 0, 0, 0, 0, 0);
        Small.Machine machine = only(Small.Machine.open(1, new int[][] {{0, 1}, {1, 0}}, new int[][] {{0, 0}, {1, 1}}));
        machine.call(1);
        atRest(machine, List.of(1L), 1L);
        state(machine.finish(), 1);
        Program p = new Program(new long[] {40}, 1, 1);
        Program.Register total = p.add(p.state(0), p.invocation(0));
        p.store(0, total);
        p.answer(0, total);
        Small.Own own = only(p.open(1));
        atRest(own, List.of(2L), 42L);
        state(own.call(3), 43);
        atRest(own, List.of(2L), 45L);
        state(own.finish(), 43);
        // by the other seat, which follows what it has read
        List<Small.Counter> seats;
        try (Small<Small.Counter> object = Small.Counter.open(2)) {
            seats = object.seats();
        }
        Small.Counter first = seats.get(0), second = seats.get(1);
        first.add(5);
        is(List.of(second.tryRead(0).orElseThrow()[0], second.version()), List.of(5L, first.version()));
        is(second.add(0), 5L);
        is(second.version() > first.version(), true);
        refuses(Fault.BAD_WIDTH, () -> first.tryRead());
        refuses(Fault.BAD_WIDTH, () -> first.tryRead(0, 0));
        refuses(Fault.BAD_WIDTH, () -> first.tryRead(0, 0, 0, 0, 0));
        first.close();
        throwsA(IllegalStateException.class, () -> first.tryRead(0));
    }

    /** All threads but one add, and that one reads: it never goes down, and at the end it is the sum. */
    private static void reader(int n, int calls) throws Exception {
        AtomicInteger over = new AtomicInteger();
        long most = (n - 1L) * calls;
        state(shared(Small.Counter.open(n), seat -> {
            for (int i = 0; seat.process != 0 && i < calls; i++) {
                seat.add(1);
            }
            long sum = 0;
            for (boolean isOver = seat.process != 0; !isOver;) {
                isOver = over.get() == n - 1;
                long version = seat.version();
                Optional<long[]> found = seat.tryRead(1);
                is(found.isPresent() || !isOver, true);
                is(seat.version() >= version, true);
                long read = found.isPresent() ? found.get()[0] : sum;
                is(sum <= read && read <= most, true);
                sum = read;
            }
            if (seat.process == 0) {
                is(sum, most);
            }
            over.getAndIncrement();
        }), most);
    }

    private static void refusals() throws Exception {
        refuses(Fault.BAD_COUNT, () -> Small.Counter.open(0));
        refuses(Fault.BAD_COUNT, () -> Small.Book.open(65));
        refuses(Fault.BAD_CAPACITY, () -> Small.Counters.open(1, 65537));
        refuses(Fault.BAD_CAPACITY, () -> Small.Queue.open(1, 65535));
        refuses(Fault.BAD_CAPACITY, () -> Small.Stack.open(1, -1));
        refuses(Fault.BAD_CAPACITY, () -> Small.Map.open(1, 32768));
        state(only(Small.Counters.open(1, 0)).finish());
    }

    private static void seats() throws Exception {
        Small<Small.Counter> object = Small.Counter.open(2);
        List<Small.Counter> seats = object.seats();
        Small.Counter first = seats.get(0), second = seats.get(1);
        is(List.of(first.process, second.process, first.version()), List.of(1L, 0L, 0L));
        refuses(Fault.NO_SEAT, object::seat);
        is(first.add(5), 0L);
        is(List.of(second.follows(first.version()), second.follows(first.version() + 1), second.add(2)), List.of(true, false, 5L));
        refuses(Fault.BUSY, first::finish);
        second.close();
        refuses(Fault.BUSY, object::finish);
        is(first.add(1), 7L);
        first.close();
        state(object.finish(), 8);
        throwsA(IllegalStateException.class, object::seat);
        throwsA(IllegalStateException.class, object::finish);
        throwsA(IllegalStateException.class, first::finish);
        throwsA(IllegalStateException.class, () -> first.add(1));
    }

    /** An object and a seat that nothing names any more are let go, so that the seat that is left closes. */
    private static void forgotten() throws Exception {
        Small.Counter left = left(Small.Counter.open(2));
        for (int i = 0; i < 1000; i++) {
            System.gc();
            try {
                state(left.finish(), 5);
                return;
            } catch (Refused refused) {
                is(refused.fault, Fault.BUSY);
                Thread.sleep(10);
            }
        }
        throw new AssertionError("what was forgotten is kept");
    }

    private static Small.Counter left(Small<Small.Counter> object) throws Refused {
        object.seat().add(5);
        return object.seat();
    }

    /** Each seat's work in a thread of its own; then the last state. */
    private static <S extends Small.Seat> long[] shared(Small<S> object, Small.Work<S> work) throws Exception {
        List<S> seats;
        try (object) {
            seats = object.seats();
        }
        return Small.inThreads(seats, work);
    }

    /** What one thread's work throws comes out when all have ended, and the seats can go on. */
    private static void thrown() throws Exception {
        List<Small.Counter> seats;
        try (Small<Small.Counter> counter = Small.Counter.open(3)) {
            seats = counter.seats();
        }
        try {
            Small.inThreads(seats, seat -> {
                seat.add(5);
                if (seat.process == 1) {
                    throw new IllegalStateException("by process 1");
                }
            });
            throw new AssertionError("nothing was thrown");
        } catch (ExecutionException wrong) {
            is(wrong.getCause().getMessage(), "by process 1");
        }
        state(Small.inThreads(seats, seat -> seat.add(1)), 18);
    }

    private static void threads(int n, int calls) throws Exception {
        // each call adds 1, so its reply is its place; each thread follows what another one told
        AtomicLongArray mark = new AtomicLongArray(n), told = new AtomicLongArray(n);
        AtomicLongArray places = new AtomicLongArray(n * calls);
        state(shared(Small.Counter.open(n), seat -> {
            for (int i = 0; i < calls; i++) {
                int other = (int) ((seat.process + 1 + i) % n);
                long earlier = mark.get(other);
                is(i % 16 != 0 || seat.follows(told.get(other)), true);
                long place = seat.add(1);
                is(i % 16 != 0 || place >= earlier, true);
                is(places.getAndIncrement((int) place), 0L);
                mark.set((int) seat.process, place + 1);
                told.set((int) seat.process, seat.version());
            }
        }), (long) n * calls);

        // each call is answered the value before, so these tell the order of a key's calls
        AtomicLongArray before = new AtomicLongArray(n * calls + 1);
        long[] last = shared(Small.Map.open(n, 8), seat -> {
            for (int i = 0; i < calls; i++) {
                int value = (int) (1 + (long) i * n + seat.process);
                before.set(value, seat.insert(i % 8, value).orElse(0));
            }
        });
        int found = 0;
        for (int k = 0; k < last[0]; k++) {
            for (int value = (int) last[2 + 2 * k]; value != 0; value = (int) before.getAndSet(value, -1)) {
                found++;
            }
        }
        is(found, n * calls);

        // no number of a thread overtakes an earlier one
        AtomicLongArray after = new AtomicLongArray(n * calls / 2), version = new AtomicLongArray(n * calls / 2);
        is(shared(Small.Queue.open(n, 64), seat -> {
            for (int i = 0; i < calls / 2; i++) {
                is(seat.put(1 + (long) i * n + seat.process), true);
                long since = seat.version();
                int taken = (int) seat.take() - 1;
                after.set(taken, since);
                is(version.getAndSet(taken, seat.version()), 0L);
            }
        })[0], 0L);
        for (int i = n; i < n * calls / 2; i++) {
            is(version.get(i) > after.get(i - n), true);
        }
    }

    /** The arguments are how many calls each thread makes, and how many threads there are, once or more. */
    public static void main(String[] arguments) throws Exception {
        objects();
        machine();
        reads();
        refusals();
        seats();
        forgotten();
        thrown();
        for (int i = 1; i < arguments.length; i++) {
            threads(Integer.parseInt(arguments[i]), Integer.parseInt(arguments[0]));
            reader(Integer.parseInt(arguments[i]), Integer.parseInt(arguments[0]));
        }
        System.out.println("small: each call and each refusal");
    }
}
