package fednayup.universal;

import static java.lang.foreign.ValueLayout.JAVA_INT;
import static java.lang.foreign.ValueLayout.JAVA_LONG;

import java.lang.foreign.Arena;
import java.lang.foreign.MemorySegment;
import java.lang.invoke.MethodHandle;
import java.util.ArrayList;
import java.util.List;
import java.util.Objects;
import java.util.Optional;
import java.util.OptionalLong;
import java.util.concurrent.Callable;
import java.util.concurrent.ExecutionException;
import java.util.concurrent.ExecutorService;
import java.util.concurrent.Executors;
import java.util.concurrent.Future;
import fednayup.universal.Universal.Handle;

/**
 * A small object that n processes share, on words of 64 bits, with the seats that are still to be given out. {@code open} of
 * the class of its seats gives one, as {@code Small.Queue.open(4, 100)}. A seat makes 2^50 calls at most.
 *
 * <p>A call takes no lock of the library and no memory. It comes with a version: a number of the object's state, in which the
 * call is. Who is told a version, by whatever means, can follow it. What only reads, as {@code get} of a map, first tries to read
 * the present state without a call.
 *
 * <p>Where another process's call came since the process's own last one, a call copies the whole state, also while the object is
 * empty: some 1.3 nanoseconds a word of capacity (docs/measured.md). Where none came, it takes the time of what it touches.
 */
public final class Small<S extends Small.Seat> implements AutoCloseable {
    private final Handle handle = new Handle();
    private final int width;
    private final Seats<S> seats;
    private final List<S> had = new ArrayList<>();

    /** Makes a seat of its place. */
    interface Seats<S> {
        S of(Place place, long process, int width);
    }

    /** Where a seat's calls are made: among the threads of this process, or among processes. */
    interface Place {
        void apply(MemorySegment words, long count, MemorySegment reply, long replies, MemorySegment version) throws Refused;

        /** Reads without a call: whether no other version came meanwhile. */
        boolean read(MemorySegment words, long count, MemorySegment reply, long replies, MemorySegment version) throws Refused;

        /** How many reads are tried before a call. */
        int reads();

        void follows(long version, MemorySegment answer) throws Refused;

        long[] finish(int width) throws Refused;

        void close();
    }

    private record AmongThreads(Handle handle) implements Place {
        private static final int CHANGED = 28;

        @Override
        public void apply(MemorySegment words, long count, MemorySegment reply, long replies, MemorySegment version) throws Refused {
            handle.call(at -> (int) Universal.SMALL_APPLY.invokeExact(at, words, count, reply, replies, version));
        }

        @Override
        public boolean read(MemorySegment words, long count, MemorySegment reply, long replies, MemorySegment version) throws Refused {
            int[] status = {0};
            handle.call(at -> {
                status[0] = (int) Universal.SMALL_READ.invokeExact(at, words, count, reply, replies, version);
                return status[0] == CHANGED ? 0 : status[0];
            });
            return status[0] == 0;
        }

        @Override
        public int reads() {
            return 3;
        }

        @Override
        public void follows(long version, MemorySegment answer) throws Refused {
            handle.call(at -> (int) Universal.SMALL_FOLLOWS.invokeExact(at, version, answer));
        }

        @Override
        public long[] finish(int width) throws Refused {
            return Small.finish(handle, width);
        }

        @Override
        public void close() {
            handle.close();
        }
    }

    private Small(int width, Seats<S> seats) {
        this.width = width;
        this.seats = seats;
    }

    private static <S extends Seat> Small<S> opened(MethodHandle open, long n, int width, Seats<S> seats) throws Refused {
        Small<S> object = new Small<>(width, seats);
        return object.opened(at -> (int) open.invokeExact(n, at));
    }

    private static <S extends Seat> Small<S> opened(MethodHandle open, long n, int size, int width, Seats<S> seats) throws Refused {
        Small<S> object = new Small<>(width, seats);
        return object.opened(at -> (int) open.invokeExact(n, size, at));
    }

    private Small<S> opened(Universal.With open) throws Refused {
        try {
            handle.call(open);
            return this;
        } catch (Refused refused) {
            close();
            throw refused;
        }
    }

    /** The seat of the greatest process that has none yet. Refused: all are given out; memory. */
    public synchronized S seat() throws Refused {
        handle.at(); // of a closed object nothing is made
        Handle seat = new Handle();
        try (Arena arena = Arena.ofConfined()) {
            MemorySegment process = arena.allocate(JAVA_LONG);
            handle.call(at -> (int) Universal.SMALL_SEAT.invokeExact(at, seat.at(), process));
            return seats.of(new AmongThreads(seat), process.get(JAVA_LONG, 0), width);
        } catch (Refused refused) {
            seat.close();
            throw refused;
        }
    }

    /**
     * All seats that are left, that of the greatest process first. Refused: memory; the seats that were had by then are in what
     * the next call answers.
     */
    public synchronized List<S> seats() throws Refused {
        return Universal.left(had, this::seat);
    }

    /** Closes the object, if all its seats are closed: the words of the last state. Refused: a seat has the object. */
    public synchronized long[] finish() throws Refused {
        return finish(handle, width);
    }

    private static long[] finish(Handle handle, int width) throws Refused {
        try (Arena arena = Arena.ofConfined()) {
            MemorySegment state = arena.allocate(JAVA_LONG, Math.max(1, width));
            handle.call(at -> (int) Universal.SMALL_CLOSE.invokeExact(at, state, (long) width));
            handle.close();
            return state.asSlice(0, 8L * width).toArray(JAVA_LONG);
        }
    }

    /** What a thread does with its seat. */
    public interface Work<S> {
        void on(S seat) throws Exception;
    }

    /**
     * Works with each seat in a thread of its own, waits for all of them, and closes the object: the words of the last state. No
     * other handle may have the object. Refused: another has it.
     *
     * @throws ExecutionException what a seat's work threw, that of the first where several did; the seats stay, and so does the object
     */
    public static <S extends Seat> long[] inThreads(List<S> seats, Work<? super S> work)
            throws Refused, InterruptedException, ExecutionException {
        List<Callable<Void>> tasks = new ArrayList<>();
        for (S seat : seats) {
            tasks.add(() -> {
                work.on(seat);
                return null;
            });
        }
        try (ExecutorService threads = Executors.newThreadPerTaskExecutor(Thread.ofPlatform().factory())) {
            for (Future<Void> done : threads.invokeAll(tasks)) {
                done.get();
            }
        }
        seats.subList(1, seats.size()).forEach(Seat::close);
        return seats.get(0).finish();
    }

    /** Lets the object go; seats that were given out stay. */
    @Override
    public synchronized void close() {
        handle.close();
    }

    /** A process of a small object, which makes its calls: from any thread, one at a time. */
    public abstract static sealed class Seat implements AutoCloseable {
        private final Place place;
        private final int width, replies;
        private final MemorySegment invocation, reply, answer;
        private long version;

        /** Which process it is, from 0 to n - 1. */
        public final long process;

        private Seat(Place place, long process, int width) {
            this(place, process, width, 4, 1);
        }

        private Seat(Place place, long process, int width, int mostAsked, int replies) {
            Arena arena = Arena.ofAuto();
            this.place = place;
            this.process = process;
            this.width = width;
            this.replies = replies;
            invocation = arena.allocate(JAVA_LONG, Math.max(1, mostAsked));
            reply = arena.allocate(JAVA_LONG, replies);
            answer = arena.allocate(JAVA_LONG);
        }

        /**
         * The version that the latest call was answered: one that the call is in, greater than each before. After a read without a
         * call it is the one that was read, which may be that before. 0: there was neither.
         */
        public final synchronized long version() {
            return version;
        }

        /**
         * Whether a version has come: all later calls of this seat come after all calls that are in it then. By a law one
         * that a call was answered has come, but no clause of this call says so: be ready for false.
         *
         * @throws UnsupportedOperationException it is a seat of a {@link Shared}
         */
        public final synchronized boolean follows(long version) throws Refused {
            place.follows(version, answer);
            return answer.get(JAVA_INT, 0) != 0;
        }

        /**
         * What a call with the words of an invocation would be answered at the present state, without the call: the words of the
         * reply. It is empty where another version came meanwhile: ask again. Who has to be answered within a bound makes a call.
         *
         * <p>Nothing is stored in a shared word. The state is that of {@link #version()} then: all calls of this seat are in it,
         * and all later calls of this seat come after all calls that are in it. The words are those of the macros of
         * {@code universal.h}, as 0 of a counter, whose number is the answer. Refused: these aren't so many words; the seat
         * has made all its calls.
         *
         * @throws UnsupportedOperationException it is a seat of a {@link Shared}
         */
        public final synchronized Optional<long[]> tryRead(long... words) throws Refused {
            if (8L * words.length > invocation.byteSize()) {
                throw new Refused(Fault.BAD_WIDTH);
            }
            MemorySegment.copy(words, 0, invocation, JAVA_LONG, 0, words.length);
            if (!place.read(invocation, words.length, reply, replies, answer)) {
                return Optional.empty();
            }
            version = answer.get(JAVA_LONG, 0);
            return Optional.of(reply.toArray(JAVA_LONG));
        }

        /**
         * Closes the object, by the last that has it: the words of the last state. Refused: another has it.
         *
         * @throws UnsupportedOperationException it is a seat of a {@link Shared}
         */
        public final synchronized long[] finish() throws Refused {
            long[] state = place.finish(width);
            close();
            return state;
        }

        /** Lets the seat go; at a seat that was let go or has finished it does nothing. */
        @Override
        public final synchronized void close() {
            place.close();
        }

        /** A call: the words of its reply. */
        final synchronized long[] apply(long... words) throws Refused {
            MemorySegment.copy(words, 0, invocation, JAVA_LONG, 0, words.length);
            place.apply(invocation, words.length, reply, replies, answer);
            version = answer.get(JAVA_LONG, 0);
            return reply.toArray(JAVA_LONG);
        }

        final long ask(long... words) throws Refused {
            return apply(words)[0];
        }

        /** A call that changes nothing: reads, and where another version came each time the call. */
        final synchronized long[] look(long... words) throws Refused {
            for (int i = 0; i < place.reads(); i++) {
                Optional<long[]> found = tryRead(words);
                if (found.isPresent()) {
                    return found.get();
                }
            }
            return apply(words);
        }
    }

    /** A seat of a counter modulo 2^64, 0 at the start. A state is the sum. */
    public static final class Counter extends Seat {
        Counter(Place place, long process, int width) {
            super(place, process, width);
        }

        /** A counter for n processes. */
        public static Small<Counter> open(long n) throws Refused {
            return opened(Universal.OPEN_COUNTER, n, 1, Counter::new);
        }

        /** Adds a number: the sum before. */
        public long add(long number) throws Refused {
            return ask(number);
        }
    }

    /** A seat of a register of 64 bits, 0 at the start. A state is the value. */
    public static final class Register extends Seat {
        Register(Place place, long process, int width) {
            super(place, process, width);
        }

        /** A register for n processes. */
        public static Small<Register> open(long n) throws Refused {
            return opened(Universal.OPEN_REGISTER64, n, 1, Register::new);
        }

        /** The value. */
        public long read() throws Refused {
            return look(0, 0, 0)[0];
        }

        /** Writes a value: the one before. */
        public long write(long value) throws Refused {
            return ask(1, value, 0);
        }

        /** Writes a value where the register has the expected one: the value before. */
        public long compareExchange(long expected, long value) throws Refused {
            return ask(2, expected, value);
        }
    }

    /** A seat of an array of counters modulo 2^64, each 0 at the start. A state is each sum. */
    public static final class Counters extends Seat {
        Counters(Place place, long process, int width) {
            super(place, process, width);
        }

        /** So many counters for n processes; a copy is so many words. Refused: there are more than 65,536. */
        public static Small<Counters> open(long n, int count) throws Refused {
            return opened(Universal.OPEN_COUNTERS, n, count, count, Counters::new);
        }

        /**
         * Adds a number to the counter at an index: the sum before.
         *
         * @throws IndexOutOfBoundsException there is none
         */
        public long add(long index, long number) throws Refused {
            return ask(Objects.checkIndex(index, super.width), number);
        }
    }

    /**
     * A seat of a queue of numbers that aren't 0. A state is how many there are, the slot of the oldest one, and the slots,
     * from 0. Behind that slot come the others in their order, and behind the last slot the first one.
     */
    public static final class Queue extends Seat {
        Queue(Place place, long process, int width) {
            super(place, process, width);
        }

        /**
         * A queue of at most {@code capacity} numbers for n processes; a copy is 2 + capacity words. Refused: capacity
         * is more than 65,534.
         */
        public static Small<Queue> open(long n, int capacity) throws Refused {
            return opened(Universal.OPEN_QUEUE, n, capacity, 2 + capacity, Queue::new);
        }

        /** Puts a number in, if there is room. */
        public boolean put(long number) throws Refused {
            return ask(notZero(number)) == 1;
        }

        /** Takes the oldest number out; 0 where there is none. */
        public long take() throws Refused {
            return ask(0);
        }
    }

    /** A seat of a stack of numbers that aren't 0. A state is how many there are, and then they, the newest one last. */
    public static final class Stack extends Seat {
        Stack(Place place, long process, int width) {
            super(place, process, width);
        }

        /**
         * A stack of at most {@code capacity} numbers for n processes; a copy is 1 + capacity words. Refused: capacity is
         * more than 65,535.
         */
        public static Small<Stack> open(long n, int capacity) throws Refused {
            return opened(Universal.OPEN_STACK, n, capacity, 1 + capacity, Stack::new);
        }

        /** Puts a number on, if there is room. */
        public boolean push(long number) throws Refused {
            return ask(notZero(number)) == 1;
        }

        /** Takes the newest number off; 0 where there is none. */
        public long pop() throws Refused {
            return ask(0);
        }
    }

    /** A seat of a map. A state is how many keys there are, and then each with its value, the oldest key first. */
    public static final class Map extends Seat {
        Map(Place place, long process, int width) {
            super(place, process, width, 3, 2);
        }

        /**
         * A map of at most {@code capacity} keys for n processes; a copy is 1 + 2 * capacity words. Refused: capacity is
         * more than 32,767.
         */
        public static Small<Map> open(long n, int capacity) throws Refused {
            return opened(Universal.OPEN_MAP, n, capacity, 1 + 2 * capacity, Map::new);
        }

        /** The value of a key. */
        public OptionalLong get(long key) throws Refused {
            return value(look(0, key, 0));
        }

        /** Gives a key a value: the value before. Refused: there is no room for a new key. */
        public OptionalLong insert(long key, long value) throws Refused {
            return value(apply(1, key, value));
        }

        /** Takes a key out: its value. */
        public OptionalLong remove(long key) throws Refused {
            return value(apply(2, key, 0));
        }

        private static OptionalLong value(long[] reply) throws Refused {
            if (reply[0] == 2) {
                throw new Refused(Fault.NO_ROOM);
            }
            return reply[0] == 1 ? OptionalLong.of(reply[1]) : OptionalLong.empty();
        }
    }

    /** A seat of a book of sixteen accounts, each with a balance up to 999,999,999,999. A state is the balances. */
    public static final class Book extends Seat {
        Book(Place place, long process, int width) {
            super(place, process, width, 4, 2);
        }

        /** A book for n processes. */
        public static Small<Book> open(long n) throws Refused {
            return opened(Universal.OPEN_BOOK, n, 16, Book::new);
        }

        /** Puts an amount into an account: its balance. Refused: that would be too great. */
        public long deposit(int account, long amount) throws Refused {
            return number(0, account, 0, amount);
        }

        /** Takes an amount out of an account: its balance. Refused: it is too small. */
        public long withdraw(int account, long amount) throws Refused {
            return number(1, account, 0, amount);
        }

        /** Takes an amount out of an account, and puts it into another one. Refused: as both. */
        public void transfer(int from, int to, long amount) throws Refused {
            number(2, from, to, amount);
        }

        /** The sum of all balances. */
        public long total() throws Refused {
            return look(3, 0, 0, 0)[1];
        }

        private long number(long operation, int from, int to, long amount) throws Refused {
            if (from < 0 || from > 15 || to < 0 || to > 15 || amount < 0 || amount > 999_999_999_999L) {
                throw new IllegalArgumentException("an account isn't from 0 to 15, or an amount isn't from 0 to 999999999999");
            }
            long[] reply = apply(operation, from, to, amount);
            if (reply[0] == 1 || reply[0] == 2) {
                throw new Refused(reply[0] == 1 ? Fault.OVER : Fault.SHORT);
            }
            return reply[1];
        }
    }

    /** A seat of a machine by its tables. A state is the number of its state. */
    public static final class Machine extends Seat {
        Machine(Place place, long process, int width) {
            super(place, process, width);
        }

        /** The machine of two tables with a row for each state, an entry for each invocation; state 0 is the start. */
        public static Small<Machine> open(long n, int[][] next, int[][] reply) throws Refused {
            Universal.Tables tables = Universal.Tables.of(next, reply);
            Small<Machine> object = new Small<>(1, Machine::new);
            return object.opened(at -> (int) Universal.OPEN_SMALL_MACHINE.invokeExact(n, tables.states(),
                    tables.invocations(), tables.next(), tables.nexts(), tables.reply(), tables.replies(), at));
        }

        /** A call: the reply. An invocation past the tables, read as an unsigned one, is the last one. */
        public long call(long invocation) throws Refused {
            return ask(invocation);
        }
    }

    /** A seat of a {@link Program}'s object. A state is its words. */
    public static final class Own extends Seat {
        private final int asks;

        Own(Place place, long process, int width, int asks, int answers) {
            super(place, process, width, asks, answers);
            this.asks = asks;
        }

        static Small<Own> open(long n, MemorySegment code, long count, MemorySegment start, int words, int asks, int answers,
                MemorySegment wrong) throws Refused {
            Small<Own> object = new Small<>(words, (place, process, width) -> new Own(place, process, width, asks, answers));
            return object.opened(at -> (int) Universal.OPEN_PROGRAM.invokeExact(n, code, count, start, (long) words, (long) asks,
                    (long) answers, wrong, at));
        }

        /** A call with the words of an invocation: those of its reply. Refused: these aren't so many words. */
        public long[] call(long... invocation) throws Refused {
            if (invocation.length != asks) {
                throw new Refused(Fault.BAD_WIDTH);
            }
            return apply(invocation);
        }
    }

    private static long notZero(long number) {
        if (number == 0) {
            throw new IllegalArgumentException("0 can't be put in");
        }
        return number;
    }
}
