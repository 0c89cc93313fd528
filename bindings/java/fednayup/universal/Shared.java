package fednayup.universal;

import static java.lang.foreign.ValueLayout.ADDRESS;
import static java.lang.foreign.ValueLayout.JAVA_INT;
import static java.lang.foreign.ValueLayout.JAVA_LONG;

import java.io.IOException;
import java.lang.foreign.Arena;
import java.lang.foreign.FunctionDescriptor;
import java.lang.foreign.Linker;
import java.lang.foreign.MemoryLayout;
import java.lang.foreign.MemorySegment;
import java.lang.foreign.SymbolLookup;
import java.lang.invoke.MethodHandle;
import java.nio.file.FileAlreadyExistsException;
import java.nio.file.FileSystemException;
import java.nio.file.NoSuchFileException;
import fednayup.universal.Universal.Handle;

/**
 * A small object that processes share, and that no dead one holds up, as {@code Shared.create("jobs", 8, Kind.queue(100))}, and
 * {@code attach} in each other process. Its seats have the calls of {@link Small}'s. Linux on x86-64 alone.
 *
 * <p>A process may be killed at any instruction: the calls of the others return as before. A seat whose process died can be claimed
 * anew, and who claims it is told how many calls its owners made, with the words of the last one and of its reply. So no call is
 * made twice, or half; one that hadn't begun is made by nobody, until who claims the seat makes it.
 *
 * <p>The code of the objects is proved; this class and {@code universal_shared.c} are tested.
 */
public final class Shared<S extends Small.Seat> implements AutoCloseable {
    private static final SymbolLookup LIBRARY = Universal.library("libuniversal_shared.so", "universal.shared.library");
    private static final MethodHandle CREATE = told("universal_shared_create_named", ADDRESS, ADDRESS, JAVA_LONG, ADDRESS);
    private static final MethodHandle ATTACH = told("universal_shared_attach_named", ADDRESS, ADDRESS, JAVA_LONG, ADDRESS);
    private static final MethodHandle UNLINK = told("universal_shared_unlink", ADDRESS);
    private static final MethodHandle CLAIM = told("universal_shared_claim", ADDRESS, JAVA_LONG, ADDRESS, ADDRESS);
    private static final MethodHandle APPLY = Universal.function(LIBRARY, "universal_shared_apply",
            FunctionDescriptor.of(JAVA_INT, ADDRESS, ADDRESS, JAVA_LONG, ADDRESS, JAVA_LONG, ADDRESS));
    private static final MethodHandle DETACH = Universal.function(LIBRARY, "universal_shared_detach",
            FunctionDescriptor.ofVoid(ADDRESS));
    private static final MethodHandle RELEASE = Universal.function(LIBRARY, "universal_shared_release",
            FunctionDescriptor.ofVoid(ADDRESS));
    private static final int SYSTEM = 24;

    private final Handle handle;
    private final Kind<S> kind;

    private Shared(MemorySegment at, Kind<S> kind) {
        handle = new Handle(at, DETACH);
        this.kind = kind;
    }

    /** What an object is, and of which class its seats are. All who share it say the same. */
    public static final class Kind<S extends Small.Seat> {
        private final int object, capacity;
        private final Universal.Tables tables;
        private final Program program;
        private final Small.Seats<S> seats;

        private Kind(int object, int capacity, Universal.Tables tables, Program program, Small.Seats<S> seats) {
            this.object = object;
            this.capacity = capacity;
            this.tables = tables;
            this.program = program;
            this.seats = seats;
        }

        private Kind(int object, int capacity, Small.Seats<S> seats) {
            this(object, capacity, null, null, seats);
        }

        /** A counter. */
        public static Kind<Small.Counter> counter() {
            return new Kind<>(1, 0, Small.Counter::new);
        }

        /** A register. */
        public static Kind<Small.Register> register() {
            return new Kind<>(2, 0, Small.Register::new);
        }

        /** So many counters. */
        public static Kind<Small.Counters> counters(int count) {
            return new Kind<>(3, count, Small.Counters::new);
        }

        /** A queue of this capacity. */
        public static Kind<Small.Queue> queue(int capacity) {
            return new Kind<>(4, capacity, Small.Queue::new);
        }

        /** A stack of this capacity. */
        public static Kind<Small.Stack> stack(int capacity) {
            return new Kind<>(5, capacity, Small.Stack::new);
        }

        /** A map of this capacity. */
        public static Kind<Small.Map> map(int capacity) {
            return new Kind<>(6, capacity, Small.Map::new);
        }

        /** A book. */
        public static Kind<Small.Book> book() {
            return new Kind<>(7, 0, Small.Book::new);
        }

        /** The machine of two tables. */
        public static Kind<Small.Machine> machine(int[][] next, int[][] reply) throws Refused {
            Universal.Tables tables = Universal.Tables.of(next, reply);
            if (tables.nexts() != tables.replies()) {
                throw new Refused(Fault.BAD_TABLE);
            }
            return new Kind<>(8, 0, tables, null, Small.Machine::new);
        }

        /**
         * The object of a program. It is refused as it is made, where {@link Program#open} refuses it, without the number of the
         * instruction, and where an invocation has more than 4 words or a reply more than 2.
         */
        public static Kind<Small.Own> program(Program program) {
            return new Kind<>(9, 0, null, program, (place, process, width) -> program.seat(place, process));
        }

        private MemorySegment in(Arena arena) {
            MemorySegment words = arena.allocate(80, 8);
            words.set(JAVA_INT, 0, object);
            words.set(JAVA_INT, 4, capacity);
            if (tables != null) {
                words.set(JAVA_INT, 8, tables.states());
                words.set(JAVA_INT, 12, tables.invocations());
                words.set(ADDRESS, 16, tables.next());
                words.set(ADDRESS, 24, tables.reply());
            }
            if (program != null) {
                program.writeTo(words.asSlice(32), arena);
            }
            return words;
        }
    }

    /** What became of a seat before it was claimed. */
    public enum Was {
        /** It had no owner yet. */
        NEW,
        /** Its owner released it. */
        RELEASED,
        /** Its owner died. */
        DIED
    }

    /**
     * What who claims a seat is told of the calls that its owners made. A call is made when it has taken effect and its reply stands
     * here. A call that its owner died in counts as made where it had begun: the claim ends it.
     *
     * @param was what became of the seat before
     * @param made how many calls were made
     * @param ended whether this claim ended the last of them, whose reply nobody was told; {@code false} says nothing
     * @param version a version that the last call is in; 0 where none was made
     * @param invocation four words, of which the first are those of the last call
     * @param reply two words, of which the first are those of its reply
     * @param next four words, of which the first are those of a call that was asked for and hadn't begun, so that it has no effect;
     *     or null
     */
    public record Last(Was was, long made, boolean ended, long version, long[] invocation, long[] reply, long[] next) {}

    /** A seat that was claimed, and what is told of its calls. */
    public record Claimed<S extends Small.Seat>(S seat, Last last) {}

    /** Makes an object under a name, for so many seats. Throws {@link FileAlreadyExistsException} where the name is taken. */
    public static <S extends Small.Seat> Shared<S> create(String name, long seats, Kind<S> kind) throws Refused, IOException {
        return made(CREATE, name, seats, kind);
    }

    /** Attaches an object that was made. Throws {@link NoSuchFileException} where there is none of this name. */
    public static <S extends Small.Seat> Shared<S> attach(String name, long seats, Kind<S> kind) throws Refused, IOException {
        return made(ATTACH, name, seats, kind);
    }

    private static <S extends Small.Seat> Shared<S> made(MethodHandle make, String name, long seats, Kind<S> kind)
            throws Refused, IOException {
        try (Arena arena = Arena.ofConfined()) {
            MemorySegment at = arena.allocate(ADDRESS), text = arena.allocateFrom(name), words = kind.in(arena);
            done(name, why -> (int) make.invokeExact(why, text, words, seats, at));
            return new Shared<>(at.get(ADDRESS, 0), kind);
        }
    }

    /** Takes the name away. Who has the object keeps it; its memory goes with the last. */
    public static void unlink(String name) throws Refused, IOException {
        try (Arena arena = Arena.ofConfined()) {
            MemorySegment text = arena.allocateFrom(name);
            done(name, why -> (int) UNLINK.invokeExact(why, text));
        }
    }

    /** Claims any seat that has no living owner. Refused: each has one. */
    public Claimed<S> claim() throws Refused, IOException {
        return claimed(-1);
    }

    /** Claims the seat of this number, from 0 on. Refused: it has a living owner, or there is none. */
    public Claimed<S> claim(int process) throws Refused, IOException {
        if (process < 0) {
            throw new IllegalArgumentException("a seat has a number from 0 on");
        }
        return claimed(process);
    }

    private synchronized Claimed<S> claimed(long number) throws Refused, IOException {
        try (Arena arena = Arena.ofConfined()) {
            MemorySegment at = arena.allocate(ADDRESS), told = arena.allocate(JAVA_LONG, 16), mine = handle.at();
            done(null, why -> (int) CLAIM.invokeExact(why, mine, number, at, told));
            Handle seat = new Handle(at.get(ADDRESS, 0), RELEASE);
            long[] words = told.toArray(JAVA_LONG);
            Last last = new Last(Was.values()[(int) words[1]], words[2], words[3] != 0, words[4],
                    java.util.Arrays.copyOfRange(words, 5, 9), java.util.Arrays.copyOfRange(words, 9, 11),
                    words[11] == 0 ? null : java.util.Arrays.copyOfRange(words, 12, 16));
            return new Claimed<>(kind.seats.of(new AmongProcesses(seat), words[0], kind.capacity), last);
        }
    }

    private record AmongProcesses(Handle handle) implements Small.Place {
        @Override
        public void apply(MemorySegment words, long count, MemorySegment reply, long replies, MemorySegment version) throws Refused {
            handle.call(at -> (int) APPLY.invokeExact(at, words, count, reply, replies, version));
        }

        @Override
        public boolean read(MemorySegment words, long count, MemorySegment reply, long replies, MemorySegment version) {
            throw new UnsupportedOperationException("a seat among processes reads by calls");
        }

        @Override
        public int reads() {
            return 0;
        }

        @Override
        public void follows(long version, MemorySegment answer) {
            throw new UnsupportedOperationException("a seat among processes doesn't follow versions");
        }

        @Override
        public long[] finish(int width) {
            throw new UnsupportedOperationException("an object of processes isn't closed: some may always be there");
        }

        @Override
        public void close() {
            handle.close();
        }
    }

    /** Lets the object go; seats that were claimed stay. */
    @Override
    public synchronized void close() {
        handle.close();
    }

    /** A function that may tell by errno why the system refused. */
    private static MethodHandle told(String name, MemoryLayout... takes) {
        return Universal.function(LIBRARY, name, FunctionDescriptor.of(JAVA_INT, takes), Linker.Option.captureCallState("errno"));
    }

    private static void done(String name, Universal.With call) throws Refused, IOException {
        int[] status = {0};
        try (Arena arena = Arena.ofConfined()) {
            MemorySegment why = arena.allocate(Linker.Option.captureStateLayout());
            Universal.done(() -> {
                status[0] = call.status(why);
                return status[0] == SYSTEM ? 0 : status[0];
            });
            if (status[0] == SYSTEM) {
                long offset = Linker.Option.captureStateLayout().byteOffset(MemoryLayout.PathElement.groupElement("errno"));
                int errno = why.get(JAVA_INT, offset);
                throw switch (errno) {
                    case 2 -> new NoSuchFileException(name);
                    case 17 -> new FileAlreadyExistsException(name);
                    default -> new FileSystemException(name, null, "error " + errno + " of the system");
                };
            }
        }
    }
}
