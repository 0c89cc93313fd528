package fednayup.universal;

import static java.lang.foreign.ValueLayout.ADDRESS;
import static java.lang.foreign.ValueLayout.JAVA_INT;
import static java.lang.foreign.ValueLayout.JAVA_LONG;

import java.io.IOException;
import java.io.InputStream;
import java.io.UncheckedIOException;
import java.lang.foreign.Arena;
import java.lang.foreign.FunctionDescriptor;
import java.lang.foreign.Linker;
import java.lang.foreign.MemoryLayout;
import java.lang.foreign.MemorySegment;
import java.lang.foreign.SymbolLookup;
import java.lang.invoke.MethodHandle;
import java.lang.ref.Cleaner;
import java.lang.ref.Reference;
import java.nio.file.Files;
import java.nio.file.Path;
import java.nio.file.StandardCopyOption;
import java.util.ArrayList;
import java.util.List;

/** The functions of {@code universal.h}, by {@code java.lang.foreign}, from Java 22 on. */
final class Universal {
    private static final SymbolLookup LIBRARY = library("libuniversal.so", "universal.library");

    static final MethodHandle OPEN_TALLY = status("universal_open_tally", JAVA_LONG, JAVA_LONG, ADDRESS);
    static final MethodHandle OPEN_STICKY = status("universal_open_sticky", JAVA_LONG, JAVA_LONG, ADDRESS);
    static final MethodHandle OPEN_REGISTER = status("universal_open_register", JAVA_LONG, JAVA_LONG, ADDRESS);
    static final MethodHandle OPEN_MACHINE = status("universal_open_machine", JAVA_LONG, JAVA_LONG, JAVA_INT, JAVA_INT, ADDRESS,
            JAVA_LONG, ADDRESS, JAVA_LONG, ADDRESS);
    static final MethodHandle OPEN_COUNTER = status("universal_open_counter", JAVA_LONG, ADDRESS);
    static final MethodHandle OPEN_REGISTER64 = status("universal_open_register64", JAVA_LONG, ADDRESS);
    static final MethodHandle OPEN_BOOK = status("universal_open_book", JAVA_LONG, ADDRESS);
    static final MethodHandle OPEN_COUNTERS = status("universal_open_counters", JAVA_LONG, JAVA_INT, ADDRESS);
    static final MethodHandle OPEN_QUEUE = status("universal_open_queue", JAVA_LONG, JAVA_INT, ADDRESS);
    static final MethodHandle OPEN_STACK = status("universal_open_stack", JAVA_LONG, JAVA_INT, ADDRESS);
    static final MethodHandle OPEN_MAP = status("universal_open_map", JAVA_LONG, JAVA_INT, ADDRESS);
    static final MethodHandle OPEN_SMALL_MACHINE = status("universal_open_small_machine", JAVA_LONG, JAVA_INT, JAVA_INT,
            ADDRESS, JAVA_LONG, ADDRESS, JAVA_LONG, ADDRESS);
    static final MethodHandle OPEN_PROGRAM = status("universal_open_program", JAVA_LONG, ADDRESS, JAVA_LONG, ADDRESS, JAVA_LONG,
            JAVA_LONG, JAVA_LONG, ADDRESS, ADDRESS);
    static final MethodHandle SMALL_SEAT = status("universal_small_seat", ADDRESS, ADDRESS, ADDRESS);
    static final MethodHandle SMALL_APPLY = status("universal_small_apply", ADDRESS, ADDRESS, JAVA_LONG, ADDRESS, JAVA_LONG, ADDRESS);
    static final MethodHandle SMALL_READ = status("universal_small_read", ADDRESS, ADDRESS, JAVA_LONG, ADDRESS, JAVA_LONG, ADDRESS);
    static final MethodHandle SMALL_FOLLOWS = status("universal_small_follows", ADDRESS, JAVA_LONG, ADDRESS);
    static final MethodHandle SMALL_CLOSE = status("universal_small_close", ADDRESS, ADDRESS, JAVA_LONG);
    static final MethodHandle SEAT = status("universal_seat", ADDRESS, ADDRESS, ADDRESS);
    static final MethodHandle APPLY = status("universal_apply", ADDRESS, JAVA_LONG, ADDRESS);
    static final MethodHandle FOLLOWS = status("universal_follows", ADDRESS, JAVA_LONG, JAVA_LONG, ADDRESS);
    static final MethodHandle CLOSE = status("universal_close", ADDRESS);
    static final MethodHandle READ = status("universal_read", ADDRESS, ADDRESS, JAVA_LONG, ADDRESS);
    static final MethodHandle COMPARE = status("universal_compare", ADDRESS, JAVA_LONG, ADDRESS, JAVA_LONG, ADDRESS);
    static final MethodHandle DROP = function(LIBRARY, "universal_drop", FunctionDescriptor.ofVoid(ADDRESS));

    private Universal() {}

    /** The library whose path the property tells, else the one that lies in the jar. */
    @SuppressWarnings("restricted")
    static SymbolLookup library(String name, String property) {
        String path = System.getProperty(property);
        if (path != null) {
            return SymbolLookup.libraryLookup(Path.of(path), Arena.global());
        }
        try (InputStream inJar = Universal.class.getResourceAsStream(name)) {
            if (inJar == null) {
                throw new UnsatisfiedLinkError("no " + name + " in the jar: tell its path by -D" + property + "=PATH");
            }
            Path copy = Files.createTempFile("libuniversal", ".so");
            try {
                Files.copy(inJar, copy, StandardCopyOption.REPLACE_EXISTING);
                return SymbolLookup.libraryLookup(copy, Arena.global());
            } finally {
                Files.delete(copy);
            }
        } catch (IOException refused) {
            throw new UncheckedIOException(refused);
        }
    }

    /** A function of a library. Nothing but the header tells what it takes. */
    @SuppressWarnings("restricted")
    static MethodHandle function(SymbolLookup library, String name, FunctionDescriptor of, Linker.Option... options) {
        return Linker.nativeLinker().downcallHandle(library.find(name).orElseThrow(), of, options);
    }

    private static MethodHandle status(String name, MemoryLayout... takes) {
        return function(LIBRARY, name, FunctionDescriptor.of(JAVA_INT, takes));
    }

    /** A function of the library, which answers a status. */
    @FunctionalInterface
    interface Call {
        int status() throws Throwable;
    }

    static void done(Call call) throws Refused {
        int status;
        try {
            status = call.status();
        } catch (RuntimeException misuse) {
            throw misuse;
        } catch (Throwable wrong) {
            throw new AssertionError(wrong);
        }
        if (status != 0) {
            throw new Refused(Fault.of(status));
        }
    }

    /** The two tables of a machine, row by row, and how many entries they have, in memory that the library reads. */
    record Tables(int states, int invocations, MemorySegment next, long nexts, MemorySegment reply, long replies) {
        static Tables of(int[][] next, int[][] reply) throws Refused {
            int invocations = next.length == 0 ? 0 : next[0].length;
            MemorySegment nexts = flat(next, invocations), replies = flat(reply, invocations);
            return new Tables(next.length, invocations, nexts, nexts.byteSize() / 4, replies, replies.byteSize() / 4);
        }

        private static MemorySegment flat(int[][] table, int invocations) throws Refused {
            MemorySegment entries = Arena.ofAuto().allocate(JAVA_INT, (long) table.length * invocations);
            for (int s = 0; s < table.length; s++) {
                if (table[s].length != invocations) {
                    throw new Refused(Fault.BAD_TABLE);
                }
                MemorySegment.copy(table[s], 0, entries, JAVA_INT, 4L * s * invocations, invocations);
            }
            return entries;
        }
    }

    /**
     * A handle of the library, in memory of its own. One call at a time: its owner's methods are synchronized. Where it is
     * forgotten, what it has is let go once nothing names it any more.
     */
    static final class Handle implements AutoCloseable {
        private static final Cleaner CLEANER = Cleaner.create();

        /** What is let go once, by a function of the library. It doesn't name its handle. */
        private record Held(MemorySegment at, MethodHandle drop) implements Runnable {
            @Override
            public void run() {
                try {
                    drop.invokeExact(at);
                } catch (Throwable wrong) {
                    throw new AssertionError(wrong);
                }
            }
        }

        private final Held held;
        private final Cleaner.Cleanable letGo;
        private boolean gone;

        /** A handle that has nothing yet. */
        Handle() {
            this(Arena.ofAuto().allocate(ADDRESS), DROP);
        }

        /** What this function lets go. */
        Handle(MemorySegment at, MethodHandle drop) {
            held = new Held(at, drop);
            letGo = CLEANER.register(this, held);
        }

        /** A call with the handle, which stays until that has returned. */
        void call(With call) throws Refused {
            try {
                MemorySegment at = at();
                done(() -> call.status(at));
            } finally {
                Reference.reachabilityFence(this);
            }
        }

        MemorySegment at() {
            if (gone) {
                throw new IllegalStateException("it was closed");
            }
            return held.at;
        }

        @Override
        public void close() {
            gone = true;
            letGo.clean();
        }
    }

    /**
     * All seats that are left, behind those that were had. Where memory is refused, what came by then stays among these, for the
     * next time.
     */
    static <S> List<S> left(List<S> had, Giving<S> giving) throws Refused {
        while (true) {
            try {
                had.add(giving.seat());
            } catch (Refused refused) {
                if (refused.fault != Fault.NO_SEAT) {
                    throw refused;
                }
                List<S> all = new ArrayList<>(had);
                had.clear();
                return all;
            }
        }
    }

    /** What gives seats, one at a time. */
    @FunctionalInterface
    interface Giving<S> {
        S seat() throws Refused;
    }

    /** A function of the library that takes a handle. */
    @FunctionalInterface
    interface With {
        int status(MemorySegment at) throws Throwable;
    }
}
