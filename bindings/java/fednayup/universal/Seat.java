package fednayup.universal;

import static java.lang.foreign.ValueLayout.JAVA_INT;
import static java.lang.foreign.ValueLayout.JAVA_LONG;

import java.lang.foreign.Arena;
import java.lang.foreign.MemorySegment;
import java.util.ArrayList;
import java.util.List;
import java.util.Map;
import fednayup.universal.Universal.Handle;

/** A process of a log, which makes its calls: from any thread, one at a time. */
public final class Seat implements AutoCloseable {
    private static final long ENTRY = 40, CALL = 16;

    private final Handle handle;
    private final Arena arena = Arena.ofAuto();
    private final MemorySegment answer = arena.allocate(JAVA_INT, 2);

    /** Which process it is, from 0 to n - 1. */
    public final long process;

    Seat(Handle handle, long process) {
        this.handle = handle;
        this.process = process;
    }

    /** A call: its reply. Refused: the seat has made its calls, and nothing is changed. */
    public synchronized int apply(long inv) throws Refused {
        handle.call(at -> (int) Universal.APPLY.invokeExact(at, inv, answer));
        return answer.get(JAVA_INT, 0);
    }

    /**
     * Whether the call nth, from 0, of a process stands in the log: all later calls of this seat come after it then. By a
     * law a call that has returned does, but no clause of this call says so: be ready for false.
     */
    public synchronized boolean follows(long process, long nth) throws Refused {
        handle.call(at -> (int) Universal.FOLLOWS.invokeExact(at, process, nth, answer));
        return answer.get(JAVA_INT, 0) != 0;
    }

    /**
     * Closes the log, by the last that has it: all calls, in their order. Refused: another has the log, and the seat stays;
     * memory was refused: the log is closed then, and a further call reads it.
     */
    public List<Entry> finish() throws Refused {
        return finish(Map.of());
    }

    /**
     * The same, and the log is compared with the calls that processes made and the replies that they were given. That it
     * has those of the process whose seat closes it is proved. {@code Differs}: of one of them the log has other calls,
     * and it is let go.
     */
    public synchronized List<Entry> finish(Map<Long, List<Call>> told) throws Refused {
        handle.call(at -> (int) Universal.CLOSE.invokeExact(at));
        try {
            for (Map.Entry<Long, List<Call>> its : told.entrySet()) {
                compare(its.getKey(), its.getValue());
            }
            return entries();
        } finally {
            close();
        }
    }

    private void compare(long process, List<Call> calls) throws Refused {
        try (Arena room = Arena.ofConfined()) {
            MemorySegment nth = room.allocate(JAVA_LONG), made = room.allocate(CALL * Math.max(1, calls.size()), 8);
            for (int i = 0; i < calls.size(); i++) {
                made.set(JAVA_LONG, CALL * i, calls.get(i).inv());
                made.set(JAVA_INT, CALL * i + 8, calls.get(i).reply());
            }
            try {
                long count = calls.size();
                handle.call(at -> (int) Universal.COMPARE.invokeExact(at, process, made, count, nth));
            } catch (Refused refused) {
                throw refused.fault == Fault.DIFFERS ? new Differs(process, nth.get(JAVA_LONG, 0)) : refused;
            }
        }
    }

    private List<Entry> entries() throws Refused {
        try (Arena room = Arena.ofConfined()) {
            MemorySegment count = room.allocate(JAVA_LONG), none = room.allocate(ENTRY, 8);
            handle.call(at -> (int) Universal.READ.invokeExact(at, none, 0L, count));
            long size = count.get(JAVA_LONG, 0);
            MemorySegment entries = room.allocate(ENTRY * Math.max(1, size), 8);
            handle.call(at -> (int) Universal.READ.invokeExact(at, entries, size, count));
            List<Entry> calls = new ArrayList<>();
            for (long i = 0; i < size; i++) {
                calls.add(entry(entries.asSlice(ENTRY * i, ENTRY)));
            }
            return calls;
        }
    }

    private static Entry entry(MemorySegment at) {
        int reply = at.get(JAVA_INT, 36) == 0 ? -1 : at.get(JAVA_INT, 32);
        return new Entry(at.get(JAVA_LONG, 0), at.get(JAVA_LONG, 8), at.get(JAVA_LONG, 16), at.get(JAVA_LONG, 24), reply);
    }

    /** Lets the seat go; at a seat that was let go or has finished it does nothing. */
    @Override
    public synchronized void close() {
        handle.close();
    }
}
