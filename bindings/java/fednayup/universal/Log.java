package fednayup.universal;

import static java.lang.foreign.ValueLayout.JAVA_LONG;

import java.lang.foreign.Arena;
import java.lang.foreign.MemorySegment;
import java.util.ArrayList;
import java.util.List;
import fednayup.universal.Universal.Handle;

/**
 * An object that n processes share, with the seats that are still to be given out. Each process makes up to k calls.
 *
 * <p>A call takes no lock of the library and no memory, as tests see, and ends within {@code 12n + 15} steps on shared
 * words, whatever the other threads do. The functions behind this class are proved; this class is not.
 */
public final class Log implements AutoCloseable {
    private final Handle handle = new Handle();
    private final List<Seat> had = new ArrayList<>();

    private Log() {}

    private static Log opened(Universal.With open) throws Refused {
        Log log = new Log();
        try {
            log.handle.call(open);
            return log;
        } catch (Refused refused) {
            log.close();
            throw refused;
        }
    }

    /** A sum, 0 at the start: a call adds its number modulo 2^31, and is answered the sum before. */
    public static Log tally(long n, long k) throws Refused {
        return opened(log -> (int) Universal.OPEN_TALLY.invokeExact(n, k, log));
    }

    /**
     * A register that keeps the first value: a call from 1 to 10^9 sets it if it is unset, and each other one reads. The
     * reply is the value afterwards, 0 for unset.
     */
    public static Log sticky(long n, long k) throws Refused {
        return opened(log -> (int) Universal.OPEN_STICKY.invokeExact(n, k, log));
    }

    /**
     * A register of 31 bits, 0 at the start: {@code i >>> 31} is the operation of a call i, and the lowest 31 bits a value.
     * 0 reads, 1 writes, 2 swaps, 3 adds, 4 writes a greater value, and 2^31 + e writes where the register has e. A write is
     * answered 0, and each other call the value before.
     */
    public static Log register(long n, long k) throws Refused {
        return opened(log -> (int) Universal.OPEN_REGISTER.invokeExact(n, k, log));
    }

    /** The machine of two tables with a row for each state and an entry for each invocation; state 0 is the start. */
    public static Log machine(long n, long k, int[][] next, int[][] reply) throws Refused {
        Universal.Tables tables = Universal.Tables.of(next, reply);
        return opened(log -> (int) Universal.OPEN_MACHINE.invokeExact(n, k, tables.states(), tables.invocations(),
                tables.next(), tables.nexts(), tables.reply(), tables.replies(), log));
    }

    /** The seat of the greatest process that has none yet. Refused: all are given out; memory. */
    public synchronized Seat seat() throws Refused {
        handle.at(); // of a closed object nothing is made
        Handle seat = new Handle();
        try (Arena arena = Arena.ofConfined()) {
            MemorySegment process = arena.allocate(JAVA_LONG);
            handle.call(at -> (int) Universal.SEAT.invokeExact(at, seat.at(), process));
            return new Seat(seat, process.get(JAVA_LONG, 0));
        } catch (Refused refused) {
            seat.close();
            throw refused;
        }
    }

    /**
     * All seats that are left, that of the greatest process first. Refused: memory; the seats that were had by then are in what
     * the next call answers.
     */
    public synchronized List<Seat> seats() throws Refused {
        return Universal.left(had, this::seat);
    }

    /** Lets the log go; seats that were given out stay. */
    @Override
    public synchronized void close() {
        handle.close();
    }
}
