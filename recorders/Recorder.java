import java.io.PrintStream;
import java.util.ArrayList;
import java.util.List;
import java.util.concurrent.atomic.AtomicLong;
import java.util.function.Supplier;

/**
 * Records what threads do with an object, as lines that `unicheck` reads: NAME CALL -> REPLY BEGIN END.
 *
 * <p>A number is drawn from one counter before a call begins, and another after it has returned, so calls that the lines
 * put one after the other were made so.
 */
public final class Recorder {
    private final AtomicLong clock = new AtomicLong();
    private final List<Log> logs = new ArrayList<>();

    /** The part of one thread: only that thread makes calls by it. */
    public final class Log {
        private final String name;
        private final List<String> lines = new ArrayList<>();

        private Log(String name) {
            this.name = name;
        }

        /** Makes a call, as call("enq 7", () -> { queue.add(7); return "ok"; }), and returns its reply. */
        public <T> T call(String words, Supplier<T> body) {
            long begin = clock.getAndIncrement();
            lines.add(name + " " + words + " -> ? " + begin);
            T reply = body.get();
            long end = clock.getAndIncrement();
            lines.set(lines.size() - 1, name + " " + words + " -> " + reply + " " + begin + " " + end);
            return reply;
        }
    }

    /** The part of one more thread, whose name is 1 to 20 letters and digits. */
    public synchronized Log log(String name) {
        Log log = new Log(name);
        logs.add(log);
        return log;
    }

    /** Writes all lines, once the threads have been joined. A call that threw has no reply. */
    public synchronized void print(PrintStream out) {
        for (Log log : logs) {
            log.lines.forEach(out::println);
        }
        out.flush();
    }
}
