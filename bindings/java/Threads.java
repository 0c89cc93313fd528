import java.util.ArrayList;
import java.util.List;
import fednayup.universal.Entry;
import fednayup.universal.Log;
import fednayup.universal.Refused;
import fednayup.universal.Seat;

/** Threads that count, that agree on a value, and that run a machine by its tables. */
public final class Threads {
    private static final int THREADS = 4, CALLS = 1000;

    private interface Inv {
        long of(long process);
    }

    /** Each seat in a thread of its own; then all calls in their order. */
    private static List<Entry> shared(Log log, Inv inv) throws Refused, InterruptedException {
        List<Seat> seats = log.seats();
        log.close();
        List<Thread> threads = new ArrayList<>();
        for (Seat seat : seats) {
            threads.add(Thread.ofPlatform().start(() -> {
                try {
                    for (int i = 0; i < CALLS; i++) {
                        seat.apply(inv.of(seat.process));
                    }
                } catch (Refused refused) {
                    throw new AssertionError(refused);
                }
            }));
        }
        for (Thread thread : threads) {
            thread.join();
        }
        seats.subList(1, THREADS).forEach(Seat::close);
        return seats.get(0).finish();
    }

    public static void main(String[] args) throws Exception {
        List<Entry> calls = shared(Log.tally(THREADS, CALLS), process -> process + 1);
        long sum = 0;
        for (Entry call : calls) {
            sum += call.inv();
        }
        System.out.println("count: " + calls.size() + " calls, sum " + sum);

        calls = shared(Log.sticky(THREADS, CALLS), process -> process + 1);
        boolean same = true;
        for (Entry call : calls) {
            same &= call.reply() == calls.get(0).inv();
        }
        System.out.println("agree: one value " + same);

        // A turnstile of two states, locked and unlocked: a coin (0) unlocks it, and a push (1) locks it. The reply is 1 to
        // a push that passes.
        calls = shared(Log.machine(THREADS, CALLS, new int[][] {{1, 0}, {1, 0}}, new int[][] {{0, 0}, {0, 1}}), process -> process % 2);
        boolean unlocked = false, told = true;
        for (Entry call : calls) {
            told &= call.reply() == (unlocked && call.inv() == 1 ? 1 : 0);
            unlocked = call.inv() == 0;
        }
        System.out.println("machine: " + calls.size() + " calls, as its tables say " + told);
    }
}
