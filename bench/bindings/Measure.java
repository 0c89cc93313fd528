import java.util.ArrayDeque;
import java.util.ArrayList;
import java.util.List;
import java.util.concurrent.CyclicBarrier;
import java.util.concurrent.locks.ReentrantLock;
import fednayup.universal.Small;

/** Calls on a shared counter or queue by the Java classes: Measure OBJECT FORM N K R, as in measure.c. */
public final class Measure {
    private static final int CAPACITY = 64;

    private interface Call {
        long make(long nth) throws Exception;
    }

    private static Call guardedCounter(ReentrantLock lock, long[] sum) {
        return nth -> {
            lock.lock();
            try {
                long before = sum[0];
                sum[0] += nth + 1;
                return before;
            } finally {
                lock.unlock();
            }
        };
    }

    private static Call guardedQueue(ReentrantLock lock, ArrayDeque<Long> row) {
        return nth -> {
            lock.lock();
            try {
                if (nth % 2 == 1) {
                    Long first = row.poll();
                    return first == null ? 0 : first;
                }
                return row.size() < CAPACITY && row.add(nth + 1) ? 1 : 0;
            } finally {
                lock.unlock();
            }
        };
    }

    private static List<Call> calls(String object, String form, int n) throws Exception {
        List<Call> calls = new ArrayList<>();
        boolean isCounter = object.equals("counter");
        if (form.equals("mutex")) {
            ReentrantLock lock = new ReentrantLock();
            Call call = isCounter ? guardedCounter(lock, new long[1]) : guardedQueue(lock, new ArrayDeque<>());
            for (int t = 0; t < n; t++) {
                calls.add(call);
            }
        } else if (isCounter) {
            try (Small<Small.Counter> opened = Small.Counter.open(n)) {
                for (int t = 0; t < n; t++) {
                    Small.Counter seat = opened.seat();
                    calls.add(nth -> seat.add(nth + 1));
                }
            }
        } else {
            try (Small<Small.Queue> opened = Small.Queue.open(n, CAPACITY)) {
                for (int t = 0; t < n; t++) {
                    Small.Queue seat = opened.seat();
                    calls.add(nth -> nth % 2 == 1 ? seat.take() : seat.put(nth + 1) ? 1 : 0);
                }
            }
        }
        return calls;
    }

    private static long round(List<Call> workers, long calls) throws Exception {
        int n = workers.size();
        long[] first = new long[n];
        long[] last = new long[n];
        long[] told = new long[n];
        CyclicBarrier barrier = new CyclicBarrier(n);
        List<Thread> threads = new ArrayList<>();
        for (int t = 0; t < n; t++) {
            int me = t;
            threads.add(new Thread(() -> {
                try {
                    barrier.await();
                    first[me] = System.nanoTime();
                    for (long nth = 0; nth < calls; nth++) {
                        told[me] += workers.get(me).make(nth);
                    }
                    last[me] = System.nanoTime();
                } catch (Exception failed) {
                    throw new AssertionError(failed);
                }
            }));
        }
        for (Thread thread : threads) {
            thread.start();
        }
        long begun = Long.MAX_VALUE;
        long ended = Long.MIN_VALUE;
        for (int t = 0; t < n; t++) {
            threads.get(t).join();
            begun = Math.min(begun, first[t]);
            ended = Math.max(ended, last[t]);
        }
        return ended - begun;
    }

    public static void main(String[] words) throws Exception {
        for (long r = 0; r < Long.parseLong(words[4]); r++) {
            System.out.println(round(calls(words[0], words[1], Integer.parseInt(words[2])), Long.parseLong(words[3])));
        }
    }
}
