import java.util.ArrayList;
import java.util.List;
import java.util.concurrent.ArrayBlockingQueue;
import java.util.concurrent.BlockingQueue;
import java.util.concurrent.ExecutorService;
import java.util.concurrent.Executors;
import java.util.concurrent.Future;
import java.util.concurrent.Semaphore;
import fednayup.universal.Small;

/** More threads than seats: a pool lends each seat to one thread at a time. It is the program of docs/bindings.md. */
public final class Pool extends Checks {
    private static final int THREADS = 1000;

    /** A call of a thread, with a seat that it is lent: it waits while all are lent. */
    private static long add(BlockingQueue<Small.Counter> pool) throws Exception {
        Small.Counter seat = pool.take();
        try {
            return seat.add(5);
        } finally {
            pool.put(seat);
        }
    }

    /** So many calls by these threads: the last sum. */
    private static long sum(ExecutorService threads) throws Exception {
        List<Small.Counter> seats;
        try (Small<Small.Counter> counter = Small.Counter.open(4)) {
            seats = counter.seats();
        }
        BlockingQueue<Small.Counter> pool = new ArrayBlockingQueue<>(seats.size(), false, seats);
        List<Future<Long>> calls = new ArrayList<>();
        try (threads) {
            for (int i = 0; i < THREADS; i++) {
                calls.add(threads.submit(() -> add(pool)));
            }
        }
        for (Future<Long> call : calls) {
            call.get();
        }
        seats.subList(1, seats.size()).forEach(Small.Seat::close);
        return seats.get(0).finish()[0];
    }

    /** Two virtual threads put 1 to 1,000 each, and two take: a permit for each number, so none finds the queue empty. */
    private static void waiting() throws Exception {
        List<Small.Queue> seats;
        try (Small<Small.Queue> queue = Small.Queue.open(4, 2000)) {
            seats = queue.seats();
        }
        Semaphore ready = new Semaphore(0);
        List<Future<Long>> sums = new ArrayList<>();
        try (ExecutorService threads = Executors.newVirtualThreadPerTaskExecutor()) {
            for (Small.Queue seat : seats) {
                boolean puts = seat.process < 2;
                sums.add(threads.submit(() -> {
                    long sum = 0;
                    for (long number = 1; number <= 1000; number++) {
                        if (puts) {
                            is(seat.put(number), true);
                            ready.release();
                        } else {
                            ready.acquire(); // a virtual thread is parked here
                            long taken = seat.take();
                            is(taken != 0, true);
                            sum += taken;
                        }
                    }
                    return sum;
                }));
            }
        }
        long sum = 0;
        for (Future<Long> taken : sums) {
            sum += taken.get();
        }
        is(sum, 2 * 500_500L);
    }

    public static void main(String[] args) throws Exception {
        waiting();
        is(sum(Executors.newVirtualThreadPerTaskExecutor()), 5L * THREADS);
        is(sum(Executors.newFixedThreadPool(16)), 5L * THREADS);
    }
}
