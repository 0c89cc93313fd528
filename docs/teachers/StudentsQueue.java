import java.util.*;
import java.util.concurrent.*;
import java.util.concurrent.atomic.*;

/** A student's queue, and what four threads did with it: java StudentsQueue.java > history.txt */
public class StudentsQueue {
    static final int[] items = new int[100];
    static final AtomicInteger head = new AtomicInteger(), tail = new AtomicInteger();

    static synchronized String enq(int number) {
        items[tail.get()] = number;
        tail.incrementAndGet();
        return "ok";
    }

    static String deq() {
        int place = head.get();
        if (place == tail.get()) return "empty";
        int number = items[place];
        Thread.yield(); // the threads take turns here, so that what can go wrong does
        head.set(place + 1);
        return "" + number;
    }

    static void work(int thread, Queue<String> lines) {
        for (int call = 0; call < 12; call++) {
            int number = 100 * thread + call;
            long begin = System.nanoTime();
            String said = call % 2 == 0 ? "enq " + number + " -> " + enq(number) : "deq -> " + deq();
            lines.add("T" + thread + " " + said + " " + begin + " " + System.nanoTime());
        }
    }

    public static void main(String[] words) throws InterruptedException {
        Queue<String> lines = new ConcurrentLinkedQueue<>();
        List<Thread> threads = new ArrayList<>();
        for (int thread = 0; thread < 4; thread++) {
            int name = thread;
            threads.add(new Thread(() -> work(name, lines)));
        }
        for (Thread one : threads) one.start();
        for (Thread one : threads) one.join();
        lines.forEach(System.out::println);
    }
}
