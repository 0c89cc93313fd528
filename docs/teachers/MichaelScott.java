import java.util.*;
import java.util.concurrent.atomic.*;

/** The queue of Michael and Scott with one line wrong: java MichaelScott.java > history.txt; unicheck queue history.txt */
public class MichaelScott {
    static final class Node {
        final int number;
        final AtomicReference<Node> next = new AtomicReference<>();
        Node(int number) { this.number = number; }
    }

    static final AtomicReference<Node> head = new AtomicReference<>(new Node(0)), tail = new AtomicReference<>(head.get());
    static final AtomicLong clock = new AtomicLong(); // a number before each call, and one after it

    static String enq(int number) {
        Node node = new Node(number);
        while (true) {
            Node last = tail.get(), next = last.next.get();
            if (next != null) { tail.compareAndSet(last, next); continue; }
            Thread.yield(); // the threads take turns here, so that what can go wrong does
            last.next.set(node);
            tail.compareAndSet(last, node);
            return "ok";
        }
    }

    static String deq() {
        while (true) {
            Node first = head.get(), last = tail.get(), next = first.next.get();
            if (next == null) return "empty";
            if (first == last) { tail.compareAndSet(last, next); continue; }
            if (head.compareAndSet(first, next)) return "" + next.number;
        }
    }

    static void work(int thread, int calls, List<String> lines) {
        for (int call = 0; call < calls; call++) {
            int number = calls * thread + call;
            long begin = clock.getAndIncrement();
            String said = call % 2 == 0 ? "enq " + number + " -> " + enq(number) : "deq -> " + deq();
            lines.add("T" + thread + " " + said + " " + begin + " " + clock.getAndIncrement());
        }
    }

    public static void main(String[] words) throws InterruptedException {
        int calls = words.length > 0 ? Integer.parseInt(words[0]) : 12; // of each of four threads
        List<List<String>> logs = new ArrayList<>();
        List<Thread> threads = new ArrayList<>();
        for (int thread = 0; thread < 4; thread++) {
            int name = thread;
            List<String> lines = new ArrayList<>();
            logs.add(lines);
            threads.add(new Thread(() -> work(name, calls, lines)));
        }
        for (Thread one : threads) one.start();
        for (Thread one : threads) one.join();
        for (List<String> lines : logs) lines.forEach(System.out::println);
    }
}
