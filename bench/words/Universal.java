// The universal construction as the textbook has it (Herlihy and Shavit, chapter 6), with the state after each call
// settled in its node, so that no call replays the list: `Universal OBJECT N K R`, as in program.txt. It prints the
// nanoseconds that each round took; as many rounds again are run first, and not printed.

import java.util.concurrent.atomic.AtomicInteger;
import java.util.concurrent.atomic.AtomicReference;
import java.util.concurrent.atomic.AtomicReferenceArray;

public final class Universal {
    record Settled(int state, int reply) {}

    static final class Node {
        final long inv;
        final AtomicReference<Node> after = new AtomicReference<>();
        final AtomicReference<Settled> settled = new AtomicReference<>();
        volatile Node before;
        volatile int seq;

        Node(long inv) {
            this.inv = inv;
        }

        Node decide(Node preferred) {
            return after.compareAndSet(null, preferred) ? preferred : after.get();
        }
    }

    final boolean isTally;
    final int n;
    final AtomicReferenceArray<Node> announced;
    final AtomicReferenceArray<Node> heads;

    Universal(boolean isTally, int n) {
        this.isTally = isTally;
        this.n = n;
        Node anchor = new Node(0);
        anchor.seq = 1;
        anchor.settled.set(new Settled(0, 0));
        announced = new AtomicReferenceArray<>(n);
        heads = new AtomicReferenceArray<>(n);
        for (int p = 0; p < n; p++) {
            announced.set(p, anchor);
            heads.set(p, anchor);
        }
    }

    Settled step(int state, long inv) {
        if (isTally) {
            return new Settled((int) ((state + inv) % (1L << 31)), state);
        }
        int next = state == 0 && inv <= 1_000_000_000 ? (int) inv : state;
        return new Settled(next, next);
    }

    int apply(int p, long inv) {
        Node mine = new Node(inv);
        announced.set(p, mine);
        Node last = heads.get(0);
        for (int q = 1; q < n; q++) {
            Node head = heads.get(q);
            if (head.seq > last.seq) last = head;
        }
        heads.set(p, last);
        while (mine.seq == 0) {
            Node c = heads.get(p);
            Node help = announced.get((c.seq + 1) % n);
            Node d = c.decide(help.seq == 0 ? help : mine);
            if (d.settled.get() == null) {
                d.settled.compareAndSet(null, step(c.settled.get().state(), d.inv));
            }
            d.before = c;
            d.seq = c.seq + 1;
            heads.set(p, d);
        }
        heads.set(p, mine);
        return mine.settled.get().reply();
    }

    static long round(boolean isTally, int n, int k) throws InterruptedException {
        Universal object = new Universal(isTally, n);
        AtomicInteger ready = new AtomicInteger();
        long[] from = new long[n];
        long[] to = new long[n];
        long[] kept = new long[n];
        Thread[] threads = new Thread[n];
        for (int t = 0; t < n; t++) {
            int p = t;
            threads[p] = new Thread(() -> {
                long word = 0x9e3779b97f4a7c15L;
                long sum = 0;
                ready.incrementAndGet();
                while (ready.get() < n) Thread.onSpinWait();
                from[p] = System.nanoTime();
                for (int nth = 0; nth < k; nth++) {
                    word ^= word << 13;
                    word ^= word >>> 7;
                    word ^= word << 17;
                    sum += object.apply(p, Long.remainderUnsigned(word, 1000));
                }
                to[p] = System.nanoTime();
                kept[p] = sum;
            });
            threads[p].start();
        }
        long first = Long.MAX_VALUE, last = Long.MIN_VALUE;
        for (int p = 0; p < n; p++) {
            threads[p].join();
            first = Math.min(first, from[p]);
            last = Math.max(last, to[p]);
        }
        return last - first;
    }

    public static void main(String[] words) throws InterruptedException {
        boolean isTally = words[0].equals("tally");
        int n = Integer.parseInt(words[1]);
        int k = Integer.parseInt(words[2]);
        int rounds = Integer.parseInt(words[3]);
        for (int r = 0; r < rounds; r++) round(isTally, n, k);
        for (int r = 0; r < rounds; r++) System.out.println(round(isTally, n, k));
    }
}
