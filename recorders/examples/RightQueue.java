import java.util.ArrayList;
import java.util.List;
import java.util.concurrent.ConcurrentLinkedQueue;

/** Java's own queue, which four threads share: right. RightQueue [CALLS of each thread] */
public class RightQueue {
    public static void main(String[] words) throws InterruptedException {
        int calls = words.length > 0 ? Integer.parseInt(words[0]) : 2000;
        ConcurrentLinkedQueue<Integer> queue = new ConcurrentLinkedQueue<>();
        Recorder recorder = new Recorder();
        List<Thread> threads = new ArrayList<>();
        for (int i = 0; i < 4; i++) {
            int first = i * calls;
            Recorder.Log log = recorder.log("T" + i);
            threads.add(new Thread(() -> {
                for (int call = 0; call < calls; call++) {
                    int number = first + call;
                    if (call % 2 == 0) {
                        log.call("enq " + number, () -> { queue.add(number); return "ok"; });
                    } else {
                        log.call("deq", () -> {
                            Integer taken = queue.poll();
                            return taken == null ? "empty" : taken.toString();
                        });
                    }
                }
            }));
        }
        for (Thread thread : threads) thread.start();
        for (Thread thread : threads) thread.join();
        recorder.print(System.out);
    }
}
