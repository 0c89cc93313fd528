import java.util.ArrayList;
import java.util.List;

/** A queue whose tail isn't guarded, which four threads share: two calls can put their numbers in one place. */
public class LostUpdate {
    static final int[] items = new int[8000];
    static int head, tail;

    static String enq(int number) {
        int place = tail;
        items[place] = number;
        Thread.yield(); // another thread can put its number in the same place now
        tail = place + 1;
        return "ok";
    }

    static synchronized String deq() {
        return head < tail ? "" + items[head++] : "empty";
    }

    public static void main(String[] words) throws InterruptedException {
        Recorder recorder = new Recorder();
        List<Thread> threads = new ArrayList<>();
        for (int i = 0; i < 4; i++) {
            int first = i * 100;
            Recorder.Log log = recorder.log("T" + i);
            threads.add(new Thread(() -> {
                for (int call = 0; call < 100; call++) {
                    int number = first + call;
                    if (call % 2 == 0) log.call("enq " + number, () -> enq(number));
                    else log.call("deq", () -> deq());
                }
            }));
        }
        for (Thread thread : threads) thread.start();
        for (Thread thread : threads) thread.join();
        recorder.print(System.out);
    }
}
