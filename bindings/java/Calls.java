import java.util.List;
import java.util.Map;
import fednayup.universal.Call;
import fednayup.universal.Differs;
import fednayup.universal.Entry;
import fednayup.universal.Fault;
import fednayup.universal.Log;
import fednayup.universal.Refused;
import fednayup.universal.Seat;

/** Each call on its happy path, and each refusal. */
public final class Calls extends Checks {
    private static final int[][] NEXT = {{0, 1}, {1, 0}}, REPLY = {{0, 0}, {1, 1}};

    private static void replies(Log log, long[] invs, int... wanted) throws Refused {
        try (Seat seat = log.seat()) {
            log.close();
            for (int i = 0; i < invs.length; i++) {
                is(seat.apply(invs[i]), wanted[i]);
            }
        }
    }

    private static void objects() throws Exception {
        replies(Log.tally(1, 3), new long[] {5, 2, 1}, 0, 5, 7);
        replies(Log.sticky(1, 4), new long[] {0, 8, 10, 0}, 0, 8, 8, 8);
        replies(Log.register(1, 4), new long[] {(2L << 31) + 6, (3L << 31) + 3, (1L << 62) + (9L << 31) + 4, 0}, 0, 6, 9, 4);
        replies(Log.machine(1, 4, NEXT, REPLY), new long[] {0, 1, 9, 0}, 0, 0, 1, 0);
    }

    private static void refusals() throws Exception {
        refuses(Fault.BAD_COUNT, () -> Log.tally(0, 0));
        refuses(Fault.BAD_COUNT, () -> Log.sticky(65, 1));
        refuses(Fault.BAD_COUNT, () -> Log.sticky(-1, 1));
        refuses(Fault.BAD_ROW, () -> Log.register(1, 0));
        refuses(Fault.BAD_ROW, () -> Log.tally(64, 4097));
        refuses(Fault.BAD_TABLE, () -> Log.machine(1, 1, new int[][] {}, new int[][] {}));
        refuses(Fault.BAD_TABLE, () -> Log.machine(1, 1, new int[][] {{0, 1}, {1, 2}}, REPLY));
        refuses(Fault.BAD_TABLE, () -> Log.machine(1, 1, NEXT, new int[][] {{0, 0}, {1, -1}}));
        refuses(Fault.BAD_TABLE, () -> Log.machine(1, 1, NEXT, new int[][] {{0, 0}}));
        refuses(Fault.BAD_TABLE, () -> Log.machine(1, 1, new int[][] {{0, 1}, {1}}, REPLY));
    }

    private static void seats() throws Exception {
        try (Log log = Log.tally(2, 1)) {
            List<Seat> seats = log.seats();
            is(seats.get(0).process, 1L);
            is(seats.get(1).process, 0L);
            refuses(Fault.NO_SEAT, log::seat);
            seats.forEach(Seat::close);
        }
    }

    private static void full() throws Exception {
        Log log = Log.tally(1, 1);
        Seat seat = log.seat();
        log.close();
        is(seat.apply(4), 0);
        refuses(Fault.SPENT, () -> seat.apply(4));
        is(seat.finish(), List.of(new Entry(2, 0, 0, 4, 0)));
        try {
            seat.apply(1);
            throw new AssertionError("a seat is used after it finished");
        } catch (IllegalStateException closed) {
            seat.close();
        }
    }

    private static void entries() throws Exception {
        Log log = Log.tally(2, 2);
        Seat first = log.seat(), second = log.seat();
        log.close();
        is(List.of(first.apply(5), first.apply(2), second.apply(1)), List.of(0, 5, 7));
        second.close();
        is(first.finish(), List.of(new Entry(2, 1, 0, 5, 0), new Entry(3, 1, 1, 2, 5), new Entry(4, 0, 0, 1, 7)));
    }

    private static void busy() throws Exception {
        Log log = Log.tally(2, 2);
        Seat first = log.seat(), second = log.seat();
        is(second.follows(first.process, 0), false);
        is(first.apply(3), 0);
        is(second.follows(first.process, 0), true);
        refuses(Fault.BUSY, first::finish);
        log.close();
        refuses(Fault.BUSY, first::finish);
        is(first.apply(1), 3);
        second.close();
        is(first.finish().size(), 2);
    }

    private static Seat two() throws Exception {
        Log log = Log.tally(2, 2);
        Seat first = log.seat(), second = log.seat();
        log.close();
        is(first.apply(3), 0);
        is(first.apply(1), 3);
        is(second.apply(7), 4);
        second.close();
        return first;
    }

    private static void differs(Map<Long, List<Call>> told, long process, long nth) throws Exception {
        try {
            two().finish(told);
        } catch (Differs differs) {
            is(differs.fault, Fault.DIFFERS);
            is(differs.process, process);
            is(differs.nth, nth);
            return;
        }
        throw new AssertionError("no difference");
    }

    private static void told() throws Exception {
        Call first = new Call(3, 0), second = new Call(1, 3), third = new Call(7, 4);
        is(two().finish(Map.of(1L, List.of(first, second), 0L, List.of(third), 2L, List.of())).size(), 3);
        differs(Map.of(0L, List.of(new Call(7, 5))), 0, 0);
        differs(Map.of(1L, List.of(first)), 1, 1);
        differs(Map.of(1L, List.of(first, second, third)), 1, 2);
        differs(Map.of(0L, List.of()), 0, 0);
    }

    public static void main(String[] args) throws Exception {
        objects();
        refusals();
        seats();
        full();
        entries();
        busy();
        told();
        System.out.println("calls: as the header says");
    }
}
