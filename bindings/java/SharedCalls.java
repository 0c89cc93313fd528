import java.io.File;
import java.nio.file.FileAlreadyExistsException;
import java.nio.file.Files;
import java.nio.file.NoSuchFileException;
import java.nio.file.Path;
import java.util.List;
import java.util.OptionalLong;
import fednayup.universal.Fault;
import fednayup.universal.Program;
import fednayup.universal.Shared;
import fednayup.universal.Shared.Kind;
import fednayup.universal.Small;

/**
 * Objects that processes share: each call, each refusal, and a process that is killed. With the words {@code add NAME SEATS} it is such
 * a process: it adds 1 to a counter for good; with {@code add NAME SEATS CALLS} so many times.
 */
public final class SharedCalls extends Checks {
    private static String name(String of) {
        return "java." + ProcessHandle.current().pid() + "." + of;
    }

    /** The one seat of a new object, whose name is gone. */
    private static <S extends Small.Seat> S only(Kind<S> kind) throws Exception {
        try (Shared<S> object = Shared.create(name("only"), 1, kind)) {
            Shared.unlink(name("only"));
            return object.claim().seat();
        }
    }

    private static void objects() throws Exception {
        try (Small.Counter counter = only(Kind.counter())) {
            is(List.of(counter.add(5), counter.add(-1), counter.add(0)), List.of(0L, 5L, 4L));
            is(counter.version() > 0, true);
            throwsA(UnsupportedOperationException.class, () -> counter.follows(1));
            throwsA(UnsupportedOperationException.class, counter::finish);
        }
        Small.Register register = only(Kind.register());
        is(List.of(register.write(-1), register.compareExchange(3, 9), register.read()), List.of(0L, -1L, -1L));
        Small.Counters counters = only(Kind.counters(3));
        is(List.of(counters.add(2, 8), counters.add(2, 1)), List.of(0L, 8L));
        throwsA(IndexOutOfBoundsException.class, () -> counters.add(3, 1));
        Small.Queue queue = only(Kind.queue(2));
        is(List.of(queue.take(), queue.put(8), queue.put(9), queue.put(7), queue.take()), List.of(0L, true, true, false, 8L));
        Small.Stack stack = only(Kind.stack(2));
        is(List.of(stack.pop(), stack.push(8), stack.push(9), stack.push(7), stack.pop()), List.of(0L, true, true, false, 9L));
        Small.Map map = only(Kind.map(1));
        is(List.of(map.insert(7, 70), map.insert(7, 71), map.get(7)), List.of(OptionalLong.empty(), OptionalLong.of(70), OptionalLong.of(71)));
        refuses(Fault.NO_ROOM, () -> map.insert(8, 1));
        Small.Book book = only(Kind.book());
        is(List.of(book.deposit(3, 10), book.total()), List.of(10L, 10L));
        refuses(Fault.SHORT, () -> book.withdraw(3, 11));
        Small.Machine machine = only(Kind.machine(new int[][] {{1}, {0}}, new int[][] {{7}, {8}}));
        is(List.of(machine.call(0), machine.call(0)), List.of(7L, 8L));
    }

    /** An account of at most 100, which is answered whether its word was added, and the balance. */
    private static Program account() {
        Program p = new Program(new long[] {40}, 1, 2);
        Program.Register balance = p.state(0), amount = p.invocation(0);
        p.answer(1, balance);
        Program.Register total = p.add(balance, amount);
        p.when(total.atMost(100), () -> {
            p.store(0, total);
            p.answer(0, Program.number(1));
            p.answer(1, total);
        });
        return p;
    }

    private static void programs() throws Exception {
        String of = name("program");
        try (Shared<Small.Own> made = Shared.create(of, 2, Kind.program(account()));
                Shared<Small.Own> again = Shared.attach(of, 2, Kind.program(account()))) {
            try (Small.Own one = made.claim(1).seat()) {
                is(List.of(one.call(60)[0], one.call(1)[0], one.call(-1)[1]), List.of(1L, 0L, 100L));
                refuses(Fault.BAD_WIDTH, one::call);
            }
            Shared.Claimed<Small.Own> two = again.claim(1);
            is(List.of(two.last().made(), two.last().invocation()[0], two.last().reply()[0], two.last().reply()[1]),
                    List.of(3L, -1L, 0L, 100L));
            is(List.of(two.seat().call(0)[0], two.seat().call(0)[1]), List.of(1L, 100L));
            Program other = account();
            other.answer(0, Program.number(2));
            refuses(Fault.OTHER_OBJECT, () -> Shared.attach(of, 2, Kind.program(other)));
        } finally {
            Shared.unlink(of);
        }
        for (int[] widths : new int[][] {{5, 1}, {1, 3}, {1, 0}}) {
            Program wide = new Program(new long[] {}, widths[0], widths[1]);
            refuses(Fault.BAD_CAPACITY, () -> Shared.create(of, 2, Kind.program(wide)));
        }
        Program bad = new Program(new long[] {}, 1, 1);
        bad.state(0);
        refuses(Fault.NO_PLACE, () -> Shared.create(of, 2, Kind.program(bad)));
    }

    private static void names() throws Exception {
        String of = name("names");
        try (Shared<Small.Map> made = Shared.create(of, 2, Kind.map(10)); Shared<Small.Map> again = Shared.attach(of, 2, Kind.map(10))) {
            made.claim().seat().insert(1, 2);
            is(again.claim().seat().get(1), OptionalLong.of(2));
            throwsA(FileAlreadyExistsException.class, () -> Shared.create(of, 2, Kind.map(10)));
            refuses(Fault.OTHER_OBJECT, () -> Shared.attach(of, 2, Kind.map(11)));
            refuses(Fault.OTHER_OBJECT, () -> Shared.attach(of, 3, Kind.map(10)));
            refuses(Fault.OTHER_OBJECT, () -> Shared.attach(of, 2, Kind.counter()));
        } finally {
            Shared.unlink(of);
        }
        throwsA(NoSuchFileException.class, () -> Shared.attach(of, 2, Kind.map(10)));
        throwsA(NoSuchFileException.class, () -> Shared.unlink(of));
        refuses(Fault.BAD_COUNT, () -> Shared.create(of, 65, Kind.counter()));
        refuses(Fault.BAD_CAPACITY, () -> Shared.create(of, 2, Kind.queue(65535)));
        refuses(Fault.BAD_TABLE, () -> Shared.create(of, 2, Kind.machine(new int[][] {{2}}, new int[][] {{0}})));
        Path zeros = Path.of("/dev/shm/universal." + of);
        Files.write(zeros, new byte[10_000]);
        refuses(Fault.NOT_A_SEGMENT, () -> Shared.attach(of, 2, Kind.map(10)));
        Files.delete(zeros);
    }

    private static void seats() throws Exception {
        String of = name("seats");
        try (Shared<Small.Counter> counter = Shared.create(of, 2, Kind.counter())) {
            Shared.unlink(of);
            Shared.Claimed<Small.Counter> one = counter.claim(1);
            is(List.of(one.seat().process, one.last().was(), one.last().made()), List.of(1L, Shared.Was.NEW, 0L));
            refuses(Fault.TAKEN, () -> counter.claim(1));
            refuses(Fault.NO_SEAT, () -> counter.claim(2));
            one.seat().add(5);
            Small.Counter other = counter.claim().seat();
            refuses(Fault.NO_SEAT, counter::claim);
            is(other.add(1), 5L);
            one.seat().close();
            throwsA(IllegalStateException.class, () -> one.seat().add(1));
            Shared.Last last = counter.claim(1).last();
            is(List.of(last.was(), last.made(), last.ended(), last.invocation()[0], last.reply()[0], last.next() == null),
                    List.of(Shared.Was.RELEASED, 1L, false, 5L, 0L, true));
        }
    }

    private static void kills() throws Exception {
        String of = name("kills");
        try (Shared<Small.Counter> counter = Shared.create(of, 2, Kind.counter())) {
            Small.Counter mine = counter.claim(0).seat();
            long made = 0;
            for (int k = 0; k < 5; k++) {
                Process process = new ProcessBuilder(ProcessHandle.current().info().command().orElseThrow(), "--enable-native-access=ALL-UNNAMED",
                        "-Duniversal.library=" + System.getProperty("universal.library"),
                        "-Duniversal.shared.library=" + System.getProperty("universal.shared.library"),
                        "-cp", System.getProperty("java.class.path"), "SharedCalls", "add", of, "2").redirectError(ProcessBuilder.Redirect.INHERIT)
                        .redirectOutput(new File("/dev/null")).start();
                for (long before = mine.add(0); process.isAlive() && mine.add(0) < before + 1000;) {
                    Thread.sleep(1);
                }
                process.destroyForcibly().waitFor();
                Shared.Claimed<Small.Counter> dead = counter.claim(1);
                is(List.of(dead.last().was(), dead.last().made() > made), List.of(Shared.Was.DIED, true));
                made = dead.last().made();
                is(List.of(mine.add(0), dead.last().invocation()[0], dead.last().reply()[0]), List.of(made, 1L, made - 1));
                dead.seat().close();
            }
        } finally {
            Shared.unlink(of);
        }
    }

    private SharedCalls() {}

    public static void main(String[] words) throws Exception {
        if (words.length >= 3) {
            long calls = words.length > 3 ? Long.parseLong(words[3]) : Long.MAX_VALUE;
            Small.Counter seat = Shared.attach(words[1], Long.parseLong(words[2]), Kind.counter()).claim().seat();
            for (long k = 0; k < calls; k++) {
                seat.add(1);
            }
            return;
        }
        objects();
        programs();
        names();
        seats();
        kills();
    }
}
