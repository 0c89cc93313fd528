package fednayup.universal;

import static java.lang.foreign.ValueLayout.ADDRESS;
import static java.lang.foreign.ValueLayout.JAVA_LONG;

import java.lang.foreign.Arena;
import java.lang.foreign.MemorySegment;
import java.util.ArrayList;
import java.util.Arrays;
import java.util.List;
import java.util.function.Consumer;

/**
 * An object of one's own: a program that reads like code. An account of at most 100, whose call adds its word where the sum is no
 * more than that, and is answered the sum, else 0:
 *
 * <pre>{@code
 * Program p = new Program(new long[] {0}, 1, 1);
 * Program.Register total = p.add(p.state(0), p.invocation(0)); // the call ends where it is no number of 64 bits
 * p.when(total.atMost(100), () -> {
 *     p.store(0, total);
 *     p.answer(0, total);
 * });
 * List<Small.Own> seats = p.open(4).seats();
 * seats.get(0).call(40); // {40}
 * }</pre>
 *
 * <p>A program goes through its instructions in each call, on 16 registers of 64 bits, two of which take the numbers that an instruction
 * names; its state stays as it left it. Numbers are unsigned. The library checks a program as it is opened, and what a program means
 * is proved; this class is tested.
 */
public final class Program {
    private static final int REGISTERS = 14;
    private static final int SET = 0x10, LOAD = 0x20, STORE = 0x30, ANSWER = 0x32, CHECKED = 0x40, WRAPPING = 0x50, JUMP = 0x60, AGAIN = 0x70;
    private static final int EQUAL = 1, NOT_EQUAL = 2, LESS = 3, AT_MOST = 4;

    private final long[] start;
    private final int invocation, reply;
    private final List<Object[]> code = new ArrayList<>();
    private int taken, loops;

    /** Where the call ends. */
    public final Label end = new Label();

    /** The words of the first state, and how many words an invocation and a reply have. */
    public Program(long[] start, int invocation, int reply) {
        this.start = start.clone();
        this.invocation = invocation;
        this.reply = reply;
    }

    /** A register, or a number. */
    public sealed interface Value {}

    private record Number(long number) implements Value {}

    /** A number as a value. */
    public static Value number(long number) {
        return new Number(number);
    }

    /** A number of a call. */
    public record Register(int index) implements Value {
        private Test compared(int by, Value right) {
            return new Test(by, this, right);
        }

        /** It has the same number. */
        public Test equalTo(Value other) {
            return compared(EQUAL, other);
        }

        /** It has this number. */
        public Test equalTo(long other) {
            return equalTo(number(other));
        }

        /** It has another number. */
        public Test differs(Value other) {
            return compared(NOT_EQUAL, other);
        }

        /** It has another number than this. */
        public Test differs(long other) {
            return differs(number(other));
        }

        /** It has less. */
        public Test less(Value other) {
            return compared(LESS, other);
        }

        /** It has at most as much. */
        public Test atMost(Value other) {
            return compared(AT_MOST, other);
        }

        /** It has at most this. */
        public Test atMost(long other) {
            return atMost(number(other));
        }

        /** It has more than this. */
        public Test more(long other) {
            return atMost(other).not();
        }
    }

    /** A comparison, for {@code when} and {@code go}. */
    public record Test(int by, Value left, Value right) {
        private Test not() {
            return by <= NOT_EQUAL ? new Test(EQUAL + NOT_EQUAL - by, left, right) : new Test(LESS + AT_MOST - by, right, left);
        }
    }

    /** A place where a program goes on, which {@code here} tells. One that is never told is refused as the program is opened. */
    public static final class Label {
        private long at = -1;

        /** A label that has no place yet. */
        public Label() {}
    }

    /** A program was refused: {@code place} is the number of the first instruction that is wrong, -1 where it is the whole. */
    public static final class Bad extends Refused {
        private static final long serialVersionUID = 1;

        /** The number of the instruction. */
        public final long place;

        Bad(Fault fault, long place) {
            super(fault);
            this.place = place;
        }
    }

    private void write(int operation, Object to, Object left, Object right, Object otherwise) {
        code.add(new Object[] {(long) operation, to, left, right, otherwise});
    }

    private long of(Value value, long scratch) {
        if (value instanceof Register register) {
            return register.index();
        }
        write(SET, scratch, ((Number) value).number(), 0L, 0L);
        return scratch;
    }

    private Register fresh() {
        if (taken == REGISTERS) {
            throw new IllegalStateException("a program has 14 registers");
        }
        return new Register(taken++);
    }

    /** A new register with a value. In a block, it is the block's. */
    public Register register(Value value) {
        Register register = fresh();
        set(register, value);
        return register;
    }

    /** Gives a register a number, or that of another one. */
    public void set(Register to, Value value) {
        if (value instanceof Register from) {
            write(WRAPPING, (long) to.index(), (long) from.index(), of(number(0), 15), 0L);
        } else {
            write(SET, (long) to.index(), ((Number) value).number(), 0L, 0L);
        }
    }

    private static int by(Value place) {
        return place instanceof Register ? 1 : 0;
    }

    private static long at(Value place) {
        return place instanceof Register register ? register.index() : ((Number) place).number();
    }

    private Register load(int area, Value place) {
        Register to = fresh();
        write(LOAD + area + by(place), (long) to.index(), at(place), 0L, end);
        return to;
    }

    /** A word of the state, in a new register; where there is none at that place, the call ends. */
    public Register state(Value place) {
        return load(0, place);
    }

    /** A word of the state. */
    public Register state(long place) {
        return state(number(place));
    }

    /** A word of the invocation, in a new register. */
    public Register invocation(long place) {
        return load(2, number(place));
    }

    private void stored(int operation, Value place, Value value) {
        write(operation + by(place), at(place), of(value, 14), 0L, end);
    }

    /** Writes a word of the state; where there is none at that place, the call ends. */
    public void store(Value place, Value value) {
        stored(STORE, place, value);
    }

    /** Writes a word of the state. */
    public void store(long place, Value value) {
        store(number(place), value);
    }

    /** Writes a word of the reply. */
    public void answer(long place, Value value) {
        stored(ANSWER, number(place), value);
    }

    private Register checked(int by, Register to, Value left, Value right, Label otherwise) {
        long first = of(left, 14), second = of(right, 15);
        Register result = to == null ? fresh() : to;
        write(CHECKED + by, (long) result.index(), first, second, otherwise);
        return result;
    }

    /** The sum, in a new register; where it is no number of 64 bits, the call ends. */
    public Register add(Value left, Value right) {
        return add(left, right, end);
    }

    /** The sum; where it is no number of 64 bits, the program goes on at the label. */
    public Register add(Value left, Value right, Label otherwise) {
        return checked(0, null, left, right, otherwise);
    }

    /** The sum with a number. */
    public Register add(Value left, long right) {
        return add(left, number(right));
    }

    /** Adds to a register; where that is no number of 64 bits, the call ends. */
    public void addTo(Register to, Value value) {
        checked(0, to, to, value, end);
    }

    /** Takes from a register; where that is below 0, it stays, and the program goes on at the label. */
    public void subtractFrom(Register to, Value value, Label otherwise) {
        checked(1, to, to, value, otherwise);
    }

    /** The difference, in a new register; where it is below 0, the program goes on at the label. */
    public Register subtract(Value left, Value right, Label otherwise) {
        return checked(1, null, left, right, otherwise);
    }

    /** The product, in a new register; where it is no number of 64 bits, the program goes on at the label. */
    public Register multiply(Value left, Value right, Label otherwise) {
        return checked(2, null, left, right, otherwise);
    }

    /** The quotient, in a new register; where one would divide by 0, the program goes on at the label. */
    public Register divide(Value left, Value right, Label otherwise) {
        return checked(3, null, left, right, otherwise);
    }

    /** What the division leaves. */
    public Register remainder(Value left, Value right, Label otherwise) {
        return checked(4, null, left, right, otherwise);
    }

    /** The label is here. */
    public void here(Label label) {
        label.at = code.size();
    }

    /** Goes on at the label. */
    public void go(Label to) {
        write(JUMP, to, 0L, 0L, 0L);
    }

    /** Goes on at the label, where the test holds. */
    public void go(Test test, Label to) {
        long left = of(test.left(), 14), right = of(test.right(), 15);
        write(JUMP + test.by(), to, left, right, 0L);
    }

    /** The registers that are made in the block are free again behind it. */
    public void block(Runnable write) {
        int before = taken;
        write.run();
        taken = before;
    }

    /** What is written in the block is done where the test holds. */
    public void when(Test test, Runnable write) {
        Label past = new Label();
        go(test.not(), past);
        block(write);
        here(past);
    }

    /**
     * What is written in the block is done {@code most} times, once at least, or until the program goes on at the label, which is behind
     * it. The count is of the whole call: a loop in another one isn't begun anew.
     */
    public void repeat(long most, Consumer<Label> write) {
        Label past = new Label();
        long back = code.size(), loop = loops++;
        block(() -> write.accept(past));
        write(AGAIN, back, Math.max(1, most) - 1, loop, 0L);
        here(past);
    }

    private static MemorySegment words(Arena arena, long[] words) {
        return arena.allocate(JAVA_LONG, Math.max(1, words.length)).copyFrom(MemorySegment.ofArray(words));
    }

    private long[] words() {
        end.at = code.size();
        return code.stream().flatMap(Arrays::stream)
                .mapToLong(word -> word instanceof Label label ? label.at : (long) word).toArray();
    }

    /** The words by which {@code universal_shared_kind} names a program. */
    void writeTo(MemorySegment kind, Arena arena) {
        long[] words = words();
        kind.set(ADDRESS, 0, words(arena, words));
        kind.set(JAVA_LONG, 8, words.length / 5);
        kind.set(ADDRESS, 16, words(arena, start));
        kind.set(JAVA_LONG, 24, start.length);
        kind.set(JAVA_LONG, 32, invocation);
        kind.set(JAVA_LONG, 40, reply);
    }

    Small.Own seat(Small.Place place, long process) {
        return new Small.Own(place, process, start.length, invocation, reply);
    }

    /** The object for n processes. Refused: something of the program is wrong, as a {@link Bad}; n; memory. */
    public Small<Small.Own> open(long n) throws Refused {
        long[] words = words();
        try (Arena arena = Arena.ofConfined()) {
            MemorySegment code = words(arena, words), first = words(arena, start);
            MemorySegment place = arena.allocate(JAVA_LONG);
            try {
                return Small.Own.open(n, code, words.length, first, start.length, invocation, reply, place);
            } catch (Refused refused) {
                Fault fault = refused.fault;
                if (fault.compareTo(Fault.NO_OPERATION) >= 0 && fault.compareTo(Fault.NO_LOOP) <= 0) {
                    throw new Bad(fault, place.get(JAVA_LONG, 0));
                }
                throw fault == Fault.TOO_LONG || fault == Fault.BAD_CAPACITY ? new Bad(fault, -1) : refused;
            }
        }
    }
}
