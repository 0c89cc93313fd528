package fednayup.universal;

/** Why a call was refused, in the order in which {@code universal.h} numbers it. */
public enum Fault {
    /** The number of processes isn't from 1 to 64. */
    BAD_COUNT,
    /** The number of calls of each process isn't from 1 to 4096. */
    BAD_ROW,
    /** Memory was refused. */
    MEMORY,
    /** The seat has made all its calls. */
    FULL,
    /** All seats are given out. */
    NO_SEAT,
    /** Another handle has the log or the object. */
    BUSY,
    /** The handle hasn't what the call is for. */
    WRONG_HANDLE,
    /** The tables aren't those of a machine. */
    BAD_TABLE,
    /** The closed log has other calls of a process. */
    DIFFERS,
    /** A state would have more than 65,536 words; of a program also an invocation or a reply, or the reply none. */
    BAD_CAPACITY,
    /** These aren't as many words as those of the object. */
    BAD_WIDTH,
    /** An instruction of a program has no operation that there is. No call of this package gets it. */
    NO_OPERATION,
    /** It names a register that there isn't. */
    NO_REGISTER,
    /** Its place lies outside its area. */
    NO_PLACE,
    /** It would go on at itself or at an earlier instruction. */
    JUMPS_BACK,
    /** It would go on past the end. */
    NO_TARGET,
    /** Its loop would go back to a later instruction. */
    GOES_FORWARD,
    /** There are more than 16 loops. */
    NO_LOOP,
    /** A program has more than 4,096 instructions, or more than 2^32 steps in a call. */
    TOO_LONG,
    /** A map has no room for a new key: no status of the library, but a reply. */
    NO_ROOM,
    /** A balance would be too great: a reply, too. */
    OVER,
    /** A balance is too small: a reply, too. */
    SHORT,
    /** The file is no segment, or not a whole one. This and the next are of {@link Shared} alone. */
    NOT_A_SEGMENT,
    /** The segment was made by another version or build of the library. */
    OTHER_LIBRARY,
    /** The segment has another kind or another number of seats. */
    OTHER_OBJECT,
    /** The segment's address is taken in this process. */
    ADDRESS,
    /** The seat has a living owner. */
    TAKEN;

    /** {@link #FULL} by a better name: it is of no queue or map, but of a seat. */
    public static final Fault SPENT = FULL;

    static Fault of(int status) {
        return switch (status) {
            case 20, 27 -> NOT_A_SEGMENT;
            case 21 -> OTHER_LIBRARY;
            case 22, 26 -> OTHER_OBJECT;
            case 23 -> ADDRESS;
            case 25 -> TAKEN;
            default -> values()[status - 1];
        };
    }
}
