package fednayup.universal;

/** A closed log hasn't what a process was told. */
public final class Differs extends Refused {
    private static final long serialVersionUID = 1;

    /** Which process. */
    public final long process;

    /** The number, from 0, of its first call in which they differ. */
    public final long nth;

    Differs(long process, long nth) {
        super(Fault.DIFFERS);
        this.process = process;
        this.nth = nth;
    }
}
