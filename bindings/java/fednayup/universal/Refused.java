package fednayup.universal;

/** A call was refused. */
public class Refused extends Exception {
    private static final long serialVersionUID = 1;

    /** Why it was. */
    public final Fault fault;

    Refused(Fault fault) {
        super(fault.name().toLowerCase().replace('_', ' '));
        this.fault = fault;
    }
}
