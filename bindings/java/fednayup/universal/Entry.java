package fednayup.universal;

/**
 * A call that took effect: the nth one of its process, from 0.
 *
 * @param seq its number in the log; the first entry has 2
 * @param process whose call it was
 * @param nth the how many-th call of its process it was, from 0
 * @param inv what was invoked
 * @param reply what was answered, or -1 in a last entry whose call never returned
 */
public record Entry(long seq, long process, long nth, long inv, int reply) {}
