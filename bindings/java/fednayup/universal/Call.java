package fednayup.universal;

/**
 * A call as a caller made it.
 *
 * @param inv what was invoked
 * @param reply what was answered
 */
public record Call(long inv, int reply) {}
