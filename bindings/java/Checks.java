import fednayup.universal.Fault;
import fednayup.universal.Refused;

/** What the tests of calls have in common. */
abstract class Checks {
    interface Action {
        void run() throws Exception;
    }

    static void is(Object found, Object wanted) {
        if (!found.equals(wanted)) {
            throw new AssertionError(found + " is not " + wanted);
        }
    }

    static void throwsA(Class<?> kind, Action action) {
        try {
            action.run();
        } catch (Exception thrown) {
            is(thrown.getClass(), kind);
            return;
        }
        throw new AssertionError("not thrown: " + kind);
    }

    static void refuses(Fault fault, Action action) throws Exception {
        try {
            action.run();
        } catch (Refused refused) {
            is(refused.fault, fault);
            return;
        }
        throw new AssertionError("not refused: " + fault);
    }
}
