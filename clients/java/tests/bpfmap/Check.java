package bpfmap;

import java.util.Objects;

/** What a test says of what it sees. */
final class Check {
    private Check() {}

    /** Code that may throw. */
    interface Action {
        void run() throws Exception;
    }

    static void that(String what, boolean holds) {
        if (!holds) {
            throw new AssertionError(what);
        }
    }

    static void equal(String what, Object wanted, Object got) {
        if (!Objects.deepEquals(wanted, got)) {
            throw new AssertionError(what + ": wanted " + wanted + ", got " + got);
        }
    }

    /** Whether the action throws this exception, which is given back. */
    static <E extends Exception> E raises(String what, Class<E> kind, Action action) {
        try {
            action.run();
        } catch (Exception e) {
            if (kind.isInstance(e)) {
                return kind.cast(e);
            }
            throw new AssertionError(what + ": wanted " + kind.getSimpleName() + ", got " + e, e);
        }
        throw new AssertionError(what + ": wanted " + kind.getSimpleName() + ", nothing was thrown");
    }
}
