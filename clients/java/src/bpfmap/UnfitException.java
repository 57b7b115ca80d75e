package bpfmap;

/** The program was not run, since a window that it declares is too small. The entry is as before. */
public final class UnfitException extends RuntimeException {
    private static final long serialVersionUID = 1;

    /** What did not fit. */
    private final Window window;

    /** What did not fit into its window, in the order in which the server looks at them. */
    public enum Window {
        /** The key. */
        KEY,
        /** The old value. */
        OLD_VALUE,
        /** The argument, or the value of a merge. */
        ARGUMENT
    }

    UnfitException(Window window) {
        super("unfit " + window + ": the program's window for it was declared too small");
        this.window = window;
    }

    /**
     * What did not fit.
     *
     * @return the first that did not fit
     */
    public Window window() {
        return window;
    }
}
