package bpfmap;

/** An object file has more, or less, than the instructions of one program. What it may have stands in docs/C.md. */
public final class ObjectFaultException extends IllegalArgumentException {
    private static final long serialVersionUID = 1;

    ObjectFaultException(String message) {
        super(message);
    }
}
