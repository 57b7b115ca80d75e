package bpfmap;

/** A key has more than 64 bytes, or a value or argument more than 1,024, in version 1 more than 256. Nothing was sent. */
public final class TooLongException extends IllegalArgumentException {
    private static final long serialVersionUID = 1;

    TooLongException(String field, int length, int most) {
        super("refused 1 TooLong: a " + field + " has at most " + most + " bytes, this one has " + length);
    }
}
