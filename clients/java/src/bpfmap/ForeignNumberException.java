package bpfmap;

/**
 * A request has a program's number that its connection did not give. A number ends with the connection that gave it: a server that
 * was started again may have given it to another program. Nothing was sent. Name the {@link Program} itself in the request, or ask
 * this connection for its number by {@link Connection#numberOf}.
 */
public final class ForeignNumberException extends IllegalArgumentException {
    private static final long serialVersionUID = 1;

    ForeignNumberException(long number) {
        super("this connection did not give the program number " + Long.toUnsignedString(number) + ": nothing was sent. A number "
                + "ends with the connection that gave it. Name the Program itself in the request, or ask this connection by "
                + "numberOf(program)");
    }
}
