package bpfmap;

import java.io.IOException;
import java.nio.ByteBuffer;

/** The bytes of one connection, in both directions. Nothing but {@link #await} waits. */
interface Transport extends AutoCloseable {
    /** Reads the bytes that have come. Returns how many, 0 if there is none yet, or -1 if the stream has ended. */
    int read(ByteBuffer target) throws IOException;

    /** Writes as many bytes as can be taken now. Returns how many. */
    int write(ByteBuffer source) throws IOException;

    /** Says that nothing more will be written. Answers may still come. */
    void endOutput() throws IOException;

    /**
     * Waits until bytes can be read or, if {@code orWrite}, written. It may return earlier.
     *
     * @throws java.net.SocketTimeoutException if neither is so within the time for an answer
     * @throws java.io.InterruptedIOException if the thread is interrupted; it stays so
     */
    void await(boolean orWrite) throws IOException;

    boolean isOpen();

    @Override
    void close();
}
