package bpfmap;

import java.io.EOFException;
import java.io.IOException;
import java.net.ProtocolException;
import java.nio.ByteBuffer;
import java.util.Collections;
import java.util.Iterator;

/**
 * Frames over a transport. Requests are written while answers are read, by the same thread: a server whose answers are not read
 * stops reading.
 */
final class Frames {
    /** More than the longest frame has. */
    private static final int ROOM = 64 * 1024;
    private static final ByteBuffer NOTHING = ByteBuffer.allocate(0);

    private final Transport transport;
    private final int longestBody;
    private final ByteBuffer input = ByteBuffer.allocate(ROOM).flip();
    private ByteBuffer output = NOTHING;
    private ByteBuffer gathered;
    private Iterator<byte[]> unsent = Collections.emptyIterator();
    private byte[] nextUnsent;
    private IOException writeFailure;

    Frames(Transport transport, Version version) {
        this.transport = transport;
        longestBody = version.longestBody();
    }

    /** Takes the frames of requests. They are written while their answers are read. */
    void send(Iterator<byte[]> frames) throws ProtocolException {
        if (input.hasRemaining()) {
            throw new ProtocolException("the server sent bytes that no request asked for");
        }
        unsent = frames;
    }

    /** Returns the body of the next frame, for which it waits. */
    Body next() throws IOException {
        Body body = nextIfHere();
        while (body == null) {
            boolean isLeft = write();
            transport.await(isLeft);
            read();
            body = nextIfHere();
        }
        return body;
    }

    /** Returns the body of the next frame if all of it was read, else null. */
    Body nextIfHere() throws ProtocolException {
        if (input.remaining() < Integer.BYTES) {
            return null;
        }
        int length = input.getInt(input.position());
        if (length < 1 || length > longestBody) {
            throw new ProtocolException("the server sent a frame of length " + Integer.toUnsignedString(length));
        }
        if (input.remaining() < Integer.BYTES + length) {
            return null;
        }
        byte[] body = new byte[length];
        input.position(input.position() + Integer.BYTES).get(body);
        return new Body(body);
    }

    /** Whether the server has sent nothing and has not ended the connection since the last answer. */
    boolean isQuiet() {
        try {
            input.compact();
            return transport.read(input) == 0 && input.position() == 0;
        } catch (IOException e) {
            return false;
        } finally {
            input.flip();
        }
    }

    private void read() throws IOException {
        input.compact();
        try {
            if (transport.read(input) < 0) {
                throw (IOException) new EOFException("the connection ended before the answer").initCause(writeFailure);
            }
        } finally {
            input.flip();
        }
    }

    /** Writes what can be written now. Returns whether something is left. */
    private boolean write() {
        try {
            while (hasOutput()) {
                if (transport.write(output) == 0) {
                    return true;
                }
            }
        } catch (IOException e) {
            giveUpWriting(e);
        }
        return false;
    }

    /** Sends nothing more. What was sent before may have been answered, so the answers are read to their end. */
    private void giveUpWriting(IOException why) {
        writeFailure = why;
        unsent = Collections.emptyIterator();
        nextUnsent = null;
        output = NOTHING;
        try {
            transport.endOutput();
        } catch (IOException e) {
            why.addSuppressed(e);
        }
    }

    /** Whether there are bytes to write; takes further frames if there are none. */
    private boolean hasOutput() {
        if (!output.hasRemaining() && hasUnsent()) {
            byte[] frame = takeUnsent();
            output = hasUnsent() ? gather(frame) : ByteBuffer.wrap(frame);
        }
        return output.hasRemaining();
    }

    /** Puts frames together, as many as there is room for. */
    private ByteBuffer gather(byte[] first) {
        if (gathered == null) {
            gathered = ByteBuffer.allocate(ROOM);
        }
        gathered.clear().put(first);
        while (hasUnsent() && nextUnsent.length <= gathered.remaining()) {
            gathered.put(takeUnsent());
        }
        return gathered.flip();
    }

    private boolean hasUnsent() {
        if (nextUnsent == null && unsent.hasNext()) {
            nextUnsent = unsent.next();
        }
        return nextUnsent != null;
    }

    private byte[] takeUnsent() {
        byte[] taken = nextUnsent;
        nextUnsent = null;
        return taken;
    }
}
