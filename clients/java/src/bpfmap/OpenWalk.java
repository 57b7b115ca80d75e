package bpfmap;

import java.io.IOException;
import java.io.UncheckedIOException;
import java.util.ArrayDeque;
import java.util.Iterator;
import java.util.List;
import java.util.Map;
import java.util.NoSuchElementException;
import java.util.Queue;
import java.util.concurrent.atomic.AtomicBoolean;

/**
 * A walk whose items are read as they come, in the order of the keys' bytes. It keeps no more of them here than one piece of the
 * stream has. Closing it before its end closes its connection, since the rest of the answer is still on its way.
 *
 * <pre>{@code
 * try (OpenWalk walk = connection.walk(Request.forEach(program, null, Long.MAX_VALUE))) {
 *     while (walk.hasNext()) {
 *         use(walk.next());
 *     }
 * }
 * }</pre>
 */
public final class OpenWalk implements Iterator<Map.Entry<byte[], byte[]>>, AutoCloseable {
    private final Connection connection;
    private final Runnable atEnd;
    private final Queue<Map.Entry<byte[], byte[]>> here = new ArrayDeque<>();
    private final AtomicBoolean hasEnded = new AtomicBoolean();
    private long given;
    private Counts counts;
    private volatile RuntimeException failure;

    private OpenWalk(Connection connection, Runnable atEnd) {
        this.connection = connection;
        this.atEnd = atEnd;
    }

    /** Sends the request and reads the first piece of its answer. */
    static OpenWalk begin(Connection connection, Request<?> request, Runnable atEnd) throws IOException {
        OpenWalk walk = new OpenWalk(connection, atEnd);
        boolean isSent = false;
        try {
            connection.begin(List.of(request));
            isSent = true;
        } finally {
            if (!isSent) {
                walk.end(false);
            }
        }
        walk.read();
        return walk;
    }

    /**
     * Whether there is a further item, for which it waits.
     *
     * @return whether there is one
     * @throws UncheckedIOException if the connection breaks, or the thread is interrupted
     * @throws IllegalStateException if the walk was closed before its end
     */
    @Override
    public boolean hasNext() {
        if (failure != null) {
            throw failure;
        }
        try {
            while (here.isEmpty() && counts == null) {
                read();
            }
        } catch (IOException e) {
            failure = new UncheckedIOException(e);
            throw failure;
        }
        return !here.isEmpty();
    }

    @Override
    public Map.Entry<byte[], byte[]> next() {
        if (!hasNext()) {
            throw new NoSuchElementException();
        }
        return here.remove();
    }

    /**
     * What the walk counted, which is told at its end.
     *
     * @return the counts
     * @throws IllegalStateException before the last item was read
     */
    public Counts counts() {
        if (counts == null || !here.isEmpty()) {
            throw new IllegalStateException("the walk has not ended yet");
        }
        return counts;
    }

    /** The counts if they were read, else null; items may still be here. */
    Counts countsIfRead() {
        return counts;
    }

    /** How many items are here already. */
    int itemsHere() {
        return here.size();
    }

    /** Leaves the walk. If its answer was not read to its end, its connection is closed. */
    @Override
    public void close() {
        if (end(false)) {
            failure = new IllegalStateException("the walk was closed before its end");
        }
    }

    /** Reads a piece of the answer: at least one frame, and all others that are here. */
    private void read() throws IOException {
        boolean isWhole = false;
        boolean isCut = true;
        try {
            Body body = connection.frames().next();
            while (body != null && !isWhole) {
                isWhole = take(body);
                body = isWhole ? null : connection.frames().nextIfHere();
            }
            isCut = false;
        } catch (RefusedException e) {
            connection.noteRefusal(e);
            failure = e;
            isWhole = true;
            throw e;
        } finally {
            if (isCut || isWhole) {
                end(isWhole);
            }
        }
    }

    /** Takes an item or the counts. Returns whether that was the end. */
    private boolean take(Body body) throws IOException {
        if (body.tag() == Body.ITEM) {
            here.add(Answers.itemOf(body));
            given++;
            return false;
        }
        counts = Answers.countsOf(body, given);
        return true;
    }

    /** Ends the walk once. Returns whether this call did. */
    private boolean end(boolean isWhole) {
        if (!hasEnded.compareAndSet(false, true)) {
            return false;
        }
        connection.endWalk(isWhole);
        atEnd.run();
        return true;
    }
}
