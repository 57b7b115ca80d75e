package bpfmap;

import java.io.IOException;
import java.io.InterruptedIOException;
import java.io.UncheckedIOException;
import java.net.SocketTimeoutException;
import java.util.ArrayDeque;
import java.util.Deque;
import java.util.concurrent.Semaphore;
import java.util.concurrent.atomic.AtomicBoolean;

/**
 * A map's connections, each lent to one call at a time. A thread waits if all are lent. A walk does not wait, and no call waits for
 * it: it takes an idle connection or opens one more.
 */
final class ConnectionPool implements AutoCloseable {
    private final Opener opener;
    private final Settings settings;
    private final Semaphore free;
    private final Deque<Connection> idle = new ArrayDeque<>();
    private boolean isClosed;

    /** Opens a connection. */
    interface Opener {
        Connection open() throws IOException;
    }

    ConnectionPool(Opener opener, Settings settings) {
        this.opener = opener;
        this.settings = settings;
        free = new Semaphore(settings.connections(), true);
    }

    /** The version of the protocol that its connections speak. */
    Version version() {
        return settings.version();
    }

    /** How many connections calls have at most. */
    int connections() {
        return settings.connections();
    }

    /** What is done with a connection. */
    interface Use<T> {
        T on(Connection connection) throws IOException;
    }

    /** Lends a connection; one that breaks is closed, and so are the idle ones, which the same server had. */
    <T> T use(Use<T> use) {
        acquire();
        try {
            return useOne(use);
        } catch (IOException e) {
            throw unchecked(e);
        } finally {
            free.release();
        }
    }

    /** Begins a walk, which gives its connection back when it has ended. */
    OpenWalk walk(Request<Walk<byte[], byte[]>> request) {
        try {
            return walk(takeOrOpen(), request);
        } catch (IOException e) {
            throw unchecked(e);
        }
    }

    /** Begins a walk. Its connection comes back once: at the walk's end, or here if the walk does not begin. */
    private OpenWalk walk(Connection connection, Request<Walk<byte[], byte[]>> request) throws IOException {
        AtomicBoolean isBack = new AtomicBoolean();
        Runnable atEnd = () -> {
            if (isBack.compareAndSet(false, true)) {
                giveBack(connection);
            }
        };
        boolean hasBegun = false;
        try {
            OpenWalk walk = connection.walk(request, atEnd);
            hasBegun = true;
            return walk;
        } finally {
            if (!hasBegun) {
                atEnd.run();
            }
        }
    }

    private void acquire() {
        try {
            free.acquire();
        } catch (InterruptedException e) {
            Thread.currentThread().interrupt();
            throw new UncheckedIOException(
                    new InterruptedIOException("the thread was interrupted before the call: nothing was sent"));
        }
    }

    /** The exception for the caller. An interrupt says nothing of the server, so other connections stay. */
    private UncheckedIOException unchecked(IOException failure) {
        boolean isInterrupt = failure instanceof InterruptedIOException && !(failure instanceof SocketTimeoutException);
        if (!isInterrupt) {
            closeIdle();
        }
        return new UncheckedIOException(failure);
    }

    private <T> T useOne(Use<T> use) throws IOException {
        Connection connection = takeOrOpen();
        try {
            return use.on(connection);
        } finally {
            giveBack(connection);
        }
    }

    private Connection takeOrOpen() throws IOException {
        Connection connection = take();
        while (connection != null && !connection.isFresh()) {
            connection.close();
            connection = take();
        }
        return connection != null ? connection : opener.open();
    }

    private synchronized Connection take() {
        if (isClosed) {
            throw new IllegalStateException("the map was closed");
        }
        return idle.pollFirst();
    }

    /** Takes a connection back: one that can't be used, or that is one too many, is closed. */
    private synchronized void giveBack(Connection connection) {
        if (isClosed || !connection.isUsable() || idle.size() >= settings.connections()) {
            connection.close();
        } else {
            idle.addFirst(connection);
        }
    }

    private synchronized void closeIdle() {
        idle.forEach(Connection::close);
        idle.clear();
    }

    /** Closes the idle connections, and each other one when it comes back. */
    @Override
    public synchronized void close() {
        isClosed = true;
        closeIdle();
    }
}
