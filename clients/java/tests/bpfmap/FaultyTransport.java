package bpfmap;

import java.io.IOException;
import java.io.InterruptedIOException;
import java.net.SocketTimeoutException;
import java.nio.ByteBuffer;
import java.nio.channels.ClosedChannelException;
import java.util.ArrayDeque;
import java.util.Deque;
import java.util.Random;

/**
 * A transport to a {@link MemoryTable} that moves a few bytes at a time, and throws at one operation: a read, a write or a wait. A
 * connection that went on after the throw would find the rest of the answer here.
 */
final class FaultyTransport implements Transport {
    private static final int LONG = 500;
    private static final int LARGE = 1500;
    private static final int SMALL = 24;

    private final MemoryTable.Session session;
    private final Faults faults;
    private final Deque<Byte> answers = new ArrayDeque<>();
    private boolean isOpen = true;
    private boolean hasEnded;

    /** What is thrown, and when: the operations of all connections are counted together. */
    static final class Faults {
        private final long at;
        private final Kind kind;
        private final Random dice;
        private long operations;

        /** @param at the operation that throws, from 1 on; none for 0 */
        Faults(Kind kind, long at) {
            this.kind = kind;
            this.at = at;
            dice = new Random(at);
        }

        /** Whether the operation that throws was reached. */
        synchronized boolean wasReached() {
            return operations >= at;
        }

        private synchronized boolean isNext() {
            return ++operations == at;
        }

        /** A part of what could be moved: of a long program more, so that runs stay short. */
        private synchronized int partOf(int bytes) {
            return Math.min(bytes, 1 + dice.nextInt(bytes > LONG ? LARGE : SMALL));
        }
    }

    /** Kinds of faults. */
    enum Kind {
        /** The connection breaks. */
        BROKEN,
        /** A time is over. */
        LATE,
        /** An exception that nobody expects. */
        UNEXPECTED,
        /** An error of the machine. */
        ERROR,
        /** The thread is interrupted at this moment. */
        INTERRUPT;

        private void strike() throws IOException {
            switch (this) {
                case BROKEN -> throw new IOException("struck");
                case LATE -> throw new SocketTimeoutException("struck");
                case UNEXPECTED -> throw new IllegalStateException("struck");
                case ERROR -> throw new OutOfMemoryError("struck");
                case INTERRUPT -> Thread.currentThread().interrupt();
            }
        }
    }

    FaultyTransport(MemoryTable table, Faults faults) {
        session = table.session();
        this.faults = faults;
    }

    @Override
    public synchronized int read(ByteBuffer target) throws IOException {
        operate();
        int count = faults.partOf(Math.min(answers.size(), target.remaining()));
        for (int taken = 0; taken < count; taken++) {
            target.put(answers.remove());
        }
        return count == 0 && hasEnded ? -1 : count;
    }

    @Override
    public synchronized int write(ByteBuffer source) throws IOException {
        operate();
        byte[] bytes = new byte[faults.partOf(source.remaining())];
        source.get(bytes);
        for (byte answer : session.take(bytes)) {
            answers.add(answer);
        }
        return bytes.length;
    }

    @Override
    public synchronized void endOutput() {
        hasEnded = true;
    }

    @Override
    public synchronized void await(boolean orWrite) throws IOException {
        operate();
        if (Thread.currentThread().isInterrupted()) {
            throw new InterruptedIOException("interrupted");
        }
        if (!orWrite && answers.isEmpty() && !hasEnded) {
            throw new AssertionError("the client waits for an answer that nobody gives");
        }
    }

    private void operate() throws IOException {
        if (!isOpen) {
            throw new ClosedChannelException();
        }
        if (faults.isNext()) {
            faults.kind.strike();
        }
    }

    @Override
    public synchronized boolean isOpen() {
        return isOpen;
    }

    @Override
    public synchronized void close() {
        isOpen = false;
    }
}
