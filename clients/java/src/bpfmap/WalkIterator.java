package bpfmap;

import java.lang.ref.Cleaner;
import java.lang.ref.Reference;
import java.util.Iterator;
import java.util.Map;
import java.util.function.Consumer;
import java.util.function.Function;

/**
 * Goes over the items of a walk, which are read as they come. Close it if you leave it before its end; that closes the walk's
 * connection. It is closed when it is garbage, too, but nobody knows when that is.
 *
 * <p>{@code remove} removes from the map, by key.
 *
 * @param <T> the items
 */
public final class WalkIterator<T> implements Iterator<T>, AutoCloseable {
    private static final Cleaner CLEANER = Cleaner.create();

    private final OpenWalk walk;
    private final Function<Map.Entry<byte[], byte[]>, T> decoder;
    private final Consumer<byte[]> remover;
    private final boolean needsAll;
    private final Cleaner.Cleanable cleanable;
    private byte[] last;

    /**
     * @param walk the walk
     * @param decoder what an item stands for
     * @param remover removes a key from the map
     * @param needsAll whether an entry that the walk's program can't take is a fault: version 1 does not carry its value
     */
    WalkIterator(OpenWalk walk, Function<Map.Entry<byte[], byte[]>, T> decoder, Consumer<byte[]> remover, boolean needsAll) {
        this.walk = walk;
        this.decoder = decoder;
        this.remover = remover;
        this.needsAll = needsAll;
        cleanable = CLEANER.register(this, walk::close);
    }

    /**
     * Whether there is a further item, for which it waits.
     *
     * @return whether there is one
     * @throws java.io.UncheckedIOException if the connection breaks, or the thread is interrupted
     * @throws IllegalStateException if this was closed before its end
     * @throws RefusedException with 65, if this is of a view and version 1 does not carry the value of an entry
     */
    @Override
    public boolean hasNext() {
        try {
            boolean hasNext = walk.hasNext();
            Counts counts = walk.countsIfRead();
            if (needsAll && counts != null && counts.unfit() > 0) {
                throw new RefusedException(RefusedException.VALUE_TOO_LONG, 0);
            }
            return hasNext;
        } finally {
            // Else the cleaner might close the walk while its last item is waited for.
            Reference.reachabilityFence(this);
        }
    }

    @Override
    public T next() {
        try {
            Map.Entry<byte[], byte[]> item = walk.next();
            last = item.getKey();
            return decoder.apply(item);
        } finally {
            Reference.reachabilityFence(this);
        }
    }

    /** How many items are here already. */
    int itemsHere() {
        return walk.itemsHere();
    }

    /**
     * What the walk counted, which is told at its end.
     *
     * @return the counts
     * @throws IllegalStateException before the last item was read
     */
    public Counts counts() {
        return walk.counts();
    }

    @Override
    public void remove() {
        if (last == null) {
            throw new IllegalStateException("there is no item to remove");
        }
        remover.accept(last);
        last = null;
    }

    /** Leaves the walk. If it has not ended, its connection is closed. */
    @Override
    public void close() {
        cleanable.clean();
    }
}
