package bpfmap;

import java.util.Objects;
import java.util.Spliterator;
import java.util.Spliterators;
import java.util.function.Consumer;
import java.util.function.Supplier;

/**
 * The items of one walk, which begins at the first use. A part that it splits off has items that are here already, so parallel
 * streams too keep a bounded number of them.
 */
final class WalkSpliterator<T> implements Spliterator<T>, AutoCloseable {
    private static final int LARGEST_PART = 1024;

    private final Supplier<WalkIterator<T>> opener;
    private final int characteristics;
    private volatile WalkIterator<T> walk;

    WalkSpliterator(Supplier<WalkIterator<T>> opener, int characteristics) {
        this.opener = opener;
        this.characteristics = characteristics | CONCURRENT | NONNULL;
    }

    @Override
    public boolean tryAdvance(Consumer<? super T> action) {
        Objects.requireNonNull(action);
        WalkIterator<T> items = walk();
        return items.hasNext() && accept(action, items);
    }

    @Override
    public void forEachRemaining(Consumer<? super T> action) {
        Objects.requireNonNull(action);
        WalkIterator<T> items = walk();
        while (items.hasNext()) {
            accept(action, items);
        }
    }

    /** Leaves the walk if the action throws, since nobody will come back to it. */
    private static <T> boolean accept(Consumer<? super T> action, WalkIterator<T> items) {
        boolean isDone = false;
        try {
            action.accept(items.next());
            isDone = true;
            return true;
        } finally {
            if (!isDone) {
                items.close();
            }
        }
    }

    @Override
    public Spliterator<T> trySplit() {
        WalkIterator<T> items = walk();
        if (!items.hasNext()) {
            return null;
        }
        Object[] part = new Object[Math.min(items.itemsHere(), LARGEST_PART)];
        for (int item = 0; item < part.length; item++) {
            part[item] = items.next();
        }
        return Spliterators.spliterator(part, characteristics);
    }

    @Override
    public long estimateSize() {
        return Long.MAX_VALUE;
    }

    @Override
    public int characteristics() {
        return characteristics;
    }

    @Override
    public void close() {
        WalkIterator<T> begun = walk;
        if (begun != null) {
            begun.close();
        }
    }

    private WalkIterator<T> walk() {
        if (walk == null) {
            walk = opener.get();
        }
        return walk;
    }
}
