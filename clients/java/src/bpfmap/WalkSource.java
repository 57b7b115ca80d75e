package bpfmap;

import java.util.ArrayList;
import java.util.List;
import java.util.Map;
import java.util.Spliterator;
import java.util.function.Consumer;
import java.util.function.Function;
import java.util.function.Supplier;
import java.util.stream.Stream;
import java.util.stream.StreamSupport;

/** Begins walks over a map, and has their items in the forms of a collection. */
final class WalkSource<T> {
    private final Supplier<OpenWalk> opener;
    private final Function<Map.Entry<byte[], byte[]>, T> decoder;
    private final Consumer<byte[]> remover;
    private final boolean needsAll;
    private final int characteristics;

    /**
     * @param opener begins a walk
     * @param decoder what an item stands for
     * @param remover removes a key from the map
     * @param needsAll whether an entry that the walk's program can't take is a fault
     * @param characteristics those of its spliterators beside CONCURRENT and NONNULL
     */
    WalkSource(Supplier<OpenWalk> opener, Function<Map.Entry<byte[], byte[]>, T> decoder, Consumer<byte[]> remover,
            boolean needsAll, int characteristics) {
        this.opener = opener;
        this.decoder = decoder;
        this.remover = remover;
        this.needsAll = needsAll;
        this.characteristics = characteristics;
    }

    /** Begins a walk at once. */
    WalkIterator<T> iterator() {
        WalkIterator<T> items = new WalkIterator<>(opener.get(), decoder, remover, needsAll);
        items.hasNext();
        return items;
    }

    /** The items of a walk that begins at the first use. */
    Spliterator<T> spliterator() {
        return new WalkSpliterator<>(this::iterator, characteristics);
    }

    /** The items of a walk that begins at the first use; closing the stream leaves it. */
    Stream<T> stream(boolean isParallel) {
        WalkSpliterator<T> items = new WalkSpliterator<>(this::iterator, characteristics);
        return StreamSupport.stream(items, isParallel).onClose(items::close);
    }

    /** Hands over each item; leaves the walk if the action throws. */
    void forEach(Consumer<? super T> action) {
        spliterator().forEachRemaining(action);
    }

    /** All items. */
    List<T> toList() {
        List<T> all = new ArrayList<>();
        forEach(all::add);
        return all;
    }
}
