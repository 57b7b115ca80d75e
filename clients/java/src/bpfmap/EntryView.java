package bpfmap;

import java.util.AbstractSet;
import java.util.Map;
import java.util.Objects;
import java.util.Spliterator;
import java.util.concurrent.atomic.AtomicBoolean;
import java.util.function.Consumer;
import java.util.function.Predicate;
import java.util.stream.Stream;

/**
 * A map's entries, those of one walk for each iterator, spliterator and stream. They come as they arrive, in the order of the keys'
 * bytes. {@code setValue} of an entry is a put. A stream or iterator that you leave before its end you close.
 *
 * @param <K> the keys
 * @param <V> the values
 */
public final class EntryView<K, V> extends AbstractSet<Map.Entry<K, V>> {
    private final RemoteMap<K, V> map;
    private final WalkSource<Map.Entry<K, V>> source;

    EntryView(RemoteMap<K, V> map) {
        this.map = map;
        source = map.entrySource();
    }

    @Override
    public WalkIterator<Map.Entry<K, V>> iterator() {
        return source.iterator();
    }

    /** {@inheritDoc} It is CONCURRENT, DISTINCT and NONNULL. */
    @Override
    public Spliterator<Map.Entry<K, V>> spliterator() {
        return source.spliterator();
    }

    @Override
    public Stream<Map.Entry<K, V>> stream() {
        return source.stream(false);
    }

    @Override
    public Stream<Map.Entry<K, V>> parallelStream() {
        return source.stream(true);
    }

    @Override
    public void forEach(Consumer<? super Map.Entry<K, V>> action) {
        source.forEach(action);
    }

    @Override
    public Object[] toArray() {
        return source.toList().toArray();
    }

    @Override
    public <T> T[] toArray(T[] array) {
        return source.toList().toArray(array);
    }

    @Override
    public int size() {
        return map.size();
    }

    @Override
    public boolean isEmpty() {
        return map.isEmpty();
    }

    @Override
    public boolean contains(Object other) {
        if (!(other instanceof Map.Entry<?, ?> entry) || entry.getKey() == null || entry.getValue() == null) {
            return false;
        }
        V value = map.get(entry.getKey());
        return value != null && map.areEqual(value, entry.getValue());
    }

    @Override
    public boolean remove(Object other) {
        return other instanceof Map.Entry<?, ?> entry && entry.getKey() != null && map.remove(entry.getKey(), entry.getValue());
    }

    /** {@inheritDoc} An entry goes only while it has the value that the filter saw. */
    @Override
    public boolean removeIf(Predicate<? super Map.Entry<K, V>> filter) {
        Objects.requireNonNull(filter);
        AtomicBoolean hasRemoved = new AtomicBoolean();
        forEach(entry -> {
            if (filter.test(entry) && map.remove(entry.getKey(), entry.getValue())) {
                hasRemoved.set(true);
            }
        });
        return hasRemoved.get();
    }

    @Override
    public void clear() {
        map.clear();
    }
}
