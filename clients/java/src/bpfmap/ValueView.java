package bpfmap;

import java.util.AbstractCollection;
import java.util.Map;
import java.util.Spliterator;
import java.util.function.Consumer;
import java.util.function.Predicate;
import java.util.stream.Stream;

/**
 * A map's values, those of one walk for each iterator, spliterator and stream. They come as they arrive. A stream or iterator that
 * you leave before its end you close.
 *
 * @param <K> the map's keys
 * @param <V> the values
 */
public final class ValueView<K, V> extends AbstractCollection<V> {
    private final RemoteMap<K, V> map;
    private final WalkSource<V> source;

    ValueView(RemoteMap<K, V> map) {
        this.map = map;
        source = map.valueSource();
    }

    @Override
    public WalkIterator<V> iterator() {
        return source.iterator();
    }

    /** {@inheritDoc} It is CONCURRENT and NONNULL. */
    @Override
    public Spliterator<V> spliterator() {
        return source.spliterator();
    }

    @Override
    public Stream<V> stream() {
        return source.stream(false);
    }

    @Override
    public Stream<V> parallelStream() {
        return source.stream(true);
    }

    @Override
    public void forEach(Consumer<? super V> action) {
        source.forEach(action);
    }

    @Override
    public Object[] toArray() {
        return source.toList().toArray();
    }

    @Override
    public <T> T[] toArray(T[] array) {
        return source.toList().toArray(array);
    }

    @Override
    public int size() {
        return map.size();
    }

    @Override
    public boolean isEmpty() {
        return map.isEmpty();
    }

    @Override
    public boolean contains(Object value) {
        return map.containsValue(value);
    }

    /** {@inheritDoc} It removes the first entry of a walk that still has this value. */
    @Override
    public boolean remove(Object value) {
        if (value == null) {
            return false;
        }
        try (Stream<Map.Entry<K, V>> entries = map.entrySet().stream()) {
            return entries.anyMatch(entry -> map.areEqual(entry.getValue(), value) && map.remove(entry.getKey(), value));
        }
    }

    /** {@inheritDoc} An entry goes only while it has the value that the filter saw. */
    @Override
    public boolean removeIf(Predicate<? super V> filter) {
        return map.entrySet().removeIf(entry -> filter.test(entry.getValue()));
    }

    @Override
    public void clear() {
        map.clear();
    }
}
