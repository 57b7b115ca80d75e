package bpfmap;

import java.util.AbstractSet;
import java.util.Spliterator;
import java.util.function.Consumer;
import java.util.stream.Stream;

/**
 * A map's keys. Iterators, spliterators and streams are weakly consistent: each goes over the keys of one walk, which come as they
 * arrive, in the order of their bytes. A stream that you leave before its end you close:
 *
 * <pre>{@code
 * try (Stream<String> keys = map.keySet().stream()) {
 *     return keys.filter(key -> key.startsWith("user/")).findFirst();
 * }
 * }</pre>
 *
 * @param <K> the keys
 * @param <V> the map's values
 */
public final class KeyView<K, V> extends AbstractSet<K> {
    private final RemoteMap<K, V> map;
    private final V mappedValue;
    private final WalkSource<K> source;

    KeyView(RemoteMap<K, V> map, V mappedValue) {
        this.map = map;
        this.mappedValue = mappedValue;
        source = map.keySource();
    }

    /**
     * The map that this is a view of.
     *
     * @return the map
     */
    public RemoteMap<K, V> getMap() {
        return map;
    }

    /**
     * The value that added keys get.
     *
     * @return the value, or null if keys can't be added
     */
    public V getMappedValue() {
        return mappedValue;
    }

    /**
     * {@inheritDoc} It gets the mapped value, if it is absent.
     *
     * @throws UnsupportedOperationException if this view has no mapped value
     */
    @Override
    public boolean add(K key) {
        if (mappedValue == null) {
            throw new UnsupportedOperationException("this view has no value for a new key: keySet(value) has one");
        }
        return map.putIfAbsent(key, mappedValue) == null;
    }

    @Override
    public WalkIterator<K> iterator() {
        return source.iterator();
    }

    /** {@inheritDoc} It is CONCURRENT, DISTINCT and NONNULL. */
    @Override
    public Spliterator<K> spliterator() {
        return source.spliterator();
    }

    @Override
    public Stream<K> stream() {
        return source.stream(false);
    }

    @Override
    public Stream<K> parallelStream() {
        return source.stream(true);
    }

    @Override
    public void forEach(Consumer<? super K> action) {
        source.forEach(action);
    }

    @Override
    public Object[] toArray() {
        return source.toList().toArray();
    }

    @Override
    public <T> T[] toArray(T[] array) {
        return source.toList().toArray(array);
    }

    @Override
    public int size() {
        return map.size();
    }

    @Override
    public boolean isEmpty() {
        return map.isEmpty();
    }

    @Override
    public boolean contains(Object key) {
        return map.containsKey(key);
    }

    @Override
    public boolean remove(Object key) {
        return map.remove(key) != null;
    }

    @Override
    public void clear() {
        map.clear();
    }
}
