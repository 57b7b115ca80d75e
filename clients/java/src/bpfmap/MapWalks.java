package bpfmap;

import java.util.AbstractMap;
import java.util.Map;
import java.util.Objects;
import java.util.function.BiFunction;
import java.util.function.Function;
import java.util.stream.Stream;

/** What the walks of a map with Java functions have in common. */
abstract class MapWalks<K, V> extends AbstractMap<K, V> {
    /** The number of entries. */
    abstract long mappingCount();

    abstract WalkSource<K> keySource();

    abstract WalkSource<V> valueSource();

    abstract WalkSource<Map.Entry<K, V>> entrySource();

    /** Does something with the items of a walk, and leaves it. */
    final <T, R> R walk(WalkSource<T> source, long threshold, Function<Stream<T>, R> work) {
        try (Stream<T> items = source.stream(isParallel(threshold))) {
            return work.apply(items);
        }
    }

    private boolean isParallel(long threshold) {
        return threshold <= 1 || threshold < Long.MAX_VALUE && mappingCount() >= threshold;
    }

    /** What a function gives for the items, without null. */
    static <T, U> Stream<U> found(Stream<T> items, Function<? super T, ? extends U> function) {
        return items.<U>map(function).filter(Objects::nonNull);
    }

    /** One of the items, or null if there is none. */
    static <U> U any(Stream<U> items) {
        return items.findAny().orElse(null);
    }

    /** The items combined, or null if there is none. Null from the reducer is nothing, as in ConcurrentHashMap. */
    static <U> U reduced(Stream<U> items, BiFunction<? super U, ? super U, ? extends U> reducer) {
        return items.reduce(null, (one, other) -> one == null ? other : other == null ? one : reducer.apply(one, other));
    }
}
