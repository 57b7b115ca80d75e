package bpfmap;

import java.util.Objects;
import java.util.function.BiFunction;
import java.util.function.Consumer;
import java.util.function.DoubleBinaryOperator;
import java.util.function.Function;
import java.util.function.IntBinaryOperator;
import java.util.function.LongBinaryOperator;
import java.util.function.ToDoubleFunction;
import java.util.function.ToIntFunction;
import java.util.function.ToLongFunction;

/** The walks of {@link java.util.concurrent.ConcurrentHashMap} with Java functions over keys and over values. */
abstract class ItemWalks<K, V> extends EntryWalks<K, V> {
    /**
     * Runs an action on each key.
     *
     * @param parallelismThreshold from how many entries on the functions run in parallel
     * @param action the action
     */
    public void forEachKey(long parallelismThreshold, Consumer<? super K> action) {
        Objects.requireNonNull(action);
        walk(keySource(), parallelismThreshold, items -> {
            items.forEach(action);
            return null;
        });
    }

    /**
     * Runs an action on what a function gives for each key, if it is not null.
     *
     * @param parallelismThreshold from how many entries on the functions run in parallel
     * @param transformer the function
     * @param action the action
     * @param <U> what the function gives
     */
    public <U> void forEachKey(long parallelismThreshold, Function<? super K, ? extends U> transformer,
            Consumer<? super U> action) {
        Objects.requireNonNull(transformer);
        Objects.requireNonNull(action);
        walk(keySource(), parallelismThreshold, items -> {
            found(items, transformer).forEach(action);
            return null;
        });
    }

    /**
     * Searches for what a function gives for some key. The walk ends when it is found.
     *
     * @param parallelismThreshold from how many entries on the functions run in parallel
     * @param searcher the function, which gives null for what is not searched for
     * @param <U> what the function gives
     * @return what it gives for one of them, or null
     */
    public <U> U searchKeys(long parallelismThreshold, Function<? super K, ? extends U> searcher) {
        Objects.requireNonNull(searcher);
        return walk(keySource(), parallelismThreshold, items -> any(found(items, searcher)));
    }

    /**
     * Combines all keys.
     *
     * @param parallelismThreshold from how many entries on the functions run in parallel
     * @param reducer combines two of them, in any order
     * @return all of them combined, or null if there is none
     */
    public K reduceKeys(long parallelismThreshold, BiFunction<? super K, ? super K, ? extends K> reducer) {
        Objects.requireNonNull(reducer);
        return walk(keySource(), parallelismThreshold, items -> reduced(items, reducer));
    }

    /**
     * Combines what a function gives for each key, if it is not null.
     *
     * @param parallelismThreshold from how many entries on the functions run in parallel
     * @param transformer the function
     * @param reducer combines two of its results, in any order
     * @param <U> what the function gives
     * @return all of them combined, or null if there is none
     */
    public <U> U reduceKeys(long parallelismThreshold, Function<? super K, ? extends U> transformer,
            BiFunction<? super U, ? super U, ? extends U> reducer) {
        Objects.requireNonNull(transformer);
        Objects.requireNonNull(reducer);
        return walk(keySource(), parallelismThreshold,
                items -> reduced(found(items, transformer), reducer));
    }

    /**
     * Combines the numbers that a function gives for each key.
     *
     * @param parallelismThreshold from how many entries on the functions run in parallel
     * @param transformer the function
     * @param basis what changes nothing in a combination
     * @param reducer combines two numbers, in any order
     * @return all of them combined; the basis if there is none
     */
    public double reduceKeysToDouble(long parallelismThreshold, ToDoubleFunction<? super K> transformer, double basis,
            DoubleBinaryOperator reducer) {
        Objects.requireNonNull(transformer);
        Objects.requireNonNull(reducer);
        return walk(keySource(), parallelismThreshold,
                items -> items.mapToDouble(transformer).reduce(basis, reducer));
    }

    /**
     * Combines the numbers that a function gives for each key.
     *
     * @param parallelismThreshold from how many entries on the functions run in parallel
     * @param transformer the function
     * @param basis what changes nothing in a combination
     * @param reducer combines two numbers, in any order
     * @return all of them combined; the basis if there is none
     */
    public long reduceKeysToLong(long parallelismThreshold, ToLongFunction<? super K> transformer, long basis,
            LongBinaryOperator reducer) {
        Objects.requireNonNull(transformer);
        Objects.requireNonNull(reducer);
        return walk(keySource(), parallelismThreshold,
                items -> items.mapToLong(transformer).reduce(basis, reducer));
    }

    /**
     * Combines the numbers that a function gives for each key.
     *
     * @param parallelismThreshold from how many entries on the functions run in parallel
     * @param transformer the function
     * @param basis what changes nothing in a combination
     * @param reducer combines two numbers, in any order
     * @return all of them combined; the basis if there is none
     */
    public int reduceKeysToInt(long parallelismThreshold, ToIntFunction<? super K> transformer, int basis,
            IntBinaryOperator reducer) {
        Objects.requireNonNull(transformer);
        Objects.requireNonNull(reducer);
        return walk(keySource(), parallelismThreshold,
                items -> items.mapToInt(transformer).reduce(basis, reducer));
    }

    /**
     * Runs an action on each value.
     *
     * @param parallelismThreshold from how many entries on the functions run in parallel
     * @param action the action
     */
    public void forEachValue(long parallelismThreshold, Consumer<? super V> action) {
        Objects.requireNonNull(action);
        walk(valueSource(), parallelismThreshold, items -> {
            items.forEach(action);
            return null;
        });
    }

    /**
     * Runs an action on what a function gives for each value, if it is not null.
     *
     * @param parallelismThreshold from how many entries on the functions run in parallel
     * @param transformer the function
     * @param action the action
     * @param <U> what the function gives
     */
    public <U> void forEachValue(long parallelismThreshold, Function<? super V, ? extends U> transformer,
            Consumer<? super U> action) {
        Objects.requireNonNull(transformer);
        Objects.requireNonNull(action);
        walk(valueSource(), parallelismThreshold, items -> {
            found(items, transformer).forEach(action);
            return null;
        });
    }

    /**
     * Searches for what a function gives for some value. The walk ends when it is found.
     *
     * @param parallelismThreshold from how many entries on the functions run in parallel
     * @param searcher the function, which gives null for what is not searched for
     * @param <U> what the function gives
     * @return what it gives for one of them, or null
     */
    public <U> U searchValues(long parallelismThreshold, Function<? super V, ? extends U> searcher) {
        Objects.requireNonNull(searcher);
        return walk(valueSource(), parallelismThreshold, items -> any(found(items, searcher)));
    }

    /**
     * Combines all values.
     *
     * @param parallelismThreshold from how many entries on the functions run in parallel
     * @param reducer combines two of them, in any order
     * @return all of them combined, or null if there is none
     */
    public V reduceValues(long parallelismThreshold, BiFunction<? super V, ? super V, ? extends V> reducer) {
        Objects.requireNonNull(reducer);
        return walk(valueSource(), parallelismThreshold, items -> reduced(items, reducer));
    }

    /**
     * Combines what a function gives for each value, if it is not null.
     *
     * @param parallelismThreshold from how many entries on the functions run in parallel
     * @param transformer the function
     * @param reducer combines two of its results, in any order
     * @param <U> what the function gives
     * @return all of them combined, or null if there is none
     */
    public <U> U reduceValues(long parallelismThreshold, Function<? super V, ? extends U> transformer,
            BiFunction<? super U, ? super U, ? extends U> reducer) {
        Objects.requireNonNull(transformer);
        Objects.requireNonNull(reducer);
        return walk(valueSource(), parallelismThreshold,
                items -> reduced(found(items, transformer), reducer));
    }

    /**
     * Combines the numbers that a function gives for each value.
     *
     * @param parallelismThreshold from how many entries on the functions run in parallel
     * @param transformer the function
     * @param basis what changes nothing in a combination
     * @param reducer combines two numbers, in any order
     * @return all of them combined; the basis if there is none
     */
    public double reduceValuesToDouble(long parallelismThreshold, ToDoubleFunction<? super V> transformer, double basis,
            DoubleBinaryOperator reducer) {
        Objects.requireNonNull(transformer);
        Objects.requireNonNull(reducer);
        return walk(valueSource(), parallelismThreshold,
                items -> items.mapToDouble(transformer).reduce(basis, reducer));
    }

    /**
     * Combines the numbers that a function gives for each value.
     *
     * @param parallelismThreshold from how many entries on the functions run in parallel
     * @param transformer the function
     * @param basis what changes nothing in a combination
     * @param reducer combines two numbers, in any order
     * @return all of them combined; the basis if there is none
     */
    public long reduceValuesToLong(long parallelismThreshold, ToLongFunction<? super V> transformer, long basis,
            LongBinaryOperator reducer) {
        Objects.requireNonNull(transformer);
        Objects.requireNonNull(reducer);
        return walk(valueSource(), parallelismThreshold,
                items -> items.mapToLong(transformer).reduce(basis, reducer));
    }

    /**
     * Combines the numbers that a function gives for each value.
     *
     * @param parallelismThreshold from how many entries on the functions run in parallel
     * @param transformer the function
     * @param basis what changes nothing in a combination
     * @param reducer combines two numbers, in any order
     * @return all of them combined; the basis if there is none
     */
    public int reduceValuesToInt(long parallelismThreshold, ToIntFunction<? super V> transformer, int basis,
            IntBinaryOperator reducer) {
        Objects.requireNonNull(transformer);
        Objects.requireNonNull(reducer);
        return walk(valueSource(), parallelismThreshold,
                items -> items.mapToInt(transformer).reduce(basis, reducer));
    }
}
