package bpfmap;

import java.util.Map;
import java.util.Objects;
import java.util.function.BiConsumer;
import java.util.function.BiFunction;
import java.util.function.Consumer;
import java.util.function.DoubleBinaryOperator;
import java.util.function.Function;
import java.util.function.IntBinaryOperator;
import java.util.function.LongBinaryOperator;
import java.util.function.ToDoubleBiFunction;
import java.util.function.ToDoubleFunction;
import java.util.function.ToIntBiFunction;
import java.util.function.ToIntFunction;
import java.util.function.ToLongBiFunction;
import java.util.function.ToLongFunction;

/** The walks of {@link java.util.concurrent.ConcurrentHashMap} with Java functions over entries. */
abstract class EntryWalks<K, V> extends MapWalks<K, V> {
    /**
     * Runs an action on each key and value.
     *
     * @param parallelismThreshold from how many entries on the functions run in parallel
     * @param action the action
     */
    public void forEach(long parallelismThreshold, BiConsumer<? super K, ? super V> action) {
        Objects.requireNonNull(action);
        walk(entrySource(), parallelismThreshold, items -> {
            items.forEach(entry -> action.accept(entry.getKey(), entry.getValue()));
            return null;
        });
    }

    /**
     * Runs an action on what a function gives for each key and value, if it is not null.
     *
     * @param parallelismThreshold from how many entries on the functions run in parallel
     * @param transformer the function
     * @param action the action
     * @param <U> what the function gives
     */
    public <U> void forEach(long parallelismThreshold, BiFunction<? super K, ? super V, ? extends U> transformer,
            Consumer<? super U> action) {
        Objects.requireNonNull(transformer);
        Objects.requireNonNull(action);
        walk(entrySource(), parallelismThreshold, items -> {
            found(items, entry -> transformer.apply(entry.getKey(), entry.getValue())).forEach(action);
            return null;
        });
    }

    /**
     * Searches for what a function gives for some entry. The walk ends when it is found.
     *
     * @param parallelismThreshold from how many entries on the functions run in parallel
     * @param searcher the function, which gives null for what is not searched for
     * @param <U> what the function gives
     * @return what it gives for one of them, or null
     */
    public <U> U search(long parallelismThreshold, BiFunction<? super K, ? super V, ? extends U> searcher) {
        Objects.requireNonNull(searcher);
        return walk(entrySource(), parallelismThreshold,
                items -> any(found(items, entry -> searcher.apply(entry.getKey(), entry.getValue()))));
    }

    /**
     * Combines what a function gives for each key and value, if it is not null.
     *
     * @param parallelismThreshold from how many entries on the functions run in parallel
     * @param transformer the function
     * @param reducer combines two of its results, in any order
     * @param <U> what the function gives
     * @return all of them combined, or null if there is none
     */
    public <U> U reduce(long parallelismThreshold, BiFunction<? super K, ? super V, ? extends U> transformer,
            BiFunction<? super U, ? super U, ? extends U> reducer) {
        Objects.requireNonNull(transformer);
        Objects.requireNonNull(reducer);
        return walk(entrySource(), parallelismThreshold,
                items -> reduced(found(items, entry -> transformer.apply(entry.getKey(), entry.getValue())), reducer));
    }

    /**
     * Combines the numbers that a function gives for each key and value.
     *
     * @param parallelismThreshold from how many entries on the functions run in parallel
     * @param transformer the function
     * @param basis what changes nothing in a combination
     * @param reducer combines two numbers, in any order
     * @return all of them combined; the basis if there is none
     */
    public double reduceToDouble(long parallelismThreshold, ToDoubleBiFunction<? super K, ? super V> transformer, double basis,
            DoubleBinaryOperator reducer) {
        Objects.requireNonNull(transformer);
        Objects.requireNonNull(reducer);
        return walk(entrySource(), parallelismThreshold,
                items -> items.mapToDouble(entry -> transformer.applyAsDouble(entry.getKey(), entry.getValue()))
                        .reduce(basis, reducer));
    }

    /**
     * Combines the numbers that a function gives for each key and value.
     *
     * @param parallelismThreshold from how many entries on the functions run in parallel
     * @param transformer the function
     * @param basis what changes nothing in a combination
     * @param reducer combines two numbers, in any order
     * @return all of them combined; the basis if there is none
     */
    public long reduceToLong(long parallelismThreshold, ToLongBiFunction<? super K, ? super V> transformer, long basis,
            LongBinaryOperator reducer) {
        Objects.requireNonNull(transformer);
        Objects.requireNonNull(reducer);
        return walk(entrySource(), parallelismThreshold,
                items -> items.mapToLong(entry -> transformer.applyAsLong(entry.getKey(), entry.getValue()))
                        .reduce(basis, reducer));
    }

    /**
     * Combines the numbers that a function gives for each key and value.
     *
     * @param parallelismThreshold from how many entries on the functions run in parallel
     * @param transformer the function
     * @param basis what changes nothing in a combination
     * @param reducer combines two numbers, in any order
     * @return all of them combined; the basis if there is none
     */
    public int reduceToInt(long parallelismThreshold, ToIntBiFunction<? super K, ? super V> transformer, int basis,
            IntBinaryOperator reducer) {
        Objects.requireNonNull(transformer);
        Objects.requireNonNull(reducer);
        return walk(entrySource(), parallelismThreshold,
                items -> items.mapToInt(entry -> transformer.applyAsInt(entry.getKey(), entry.getValue())).reduce(basis, reducer));
    }

    /**
     * Runs an action on each entry.
     *
     * @param parallelismThreshold from how many entries on the functions run in parallel
     * @param action the action
     */
    public void forEachEntry(long parallelismThreshold, Consumer<? super Map.Entry<K, V>> action) {
        Objects.requireNonNull(action);
        walk(entrySource(), parallelismThreshold, items -> {
            items.forEach(action);
            return null;
        });
    }

    /**
     * Runs an action on what a function gives for each entry, if it is not null.
     *
     * @param parallelismThreshold from how many entries on the functions run in parallel
     * @param transformer the function
     * @param action the action
     * @param <U> what the function gives
     */
    public <U> void forEachEntry(long parallelismThreshold, Function<Map.Entry<K, V>, ? extends U> transformer,
            Consumer<? super U> action) {
        Objects.requireNonNull(transformer);
        Objects.requireNonNull(action);
        walk(entrySource(), parallelismThreshold, items -> {
            found(items, transformer).forEach(action);
            return null;
        });
    }

    /**
     * Searches for what a function gives for some entry. The walk ends when it is found.
     *
     * @param parallelismThreshold from how many entries on the functions run in parallel
     * @param searcher the function, which gives null for what is not searched for
     * @param <U> what the function gives
     * @return what it gives for one of them, or null
     */
    public <U> U searchEntries(long parallelismThreshold, Function<Map.Entry<K, V>, ? extends U> searcher) {
        Objects.requireNonNull(searcher);
        return walk(entrySource(), parallelismThreshold, items -> any(found(items, searcher)));
    }

    /**
     * Combines all entries.
     *
     * @param parallelismThreshold from how many entries on the functions run in parallel
     * @param reducer combines two of them, in any order
     * @return all of them combined, or null if there is none
     */
    public Map.Entry<K, V> reduceEntries(long parallelismThreshold,
            BiFunction<Map.Entry<K, V>, Map.Entry<K, V>, ? extends Map.Entry<K, V>> reducer) {
        Objects.requireNonNull(reducer);
        return walk(entrySource(), parallelismThreshold, items -> reduced(items, reducer));
    }

    /**
     * Combines what a function gives for each entry, if it is not null.
     *
     * @param parallelismThreshold from how many entries on the functions run in parallel
     * @param transformer the function
     * @param reducer combines two of its results, in any order
     * @param <U> what the function gives
     * @return all of them combined, or null if there is none
     */
    public <U> U reduceEntries(long parallelismThreshold, Function<Map.Entry<K, V>, ? extends U> transformer,
            BiFunction<? super U, ? super U, ? extends U> reducer) {
        Objects.requireNonNull(transformer);
        Objects.requireNonNull(reducer);
        return walk(entrySource(), parallelismThreshold,
                items -> reduced(found(items, transformer), reducer));
    }

    /**
     * Combines the numbers that a function gives for each entry.
     *
     * @param parallelismThreshold from how many entries on the functions run in parallel
     * @param transformer the function
     * @param basis what changes nothing in a combination
     * @param reducer combines two numbers, in any order
     * @return all of them combined; the basis if there is none
     */
    public double reduceEntriesToDouble(long parallelismThreshold, ToDoubleFunction<Map.Entry<K, V>> transformer, double basis,
            DoubleBinaryOperator reducer) {
        Objects.requireNonNull(transformer);
        Objects.requireNonNull(reducer);
        return walk(entrySource(), parallelismThreshold,
                items -> items.mapToDouble(transformer).reduce(basis, reducer));
    }

    /**
     * Combines the numbers that a function gives for each entry.
     *
     * @param parallelismThreshold from how many entries on the functions run in parallel
     * @param transformer the function
     * @param basis what changes nothing in a combination
     * @param reducer combines two numbers, in any order
     * @return all of them combined; the basis if there is none
     */
    public long reduceEntriesToLong(long parallelismThreshold, ToLongFunction<Map.Entry<K, V>> transformer, long basis,
            LongBinaryOperator reducer) {
        Objects.requireNonNull(transformer);
        Objects.requireNonNull(reducer);
        return walk(entrySource(), parallelismThreshold,
                items -> items.mapToLong(transformer).reduce(basis, reducer));
    }

    /**
     * Combines the numbers that a function gives for each entry.
     *
     * @param parallelismThreshold from how many entries on the functions run in parallel
     * @param transformer the function
     * @param basis what changes nothing in a combination
     * @param reducer combines two numbers, in any order
     * @return all of them combined; the basis if there is none
     */
    public int reduceEntriesToInt(long parallelismThreshold, ToIntFunction<Map.Entry<K, V>> transformer, int basis,
            IntBinaryOperator reducer) {
        Objects.requireNonNull(transformer);
        Objects.requireNonNull(reducer);
        return walk(entrySource(), parallelismThreshold,
                items -> items.mapToInt(transformer).reduce(basis, reducer));
    }
}
