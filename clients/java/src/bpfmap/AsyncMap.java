package bpfmap;

import java.util.Map;
import java.util.Objects;
import java.util.concurrent.CompletableFuture;
import java.util.concurrent.Executor;
import java.util.function.Function;
import java.util.function.Supplier;

/**
 * A map's calls as futures. None of its methods waits: the calls are made on a thread of this map. Calls of one key are made in the
 * order in which you ask for them, and those that wait for their turn are sent together in one pipeline, over one connection. Calls
 * that go over all entries, and {@code putAll}, have threads of their own, as many as the map has connections, and no order.
 *
 * <p>A future ends as the call of {@link RemoteMap} does: with its answer or with its exception. What hangs on a future runs on the
 * executor, so it may wait for another call. A future that is cancelled before its call was sent is not sent. A key, value or
 * argument that is null or too long is thrown at once.
 *
 * <pre>{@code
 * map.async().merge("home", 1L, sum).thenAccept(hits -> show(hits));
 * }</pre>
 *
 * @param <K> the keys
 * @param <V> the values
 */
public final class AsyncMap<K, V> {
    private final RemoteMap<K, V> map;
    private final Coder<K, V> coder;
    private final Executor callbacks;
    private final Lane lane;
    private final Executor walkers;

    AsyncMap(RemoteMap<K, V> map, ConnectionPool pool, Coder<K, V> coder, Executor callbacks) {
        this.map = map;
        this.coder = coder;
        this.callbacks = Objects.requireNonNull(callbacks);
        lane = new Lane(pool, callbacks);
        walkers = Lane.threads(pool.connections());
    }

    /**
     * The map of these calls.
     *
     * @return the map, which you close
     */
    public RemoteMap<K, V> getMap() {
        return map;
    }

    /**
     * Gets a key's value.
     *
     * @param key the key
     * @return its value, or null
     */
    public CompletableFuture<V> get(K key) {
        return value(Request.get(coder.keyOf(key)));
    }

    /**
     * Whether a key has a value.
     *
     * @param key the key
     * @return whether it has
     */
    public CompletableFuture<Boolean> containsKey(K key) {
        return lane.submit(Request.get(coder.keyOf(key)), Objects::nonNull);
    }

    /**
     * Puts a value.
     *
     * @param key the key
     * @param value its new value
     * @return the value before, or null
     */
    public CompletableFuture<V> put(K key, V value) {
        return value(Request.put(coder.keyOf(key), coder.valueOf(value)));
    }

    /**
     * Puts a value if there is none.
     *
     * @param key the key
     * @param value its value
     * @return the value that it has, or null
     */
    public CompletableFuture<V> putIfAbsent(K key, V value) {
        return value(Request.putIfAbsent(coder.keyOf(key), coder.valueOf(value)));
    }

    /**
     * Removes a key.
     *
     * @param key the key
     * @return the value that was removed, or null
     */
    public CompletableFuture<V> remove(K key) {
        return value(Request.remove(coder.keyOf(key)));
    }

    /**
     * Removes a key if it has this value.
     *
     * @param key the key
     * @param value the value
     * @return whether it was removed
     */
    public CompletableFuture<Boolean> remove(K key, V value) {
        return lane.submit(Request.removeIf(coder.keyOf(key), coder.valueOf(value)), Function.identity());
    }

    /**
     * Replaces a key's value, if it has one.
     *
     * @param key the key
     * @param value the new value
     * @return the value before, or null
     */
    public CompletableFuture<V> replace(K key, V value) {
        return value(Request.replace(coder.keyOf(key), coder.valueOf(value)));
    }

    /**
     * Replaces a key's value, if it is this one.
     *
     * @param key the key
     * @param oldValue the value that is replaced
     * @param newValue the new one
     * @return whether it was replaced
     */
    public CompletableFuture<Boolean> replace(K key, V oldValue, V newValue) {
        return lane.submit(Request.replaceIf(coder.keyOf(key), coder.valueOf(oldValue), coder.valueOf(newValue)),
                Function.identity());
    }

    /**
     * Makes the program's answer the key's value, as {@link RemoteMap#compute(Object, Program, byte[])}.
     *
     * @param key the key
     * @param program the program
     * @param argument its argument, or null for none
     * @return the new value, or null
     */
    public CompletableFuture<V> compute(K key, Program program, byte[] argument) {
        return value(Request.compute(coder.keyOf(key), program, coder.argumentOf(argument)));
    }

    /**
     * Makes the program's answer an absent key's value, as {@link RemoteMap#computeIfAbsent(Object, Program, byte[])}.
     *
     * @param key the key
     * @param program the program
     * @param argument its argument, or null for none
     * @return the value that the key then has, or null
     */
    public CompletableFuture<V> computeIfAbsent(K key, Program program, byte[] argument) {
        return value(Request.computeIfAbsent(coder.keyOf(key), program, coder.argumentOf(argument)));
    }

    /**
     * Makes the program's answer a present key's value, as {@link RemoteMap#computeIfPresent(Object, Program, byte[])}.
     *
     * @param key the key
     * @param program the program
     * @param argument its argument, or null for none
     * @return the value that the key then has, or null
     */
    public CompletableFuture<V> computeIfPresent(K key, Program program, byte[] argument) {
        return value(Request.computeIfPresent(coder.keyOf(key), program, coder.argumentOf(argument)));
    }

    /**
     * Merges a value by the program, as {@link RemoteMap#merge(Object, Object, Program)}.
     *
     * @param key the key
     * @param value the value
     * @param program the program
     * @return the value that the key then has, or null
     */
    public CompletableFuture<V> merge(K key, V value, Program program) {
        return value(Request.merge(coder.keyOf(key), coder.valueOf(value), program));
    }

    /**
     * Counts the entries.
     *
     * @return their number
     */
    public CompletableFuture<Long> mappingCount() {
        return walk(map::mappingCount);
    }

    /**
     * Runs the program on each entry; an answer is the key's new value.
     *
     * @param program the program
     * @param argument its argument, or null for none
     * @return what was counted
     */
    public CompletableFuture<Counts> replaceAll(Program program, byte[] argument) {
        return walk(() -> map.replaceAll(program, argument));
    }

    /**
     * Runs the program on each entry, and brings its answers.
     *
     * @param parallelismThreshold from how many entries on the server may use more than one thread, as an unsigned number
     * @param program the program
     * @param argument its argument, or null for none
     * @param answers how the answers are read
     * @param <R> the answers
     * @return an item for each answer, in the order of the keys' bytes
     */
    public <R> CompletableFuture<Walk<K, R>> forEach(long parallelismThreshold, Program program, byte[] argument,
            Codec<R> answers) {
        return walk(() -> map.forEach(parallelismThreshold, program, argument, answers));
    }

    /**
     * Runs the program on entries, and brings its answer at the least key that has one.
     *
     * @param parallelismThreshold from how many entries on the server may use more than one thread, as an unsigned number
     * @param program the program
     * @param argument its argument, or null for none
     * @param answer how the answer is read
     * @param <R> the answer
     * @return one item, or none
     */
    public <R> CompletableFuture<Walk<K, R>> search(long parallelismThreshold, Program program, byte[] argument,
            Codec<R> answer) {
        return walk(() -> map.search(parallelismThreshold, program, argument, answer));
    }

    /**
     * Puts all entries, in one or several pipelines.
     *
     * @param entries the entries
     * @return ends when all of them are put
     */
    public CompletableFuture<Void> putAll(Map<? extends K, ? extends V> entries) {
        return walk(() -> {
            map.putAll(entries);
            return null;
        });
    }

    private CompletableFuture<V> value(Request<byte[]> request) {
        return lane.submit(request, coder::decoded);
    }

    /** Makes a long call on a thread of its own. */
    private <R> CompletableFuture<R> walk(Supplier<R> call) {
        CompletableFuture<R> future = new CompletableFuture<>();
        walkers.execute(() -> {
            try {
                R answer = call.get();
                callbacks.execute(() -> future.complete(answer));
            } catch (RuntimeException | Error e) {
                callbacks.execute(() -> future.completeExceptionally(e));
            }
        });
        return future;
    }
}
