package bpfmap;

import java.io.IOException;
import java.io.UncheckedIOException;
import java.util.ArrayList;
import java.util.Arrays;
import java.util.List;
import java.util.Map;
import java.util.Objects;
import java.util.concurrent.ConcurrentMap;
import java.util.concurrent.Executor;
import java.util.concurrent.ForkJoinPool;
import java.util.function.BiConsumer;
import java.util.function.BiFunction;
import java.util.function.Function;
import java.util.stream.Stream;

/**
 * A map that a server keeps, shared with all its clients. Any number of threads may use one; each call takes one of the map's
 * connections, and waits if all are taken.
 *
 * <p>{@code get}, {@code put}, {@code putIfAbsent}, {@code remove}, {@code replace}, {@code compute} and the like with a
 * {@link Program}, and {@code size} are one request, and the server does each in one step. A program is registered by its bytes
 * the first time that a connection uses it, which is one request more. The forms with a Java function are loops of such requests,
 * as {@link ConcurrentMap}'s own: the function runs here, and again if another client was faster.
 *
 * <p>Views and the forms with a threshold walk over the entries, which come as they arrive. They are weakly consistent. An open
 * walk has a connection of its own, beside those of {@link Settings#connections}. Close an iterator or a stream that you leave
 * before its end: that ends the walk's connection. A threshold is that of {@link java.util.concurrent.ConcurrentHashMap}: from
 * that many entries on your functions run in parallel.
 *
 * <p>Neither keys nor values are null. What all calls throw:
 * <ul>
 * <li>{@link NullPointerException} for a null key, value or function, {@link TooLongException} for a key above 64 bytes or a value
 *     or argument above 1,024, in version 1 above 256: nothing was sent.
 * <li>{@link RefusedException} if the server refuses, {@link UnfitException} if a program's windows are too small: nothing
 *     was done. But after a refusal 65, which version 1 alone meets, the call was made: its answer is a longer value.
 * <li>{@link UncheckedIOException} if the connection breaks, the time is over or the thread is interrupted: the call was made or it
 *     was not, and it is not made again. The next call takes another connection. An interrupted thread stays interrupted.
 * <li>{@link IllegalArgumentException} by a codec that can't read what the server has: the call was made.
 * <li>{@link IllegalStateException} after {@link #close}.
 * </ul>
 *
 * @param <K> the keys
 * @param <V> the values
 */
public final class RemoteMap<K, V> extends ItemWalks<K, V> implements ConcurrentMap<K, V>, AutoCloseable {
    private static final int BATCH = 1024;

    private final ConnectionPool pool;
    private final Coder<K, V> coder;
    private final WalkSources<K, V> sources;

    RemoteMap(ConnectionPool pool, Codec<K> keys, Codec<V> values) {
        this.pool = pool;
        coder = new Coder<>(keys, values, pool.version());
        sources = new WalkSources<>(pool, coder, key -> call(Request.remove(key)));
    }

    /**
     * The map of a server, with the settings of {@link Settings#DEFAULT}.
     *
     * @param host the server's name or address
     * @param port its port
     * @param keys how keys are sent
     * @param values how values are sent
     * @param <K> the keys
     * @param <V> the values
     * @return the map
     */
    public static <K, V> RemoteMap<K, V> open(String host, int port, Codec<K> keys, Codec<V> values) {
        return open(host, port, keys, values, Settings.DEFAULT);
    }

    /**
     * The map of a server. One connection is made at once, so that a server that is not there is found.
     *
     * @param host the server's name or address
     * @param port its port
     * @param keys how keys are sent
     * @param values how values are sent
     * @param settings how many connections, the times, and the version of the protocol
     * @param <K> the keys
     * @param <V> the values
     * @return the map
     */
    public static <K, V> RemoteMap<K, V> open(String host, int port, Codec<K> keys, Codec<V> values, Settings settings) {
        ConnectionPool pool = new ConnectionPool(() -> Connection.open(host, port, settings), settings);
        RemoteMap<K, V> map = new RemoteMap<>(pool, keys, values);
        map.pool.use(Connection::isUsable);
        return map;
    }

    /**
     * A set of keys that a server keeps: those of its map, each with the value {@code true}. {@link KeyView#getMap} has the map,
     * which you close.
     *
     * @param host the server's name or address
     * @param port its port
     * @param keys how keys are sent
     * @param settings how many connections, the times, and the version of the protocol
     * @param <K> the keys
     * @return the set
     */
    public static <K> KeyView<K, Boolean> newKeySet(String host, int port, Codec<K> keys, Settings settings) {
        return open(host, port, keys, Codec.booleans(), settings).keySet(Boolean.TRUE);
    }

    /** Closes the connections, the lent ones when they come back. The server keeps the entries. */
    @Override
    public void close() {
        pool.close();
    }

    /**
     * This map's calls as futures. What hangs on them runs in {@link ForkJoinPool#commonPool}.
     *
     * @return the calls
     */
    public AsyncMap<K, V> async() {
        return async(ForkJoinPool.commonPool());
    }

    /**
     * This map's calls as futures. Each such object has a thread and an order of its own.
     *
     * @param callbacks runs what hangs on the futures
     * @return the calls
     */
    public AsyncMap<K, V> async(Executor callbacks) {
        return new AsyncMap<>(this, pool, coder, callbacks);
    }

    // ---- calls of one key, each one request

    @Override
    public V get(Object key) {
        return coder.decoded(call(Request.get(coder.keyOf(key))));
    }

    /** {@inheritDoc} It is a {@code get}. */
    @Override
    public boolean containsKey(Object key) {
        return call(Request.get(coder.keyOf(key))) != null;
    }

    @Override
    public V put(K key, V value) {
        return coder.decoded(call(Request.put(coder.keyOf(key), coder.valueOf(value))));
    }

    @Override
    public V putIfAbsent(K key, V value) {
        return coder.decoded(call(Request.putIfAbsent(coder.keyOf(key), coder.valueOf(value))));
    }

    @Override
    public V remove(Object key) {
        return coder.decoded(call(Request.remove(coder.keyOf(key))));
    }

    /** {@inheritDoc} No key has the value null, so for that one nothing is asked. */
    @Override
    public boolean remove(Object key, Object value) {
        byte[] bytes = coder.keyOf(key);
        return value != null && call(Request.removeIf(bytes, coder.valueOf(value)));
    }

    @Override
    public V replace(K key, V value) {
        return coder.decoded(call(Request.replace(coder.keyOf(key), coder.valueOf(value))));
    }

    @Override
    public boolean replace(K key, V oldValue, V newValue) {
        return call(Request.replaceIf(coder.keyOf(key), coder.valueOf(oldValue), coder.valueOf(newValue)));
    }

    // ---- calls with a program, each one request

    /**
     * The program's answer becomes the key's value; if it answers nothing the key is removed or stays absent. It gets the key,
     * the old value if there is one, and the argument.
     *
     * @param key the key
     * @param program the program
     * @param argument its argument, or null for none
     * @return the new value, or null
     */
    public V compute(K key, Program program, byte[] argument) {
        return coder.decoded(call(Request.compute(coder.keyOf(key), program, coder.argumentOf(argument))));
    }

    /**
     * If the key is absent, the program's answer becomes its value, if it answers. It gets the key and the argument.
     *
     * @param key the key
     * @param program the program
     * @param argument its argument, or null for none
     * @return the value that the key then has, or null
     */
    public V computeIfAbsent(K key, Program program, byte[] argument) {
        return coder.decoded(call(Request.computeIfAbsent(coder.keyOf(key), program, coder.argumentOf(argument))));
    }

    /**
     * If the key is present, the program's answer becomes its value; if it answers nothing the key is removed. It gets the
     * key, the old value and the argument.
     *
     * @param key the key
     * @param program the program
     * @param argument its argument, or null for none
     * @return the value that the key then has, or null
     */
    public V computeIfPresent(K key, Program program, byte[] argument) {
        return coder.decoded(call(Request.computeIfPresent(coder.keyOf(key), program, coder.argumentOf(argument))));
    }

    /**
     * If the key is absent, the value is put. Else the program's answer becomes its value; if it answers nothing the key is
     * removed. It gets the key, the old value, and this value as its argument.
     *
     * @param key the key
     * @param value the value
     * @param program the program
     * @return the value that the key then has, or null
     */
    public V merge(K key, V value, Program program) {
        return coder.decoded(call(Request.merge(coder.keyOf(key), coder.valueOf(value), program)));
    }

    // ---- walks with a program, each one request

    /**
     * Runs the program on each entry; an answer is the key's new value. The server takes each entry in one step.
     *
     * @param program the program
     * @param argument its argument, or null for none
     * @return what was counted
     */
    public Counts replaceAll(Program program, byte[] argument) {
        byte[] checked = coder.argumentOf(argument);
        return call(Request.replaceAll(program, checked));
    }

    /**
     * Runs the program on each entry, and brings its answers.
     *
     * @param parallelismThreshold from how many entries on the server may use more than one thread, as an unsigned number
     * @param program the program
     * @param argument its argument, or null for none
     * @param answers how the answers are read
     * @param <R> the answers
     * @return an item for each answer, in the order of the keys' bytes
     */
    public <R> Walk<K, R> forEach(long parallelismThreshold, Program program, byte[] argument, Codec<R> answers) {
        byte[] checked = coder.argumentOf(argument);
        return coder.decoded(call(Request.forEach(program, checked, parallelismThreshold)), answers);
    }

    /**
     * Runs the program on entries, and brings its answer at the least key that has one.
     *
     * @param parallelismThreshold from how many entries on the server may use more than one thread, as an unsigned number
     * @param program the program
     * @param argument its argument, or null for none
     * @param answer how the answer is read
     * @param <R> the answer
     * @return one item, or none
     */
    public <R> Walk<K, R> search(long parallelismThreshold, Program program, byte[] argument, Codec<R> answer) {
        byte[] checked = coder.argumentOf(argument);
        return coder.decoded(call(Request.search(program, checked, parallelismThreshold)), answer);
    }

    /**
     * Runs the program on each entry, and has its answers as they come. Close the iterator if you leave it before its end; its
     * {@code remove} removes the key.
     *
     * @param parallelismThreshold from how many entries on the server may use more than one thread, as an unsigned number
     * @param program the program
     * @param argument its argument, or null for none
     * @param answers how the answers are read
     * @param <R> the answers
     * @return an item for each answer, in the order of the keys' bytes; {@link WalkIterator#counts} tells at the end what was
     *     counted
     */
    public <R> WalkIterator<Map.Entry<K, R>> walk(long parallelismThreshold, Program program, byte[] argument, Codec<R> answers) {
        return sources.answers(parallelismThreshold, program, argument, answers).iterator();
    }

    /**
     * The same as a stream, whose walk begins at its terminal operation. Close the stream, as you do an iterator.
     *
     * @param parallelismThreshold from how many entries on the server may use more than one thread, as an unsigned number
     * @param program the program
     * @param argument its argument, or null for none
     * @param answers how the answers are read
     * @param <R> the answers
     * @return an item for each answer, in the order of the keys' bytes
     */
    public <R> Stream<Map.Entry<K, R>> stream(long parallelismThreshold, Program program, byte[] argument, Codec<R> answers) {
        return sources.answers(parallelismThreshold, program, argument, answers).stream(false);
    }

    // ---- calls with a Java function, by loops of requests

    /**
     * {@inheritDoc} The function runs here, in a loop of {@code get} and {@code replace}, {@code putIfAbsent} or {@code remove}: it
     * runs again if another client has changed the value. The form with a program is one request.
     */
    @Override
    public V compute(K key, BiFunction<? super K, ? super V, ? extends V> function) {
        return ConcurrentMap.super.compute(key, function);
    }

    /** {@inheritDoc} The function runs here, between a {@code get} and a {@code putIfAbsent}. */
    @Override
    public V computeIfAbsent(K key, Function<? super K, ? extends V> function) {
        return ConcurrentMap.super.computeIfAbsent(key, function);
    }

    /**
     * {@inheritDoc} The function runs here, in a loop of {@code get} and {@code replace} or {@code remove}: it runs again if
     * another client has changed the value.
     */
    @Override
    public V computeIfPresent(K key, BiFunction<? super K, ? super V, ? extends V> function) {
        return ConcurrentMap.super.computeIfPresent(key, function);
    }

    /**
     * {@inheritDoc} The function runs here, in a loop of {@code get} and {@code replace}, {@code putIfAbsent} or {@code remove}: it
     * runs again if another client has changed the value. The form with a program is one request.
     */
    @Override
    public V merge(K key, V value, BiFunction<? super V, ? super V, ? extends V> function) {
        return ConcurrentMap.super.merge(key, value, function);
    }

    /** {@inheritDoc} The function runs here, for each entry of a walk in a loop of {@code replace} and {@code get}. */
    @Override
    public void replaceAll(BiFunction<? super K, ? super V, ? extends V> function) {
        ConcurrentMap.super.replaceAll(function);
    }

    /** {@inheritDoc} It goes over the entries of a walk. */
    @Override
    public void forEach(BiConsumer<? super K, ? super V> action) {
        Objects.requireNonNull(action);
        entrySet().forEach(entry -> action.accept(entry.getKey(), entry.getValue()));
    }

    // ---- all entries

    /**
     * Counts the entries, in one request.
     *
     * @return the number of entries
     */
    @Override
    public long mappingCount() {
        return call(Request.count()).scanned();
    }

    @Override
    public int size() {
        return (int) Math.min(mappingCount(), Integer.MAX_VALUE);
    }

    @Override
    public boolean isEmpty() {
        return mappingCount() == 0;
    }

    /** {@inheritDoc} It walks over all entries. */
    @Override
    public boolean containsValue(Object value) {
        byte[] wanted = coder.valueOf(value);
        try (WalkIterator<byte[]> found = sources.rawValues().iterator()) {
            while (found.hasNext()) {
                if (Arrays.equals(found.next(), wanted)) {
                    return true;
                }
            }
            return false;
        }
    }

    /** {@inheritDoc} The puts are sent together. If one fails, those before it and some after it may have been made. */
    @Override
    public void putAll(Map<? extends K, ? extends V> entries) {
        List<Request<byte[]>> puts = new ArrayList<>();
        entries.forEach((key, value) -> puts.add(Request.put(coder.keyOf(key), coder.valueOf(value))));
        pool.use(connection -> callAll(connection, puts));
    }

    /** {@inheritDoc} It removes the keys of a walk; entries that are put meanwhile may stay. */
    @Override
    public void clear() {
        try (WalkIterator<byte[]> found = sources.rawKeys().iterator()) {
            while (found.hasNext()) {
                List<Request<byte[]>> removals = new ArrayList<>();
                while (removals.size() < BATCH && found.hasNext()) {
                    removals.add(Request.remove(found.next()));
                }
                pool.use(connection -> callAll(connection, removals));
            }
        }
    }

    /** {@inheritDoc} Each of its iterators and streams has the keys of one walk. */
    @Override
    public KeyView<K, V> keySet() {
        return new KeyView<>(this, null);
    }

    /**
     * The keys, as {@link #keySet()} has them. A key that is added to the view gets this value if it is absent.
     *
     * @param mappedValue the value of keys that are added
     * @return the view
     */
    public KeyView<K, V> keySet(V mappedValue) {
        return new KeyView<>(this, Objects.requireNonNull(mappedValue));
    }

    /** {@inheritDoc} Each of its iterators and streams has the values of one walk; iterators remove by key. */
    @Override
    public ValueView<K, V> values() {
        return new ValueView<>(this);
    }

    /**
     * {@inheritDoc} Each of its iterators and streams has the entries of one walk; iterators remove by key. {@code setValue} of an
     * entry is a put.
     */
    @Override
    public EntryView<K, V> entrySet() {
        return new EntryView<>(this);
    }

    @Override
    WalkSource<K> keySource() {
        return sources.keys();
    }

    @Override
    WalkSource<V> valueSource() {
        return sources.values();
    }

    @Override
    WalkSource<Map.Entry<K, V>> entrySource() {
        return sources.entries(this);
    }

    /** Whether two values are the same to the server. */
    boolean areEqual(Object one, Object other) {
        return Arrays.equals(coder.valueOf(one), coder.valueOf(other));
    }

    // ---- requests

    private <T> T call(Request<T> request) {
        return pool.use(connection -> connection.call(request));
    }

    /** Makes calls in pipelines of a bounded length; throws the first error. */
    private static Void callAll(Connection connection, List<Request<byte[]>> requests) throws IOException {
        for (int start = 0; start < requests.size(); start += BATCH) {
            callTogether(connection, requests.subList(start, Math.min(start + BATCH, requests.size())));
        }
        return null;
    }

    private static void callTogether(Connection connection, List<Request<byte[]>> requests) throws IOException {
        Pipeline pipeline = connection.pipeline();
        List<Reply<byte[]>> replies = requests.stream().map(pipeline::add).toList();
        pipeline.run();
        for (Reply<byte[]> reply : replies) {
            reply.get();
        }
    }
}
