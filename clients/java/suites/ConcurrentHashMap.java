package bpfmap;

import java.time.Duration;
import java.util.ArrayList;
import java.util.Collections;
import java.util.Enumeration;
import java.util.List;
import java.util.Map;
import java.util.Objects;
import java.util.stream.Stream;

/**
 * A {@link RemoteMap} with the name and the constructors of {@code java.util.concurrent.ConcurrentHashMap}, so that JSR-166's tests
 * can be compiled with it. A new map begins empty, on a server of its own: of those that the property {@code bpfmap.ports} names the
 * first is for large maps, and the others are taken in turn, which ends the map that had the server before.
 *
 * @param <K> the keys
 * @param <V> the values
 */
public class ConcurrentHashMap<K, V> extends RemoteMap<K, V> {
    private static final int LARGE = 1000;
    private static final Settings SETTINGS = Settings.DEFAULT.withConnections(8).withAnswerTimeout(Duration.ofMinutes(5));
    private static final int[] PORTS = Stream.of(System.getProperty("bpfmap.ports").split(",")).mapToInt(Integer::parseInt).toArray();
    private static final RemoteMap<?, ?>[] LAST = new RemoteMap<?, ?>[PORTS.length];
    private static int turn;

    /** The objects of this process, each under the number that is sent for it and for those that equal it. */
    private static final class Numbered<T> implements Codec<T> {
        private static final Map<Object, Long> NUMBERS = new java.util.concurrent.ConcurrentHashMap<>();
        private static final List<Object> OBJECTS = Collections.synchronizedList(new ArrayList<>());

        @Override
        public byte[] encode(T value) {
            return Codec.longs().encode(NUMBERS.computeIfAbsent(value, Numbered::number));
        }

        private static long number(Object value) {
            synchronized (OBJECTS) {
                OBJECTS.add(value);
                return OBJECTS.size() - 1;
            }
        }

        @Override
        @SuppressWarnings("unchecked")
        public T decode(byte[] bytes) {
            return (T) OBJECTS.get(Codec.longs().decode(bytes).intValue());
        }
    }

    public ConcurrentHashMap() {
        this(16);
    }

    public ConcurrentHashMap(int capacity) {
        this(capacity, 0.75f);
    }

    public ConcurrentHashMap(int capacity, float load) {
        this(capacity, load, 1);
    }

    public ConcurrentHashMap(int capacity, float load, int threads) {
        this(placeOf(capacity, load, threads), false);
    }

    public ConcurrentHashMap(Map<? extends K, ? extends V> entries) {
        this(Objects.requireNonNull(entries).size());
        putAll(entries);
    }

    private ConcurrentHashMap(int place, boolean ignored) {
        super(new ConnectionPool(() -> Connection.open("127.0.0.1", PORTS[place], SETTINGS), SETTINGS), new Numbered<>(),
                new Numbered<>());
        synchronized (LAST) {
            if (LAST[place] != null) {
                LAST[place].close();
            }
            LAST[place] = this;
        }
        clear();
    }

    /** The place of the server for a map of these sizes, which ConcurrentHashMap would take too. */
    private static synchronized int placeOf(int capacity, float load, int threads) {
        if (capacity < 0 || !(load > 0) || threads <= 0) {
            throw new IllegalArgumentException();
        }
        return capacity >= LARGE ? 0 : 1 + turn++ % (PORTS.length - 1);
    }

    public static <T> KeyView<T, Boolean> newKeySet() {
        return new ConcurrentHashMap<T, Boolean>().keySet(Boolean.TRUE);
    }

    public static <T> KeyView<T, Boolean> newKeySet(int capacity) {
        return new ConcurrentHashMap<T, Boolean>(capacity).keySet(Boolean.TRUE);
    }

    public boolean contains(Object value) {
        return containsValue(value);
    }

    public Enumeration<K> keys() {
        return Collections.enumeration(keySet());
    }

    public Enumeration<V> elements() {
        return Collections.enumeration(values());
    }
}
