package bpfmap;

import java.lang.reflect.InvocationTargetException;
import java.lang.reflect.Method;
import java.nio.file.Path;
import java.util.Arrays;
import java.util.HashMap;
import java.util.List;
import java.util.Map;
import java.util.Set;
import java.util.concurrent.ConcurrentHashMap;
import java.util.concurrent.ConcurrentSkipListSet;
import java.util.function.BiConsumer;
import java.util.function.BiFunction;
import java.util.function.Consumer;
import java.util.function.DoubleBinaryOperator;
import java.util.function.Function;
import java.util.function.IntBinaryOperator;
import java.util.function.LongBinaryOperator;
import java.util.function.ToDoubleBiFunction;
import java.util.function.ToDoubleFunction;
import java.util.function.ToIntBiFunction;
import java.util.function.ToIntFunction;
import java.util.function.ToLongBiFunction;
import java.util.function.ToLongFunction;

/** The walks with Java functions are all there, and answer as ConcurrentHashMap's. */
final class BulkTest {
    private static final int ENTRIES = 20;

    private final ConcurrentSkipListSet<String> seen = new ConcurrentSkipListSet<>();

    private BulkTest() {}

    static String likeConcurrentHashMap(Path server) throws Exception {
        ConcurrentHashMap<String, Long> model = new ConcurrentHashMap<>();
        for (long key = 0; key < ENTRIES; key++) {
            model.put("key " + key, key);
        }
        int compared = 0;
        try (Mapd mapd = Mapd.start(server);
                RemoteMap<String, Long> map = mapd.open(Codec.strings(), Codec.longs(), 1)) {
            map.putAll(model);
            for (Method method : ConcurrentHashMap.class.getMethods()) {
                if (method.getDeclaringClass() == ConcurrentHashMap.class && method.getParameterCount() > 1
                        && method.getParameterTypes()[0] == long.class) {
                    Method same = RemoteMap.class.getMethod(method.getName(), method.getParameterTypes());
                    for (long threshold : new long[] {1, ENTRIES + 1}) {
                        Check.equal(method.getName(), new BulkTest().answer(method, model, threshold),
                                new BulkTest().answer(same, map, threshold));
                    }
                    compared++;
                }
            }
            keySets(map);
        }
        return compared + " methods, in parallel and not";
    }

    /** What a method answers or hands over. Functions are such that the order of the items makes no difference. */
    private Object answer(Method method, Object map, long threshold) throws ReflectiveOperationException {
        Object[] arguments = Arrays.stream(method.getParameterTypes()).map(this::argument).toArray();
        arguments[0] = threshold;
        if (method.getName().startsWith("search")) {
            arguments[1] = searcher(method.getName());
        }
        if (method.getParameterCount() == 2 && method.getName().startsWith("reduce")) {
            arguments[1] = (BiFunction<Object, Object, Object>) BulkTest::greater;
        }
        if (method.getParameterCount() == 3 && method.getParameterTypes()[2] == BiFunction.class) {
            arguments[2] = (BiFunction<Long, Long, Long>) Long::sum;
        }
        try {
            Object answer = method.invoke(map, arguments);
            return answer == null ? List.copyOf(seen) : answer;
        } catch (InvocationTargetException e) {
            throw new AssertionError(method + " threw", e.getCause());
        }
    }

    private static Object searcher(String name) {
        return name.equals("search") ? (BiFunction<String, Long, Object>) (key, value) -> value == 7 ? key : null
                : (Function<Object, Object>) item -> length(item) == 7 ? item.toString() : null;
    }

    /** Which of the items is found is the same for both maps: only one has this length. */
    private static long length(Object item) {
        return item instanceof Map.Entry<?, ?> entry ? (Long) entry.getValue() : item instanceof Long value ? value
                : Long.parseLong(item.toString().substring(4));
    }

    private static Object greater(Object one, Object other) {
        return length(one) >= length(other) ? one : other;
    }

    private Object argument(Class<?> kind) {
        Map<Class<?>, Object> known = new HashMap<>();
        known.put(long.class, 0L);
        known.put(int.class, 0);
        known.put(double.class, 0.0);
        known.put(BiConsumer.class, (BiConsumer<Object, Object>) (key, value) -> seen.add(key + "=" + value));
        known.put(Consumer.class, (Consumer<Object>) item -> seen.add(item.toString()));
        known.put(Function.class, (Function<Object, Object>) item -> length(item) % 3 == 0 ? null : length(item));
        known.put(BiFunction.class, (BiFunction<String, Long, Object>) (key, value) -> value % 3 == 0 ? null : value);
        known.put(ToLongFunction.class, (ToLongFunction<Object>) BulkTest::length);
        known.put(ToIntFunction.class, (ToIntFunction<Object>) item -> (int) length(item));
        known.put(ToDoubleFunction.class, (ToDoubleFunction<Object>) BulkTest::length);
        known.put(ToLongBiFunction.class, (ToLongBiFunction<String, Long>) (key, value) -> length(key) + value);
        known.put(ToIntBiFunction.class, (ToIntBiFunction<String, Long>) (key, value) -> (int) (length(key) + value));
        known.put(ToDoubleBiFunction.class, (ToDoubleBiFunction<String, Long>) (key, value) -> length(key) + value);
        known.put(LongBinaryOperator.class, (LongBinaryOperator) Long::sum);
        known.put(IntBinaryOperator.class, (IntBinaryOperator) Integer::sum);
        known.put(DoubleBinaryOperator.class, (DoubleBinaryOperator) Double::sum);
        Check.that("an argument of " + kind, known.containsKey(kind));
        return known.get(kind);
    }

    private static void keySets(RemoteMap<String, Long> map) {
        KeyView<String, Long> keys = map.keySet(5L);
        Check.that("a new key", keys.add("new") && map.get("new") == 5 && !keys.add("new"));
        Check.that("a key that has a value", !keys.add("key 1") && map.get("key 1") == 1);
        Check.equal("the mapped value", 5L, keys.getMappedValue());
        Check.that("its map", keys.getMap() == map && map.keySet().getMappedValue() == null);
        Check.raises("no value for a new key", UnsupportedOperationException.class, () -> map.keySet().add("other"));
        Check.raises("null", NullPointerException.class, () -> map.keySet(null));
    }

    /** A set whose map the server keeps. */
    static String newKeySet(Path server) throws Exception {
        try (Mapd mapd = Mapd.start(server)) {
            KeyView<String, Boolean> set = RemoteMap.newKeySet(Mapd.HOST, mapd.port(), Codec.strings(), Settings.DEFAULT);
            try (RemoteMap<String, Boolean> map = set.getMap()) {
                Check.that("added once", set.add("a") && !set.add("a") && set.addAll(List.of("b", "c")));
                Check.equal("the set", Set.of("a", "b", "c"), set);
                Check.that("removed", set.remove("a") && !set.remove("a") && set.removeIf("b"::equals) && set.size() == 1);
                Check.equal("its value", true, map.get("c"));
            }
        }
        return "by putIfAbsent";
    }
}
