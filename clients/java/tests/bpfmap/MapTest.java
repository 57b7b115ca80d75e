package bpfmap;

import java.nio.file.Path;
import java.util.Arrays;
import java.util.HashMap;
import java.util.Iterator;
import java.util.List;
import java.util.Map;
import java.util.Random;
import java.util.Set;
import java.util.TreeMap;
import java.util.concurrent.ConcurrentHashMap;
import java.util.concurrent.ConcurrentMap;

/** A map does what {@code ConcurrentHashMap} does, its views and codecs included. */
final class MapTest {
    private static final int STEPS = 1000;
    private static final int ENTRIES = 60;
    /** Between the lengths of two values of a walk: so they are of all sizes. */
    private static final int STRIDE = 59;
    private static final int LONGEST = Version.TWO.longestValue();
    private static final long SEED = 36;

    private MapTest() {}

    /** The same calls at random on a map and on a ConcurrentHashMap. */
    static String likeConcurrentHashMap(Path server) throws Exception {
        Random dice = new Random(SEED);
        ConcurrentMap<String, Long> model = new ConcurrentHashMap<>();
        try (Mapd mapd = Mapd.start(server);
                RemoteMap<String, Long> map = mapd.open(Codec.strings(), Codec.longs(), 2)) {
            for (int step = 0; step < STEPS; step++) {
                int call = dice.nextInt(18);
                String key = "key " + dice.nextInt(6);
                long one = dice.nextInt(3);
                long other = dice.nextInt(3);
                Check.equal("step " + step + ", call " + call, answer(model, call, key, one, other),
                        answer(map, call, key, one, other));
            }
            Check.equal("the entries at the end", model, map);
        }
        return STEPS + " calls";
    }

    private static Object answer(ConcurrentMap<String, Long> map, int call, String key, long one, long other) {
        return switch (call) {
            case 0 -> map.get(key);
            case 1 -> map.put(key, one);
            case 2 -> map.putIfAbsent(key, one);
            case 3 -> map.remove(key);
            case 4 -> map.remove(key, one);
            case 5 -> map.replace(key, one);
            case 6 -> map.replace(key, one, other);
            case 7 -> map.compute(key, (k, v) -> v == null ? Long.valueOf(one) : v > other ? null : Long.valueOf(v + one));
            case 8 -> map.computeIfAbsent(key, k -> one == 0 ? null : Long.valueOf(other));
            case 9 -> map.computeIfPresent(key, (k, v) -> v > other ? null : Long.valueOf(v + one));
            case 10 -> map.merge(key, one, (v, w) -> v > other ? null : Long.valueOf(v + w));
            case 11 -> map.containsKey(key);
            case 12 -> map.containsValue(one);
            case 13 -> map.getOrDefault(key, other);
            default -> answerOfAll(map, call, key, one);
        };
    }

    private static Object answerOfAll(ConcurrentMap<String, Long> map, int call, String key, long one) {
        return switch (call) {
            case 14 -> map.size() + ", " + map.isEmpty() + ", " + map.hashCode();
            case 15 -> Set.copyOf(map.keySet()) + ", " + map.keySet().remove(key);
            case 16 -> {
                map.replaceAll((k, v) -> k.equals(key) ? one : v);
                yield new TreeMap<>(map);
            }
            default -> map.entrySet().contains(Map.entry(key, one)) + ", " + map.values().contains(one);
        };
    }

    static String views(Path server) throws Exception {
        try (Mapd mapd = Mapd.start(server);
                RemoteMap<String, Long> map = mapd.open(Codec.strings(), Codec.longs(), 2)) {
            Map<String, Long> wanted = new TreeMap<>(Map.of("a", 1L, "b", 2L, "c", 3L, "d", 3L, "e", 5L, "", 0L));
            map.putAll(wanted);
            Check.equal("all entries", wanted, map);
            Check.equal("the keys, in order", List.copyOf(wanted.keySet()), List.copyOf(map.keySet()));
            Check.equal("the text", wanted.toString(), map.toString());
            removeByViews(map, wanted);
            setByEntry(map);
            map.clear();
            Check.that("a cleared map is empty", map.isEmpty() && !map.entrySet().iterator().hasNext());
        }
        return "of keys, values and entries";
    }

    private static void removeByViews(RemoteMap<String, Long> map, Map<String, Long> wanted) {
        Iterator<String> keys = map.keySet().iterator();
        Check.raises("remove before next", IllegalStateException.class, keys::remove);
        Check.equal("the least key", "", keys.next());
        keys.remove();
        wanted.remove("");
        Check.equal("after an iterator's remove", wanted, map);
        Check.that("a value is removed once", map.values().remove(3L) && !map.containsKey("c") && map.containsKey("d"));
        Check.that("no entry of another value", !map.entrySet().remove(Map.entry("a", 2L)));
        Check.that("an entry is removed", map.entrySet().remove(Map.entry("a", 1L)));
        Check.that("values by a filter", map.values().removeIf(value -> value == 5) && !map.values().removeIf(value -> value == 5));
        Check.that("keys that are kept", map.keySet().retainAll(Set.of("b")));
        Check.equal("what is left", Map.of("b", 2L), map);
    }

    private static void setByEntry(RemoteMap<String, Long> map) {
        Map.Entry<String, Long> entry = map.entrySet().iterator().next();
        Check.equal("the value before", 2L, entry.setValue(7L));
        Check.equal("an entry's new value", 7L, map.get("b"));
        Check.raises("a null value", NullPointerException.class, () -> entry.setValue(null));
    }

    /** A walk brings values of every length, and many entries. */
    static String walks(Path server) throws Exception {
        try (Mapd mapd = Mapd.start(server);
                RemoteMap<Long, byte[]> map = mapd.open(Codec.longs(), Codec.bytes(), 1)) {
            Map<Long, byte[]> wanted = new HashMap<>();
            for (long key = 0; key < ENTRIES; key++) {
                byte[] value = new byte[(int) (key * STRIDE % (LONGEST + 1))];
                Arrays.fill(value, (byte) (key + 1));
                wanted.put(key, value);
            }
            map.putAll(wanted);
            byte[] second = wanted.get(1L);
            Check.equal("the count", (long) ENTRIES, map.mappingCount());
            for (Map.Entry<Long, byte[]> entry : map.entrySet()) {
                Check.equal("the value of " + entry.getKey(), wanted.remove(entry.getKey()), entry.getValue());
            }
            Check.that("each entry comes once", wanted.isEmpty());
            Check.that("a value by its bytes", map.containsValue(second) && !map.containsValue(new byte[] {1}));
            map.clear();
            Check.equal("no entry is left", 0, map.size());
        }
        return ENTRIES + " entries";
    }

    static String programs(Path server) throws Exception {
        byte[] two = Codec.longs().encode(2L);
        try (Mapd mapd = Mapd.start(server);
                RemoteMap<String, Long> map = mapd.open(Codec.strings(), Codec.longs(), 1)) {
            Check.equal("merge, absent", 1L, map.merge("a", 1L, Programs.SUM));
            Check.equal("merge, present", 3L, map.merge("a", 2L, Programs.SUM));
            Check.equal("compute, absent", 2L, map.compute("b", Programs.SUM, two));
            Check.equal("computeIfAbsent, present", 2L, map.computeIfAbsent("b", Programs.SUM, two));
            Check.equal("computeIfPresent, absent", null, map.computeIfPresent("c", Programs.SUM, two));
            Check.equal("replaceAll", new Counts(2, 2, 0), map.replaceAll(Programs.SUM, two));
            Check.equal("forEach", new Walk<>(List.of(Map.entry("a", 7L), Map.entry("b", 6L)), new Counts(2, 2, 0)),
                    map.forEach(1, Programs.SUM, two, Codec.longs()));
            Check.equal("search", new Walk<>(List.of(Map.entry("a", 7L)), new Counts(2, 1, 0)),
                    map.search(1, Programs.SUM, two, Codec.longs()));
            Check.equal("a program of nothing", null, map.compute("a", Programs.NOTHING, null));
            Check.equal("it removed the key", Map.of("b", 4L), map);
            UnfitException unfit = Check.raises("a long argument", UnfitException.class,
                    () -> map.compute("b", Programs.SUM, new byte[9]));
            Check.equal("its window", UnfitException.Window.ARGUMENT, unfit.window());
        }
        return "by merge, compute and walks";
    }

    static String codecs() {
        Check.equal("a number's bytes", new byte[] {1, 2, 0, 0, 0, 0, 0, -128}, Codec.longs().encode(0x8000000000000201L));
        Check.equal("a number", 0x8000000000000201L, Codec.longs().decode(new byte[] {1, 2, 0, 0, 0, 0, 0, -128}));
        Check.raises("a short number", IllegalArgumentException.class, () -> Codec.longs().decode(new byte[7]));
        Check.equal("a string's bytes", new byte[] {(byte) 0xc3, (byte) 0xa4, 0x61}, Codec.strings().encode("äa"));
        Check.equal("a string", "äa", Codec.strings().decode(new byte[] {(byte) 0xc3, (byte) 0xa4, 0x61}));
        Check.equal("the empty string", 0, Codec.strings().encode("").length);
        Check.raises("half a pair", IllegalArgumentException.class, () -> Codec.strings().encode("\ud800"));
        Check.raises("no UTF-8", IllegalArgumentException.class, () -> Codec.strings().decode(new byte[] {(byte) 0xff}));
        Check.raises("a large size", IllegalArgumentException.class, () -> new Program.Sizes(64, 65536, 0, 0));
        Check.raises("no hex", IllegalArgumentException.class, () -> Program.ofHex("b7 0", Programs.SUM.sizes()));
        return "bytes, strings, numbers and programs";
    }

    /** What is null or too long is thrown back, and the server gets no byte of it. */
    static String refusedHere() throws Exception {
        byte[] longKey = new byte[Request.LONGEST_KEY + 1];
        byte[] longValue = new byte[LONGEST + 1];
        byte[] fits = new byte[1];
        try (PlayedServer server = new PlayedServer(PlayedServer.Peer::waitForEnd)) {
            try (RemoteMap<byte[], byte[]> map = RemoteMap.open(Mapd.HOST, server.port(), Codec.bytes(), Codec.bytes())) {
                refuseLong(List.of(() -> map.get(longKey), () -> map.put(longKey, fits), () -> map.put(fits, longValue),
                        () -> map.replace(fits, longValue, fits), () -> map.replace(fits, fits, longValue),
                        () -> map.remove(fits, longValue), () -> map.merge(fits, longValue, Programs.SUM),
                        () -> map.merge(longKey, fits, Programs.SUM), () -> map.compute(longKey, Programs.SUM, null),
                        () -> map.compute(fits, Programs.SUM, longValue), () -> map.replaceAll(Programs.SUM, longValue),
                        () -> map.forEach(1, Programs.SUM, longValue, Codec.bytes()),
                        () -> map.search(1, Programs.SUM, longValue, Codec.bytes()),
                        () -> map.putAll(Map.of(fits, fits, longKey, fits))));
                refuseNull(List.of(() -> map.get(null), () -> map.put(null, fits), () -> map.put(fits, null),
                        () -> map.containsKey(null), () -> map.containsValue(null), () -> map.remove(null),
                        () -> map.replace(fits, null, fits), () -> map.replace(fits, fits, null),
                        () -> map.putIfAbsent(fits, null), () -> map.compute(fits, (Program) null, null),
                        () -> map.merge(fits, null, Programs.SUM), () -> map.computeIfAbsent(null, Programs.SUM, null),
                        () -> map.remove(null, null), () -> map.keySet(null), () -> map.search(1, null)));
                Check.that("no key has the value null", !map.remove(fits, null));
            }
            Check.equal("requests that were sent", List.of(), server.requests());
        }
        return "null and too long";
    }

    private static void refuseLong(List<Check.Action> calls) {
        for (int call = 0; call < calls.size(); call++) {
            Check.raises("call " + call, TooLongException.class, calls.get(call));
        }
    }

    private static void refuseNull(List<Check.Action> calls) {
        for (int call = 0; call < calls.size(); call++) {
            Check.raises("call " + call, NullPointerException.class, calls.get(call));
        }
    }
}
