package bpfmap;

import java.nio.file.Path;
import java.util.ArrayList;
import java.util.List;
import java.util.Map;
import java.util.Set;
import java.util.Spliterator;
import java.util.TreeMap;
import java.util.concurrent.CountDownLatch;
import java.util.concurrent.TimeUnit;
import java.util.concurrent.atomic.AtomicBoolean;
import java.util.stream.Stream;

/** Streams and iterators over walks: beside writers, as items arrive, and left before their end. */
final class StreamsTest {
    private static final String REGISTERED = "00000009 81 0000000000000000";
    private static final String FIRST = "00000006 86 0161 0001 31";
    private static final String SECOND = "00000006 86 0162 0001 32";
    private static final String END_OF_TWO = "00000019 87 0000000000000002 0000000000000002 0000000000000000";
    private static final int STREAMS = 20;
    private static final int MANY = 5_000;
    private static final int LEFT = 8;
    private static final int PATIENCE = 5;

    private StreamsTest() {}

    /** Another client puts and removes entries while streams go over the map. */
    static String besideAWriter(Path server) throws Exception {
        AtomicBoolean isOver = new AtomicBoolean();
        try (Mapd mapd = Mapd.start(server);
                RemoteMap<String, Long> map = mapd.open(Codec.strings(), Codec.longs(), 1);
                RemoteMap<String, Long> other = mapd.open(Codec.strings(), Codec.longs(), 1)) {
            Set<String> stay = Set.of("a", "b", "m", "z");
            stay.forEach(key -> map.put(key, 1L));
            Thread writer = new Thread(() -> write(other, isOver));
            writer.start();
            try {
                for (int time = 0; time < STREAMS; time++) {
                    Check.that("keys stay", map.keySet().stream().toList().containsAll(stay));
                    Check.that("values stay", map.values().stream().filter(value -> value == 1).count() >= stay.size());
                    Check.that("entries stay", map.entrySet().parallelStream().toList().size() >= stay.size());
                    Check.that("arrays", map.keySet().toArray(String[]::new).length >= stay.size());
                }
            } finally {
                isOver.set(true);
                writer.join();
            }
        }
        return 3 * STREAMS + " streams";
    }

    private static void write(RemoteMap<String, Long> map, AtomicBoolean isOver) {
        for (long step = 0; !isOver.get(); step++) {
            map.put("w" + step % 50, 2L);
            map.remove("w" + (step + 25) % 50);
        }
    }

    static String characteristics() throws Exception {
        MemoryTable table = new MemoryTable();
        try (RemoteMap<String, Long> map = open(table)) {
            int asked = Spliterator.CONCURRENT | Spliterator.NONNULL;
            Check.equal("of keys", asked | Spliterator.DISTINCT, map.keySet().spliterator().characteristics());
            Check.equal("of values", asked, map.values().spliterator().characteristics());
            Check.equal("of entries", asked | Spliterator.DISTINCT, map.entrySet().spliterator().characteristics());
            Check.equal("the size", Long.MAX_VALUE, map.keySet().spliterator().estimateSize());
        }
        return "CONCURRENT, NONNULL, DISTINCT and not SIZED";
    }

    private static RemoteMap<String, Long> open(MemoryTable table) {
        FaultyTransport.Faults none = new FaultyTransport.Faults(FaultyTransport.Kind.BROKEN, 0);
        return new RemoteMap<>(new ConnectionPool(() -> Connection.over(new FaultyTransport(table, none), "memory", Version.TWO),
                Settings.DEFAULT), Codec.strings(), Codec.longs());
    }

    /** The first item is here before the server has sent the second. */
    static String asItemsArrive() throws Exception {
        CountDownLatch hasFirst = new CountDownLatch(1);
        AtomicBoolean wasInTime = new AtomicBoolean();
        PlayedServer.Play play = peer -> {
            answerWalk(peer, FIRST);
            wasInTime.set(hasFirst.await(PATIENCE, TimeUnit.SECONDS));
            peer.send(SECOND + END_OF_TWO);
            peer.waitForEnd();
        };
        try (PlayedServer server = new PlayedServer(play)) {
            List<String> seen = new ArrayList<>();
            try (RemoteMap<String, byte[]> map = RemoteMap.open(Mapd.HOST, server.port(), Codec.strings(), Codec.bytes())) {
                map.keySet().stream().peek(seen::add).forEach(key -> hasFirst.countDown());
            }
            Check.equal("all items", List.of("a", "b"), seen);
            Check.that("the first came before the second was sent", wasInTime.get());
        }
        return "one by one";
    }

    /** Registers the walk's program, and answers the walk by these bytes. */
    private static void answerWalk(PlayedServer.Peer peer, String answer) throws Exception {
        peer.read();
        peer.send(REGISTERED);
        peer.read();
        peer.send(answer);
    }

    /** A stream that is closed before its end ends its connection; so does one that is garbage, and one whose action throws. */
    static String left() throws Exception {
        PlayedServer.Play play = peer -> {
            answerWalk(peer, FIRST);
            peer.waitForEnd();
        };
        try (PlayedServer server = new PlayedServer(play, play, play, play);
                RemoteMap<String, byte[]> map = RemoteMap.open(Mapd.HOST, server.port(), Codec.strings(), Codec.bytes())) {
            try (Stream<String> keys = map.keySet().stream()) {
                Check.equal("the first key", "a", keys.findFirst().orElseThrow());
            }
            try (WalkIterator<byte[]> values = map.values().iterator()) {
                Check.equal("the first value", "1", new String(values.next()));
            }
            Check.raises("an action that throws", UnsupportedOperationException.class, () -> map.keySet().forEach(key -> {
                throw new UnsupportedOperationException();
            }));
            Check.that("a key of an iterator that is garbage", map.keySet().iterator().hasNext());
            for (int time = 0; time < 50 && server.isPlaying(); time++) {
                System.gc();
                Thread.sleep(20);
            }
            Check.that("the connections have ended", !server.isPlaying());
        }
        return "by close, by an exception and as garbage";
    }

    /** Of a walk that was closed nobody takes the items for all there are; no call is made over its connection. */
    static String closed() throws Exception {
        PlayedServer.Play play = peer -> {
            peer.read();
            peer.send(FIRST);
            peer.waitForEnd();
        };
        try (PlayedServer server = new PlayedServer(play); Connection connection = server.connect()) {
            connection.adopt(0);
            OpenWalk walk = connection.walk(Request.forEach(0, null, 1));
            Check.raises("a call amid the walk", IllegalStateException.class, () -> connection.call(Request.count()));
            Check.raises("a pipeline amid the walk", IllegalStateException.class, () -> {
                Pipeline pipeline = connection.pipeline();
                pipeline.add(Request.count());
                pipeline.run();
            });
            Check.equal("nothing else was sent", 1, server.requests().size());
            Check.raises("counts", IllegalStateException.class, walk::counts);
            Check.equal("the item", "a", Codec.strings().decode(walk.next().getKey()));
            walk.close();
            walk.close();
            Check.raises("a closed walk", IllegalStateException.class, walk::hasNext);
            Check.that("its connection", !connection.isUsable());
        }
        return "is not read on";
    }

    /** Calls amid a walk go over another connection, and few of the walk's items are here. */
    static String callsAmidAWalk() throws Exception {
        try (MemoryServer server = new MemoryServer();
                RemoteMap<Long, byte[]> map = server.open(Codec.longs(), Codec.bytes())) {
            TreeMap<Long, byte[]> wanted = new TreeMap<>();
            for (long key = 0; key < MANY; key++) {
                // The order of a walk is that of the keys' bytes.
                wanted.put(Long.reverseBytes(key), new byte[200 + (int) key % 50]);
            }
            map.putAll(wanted);
            int most = 0;
            long seen = 0;
            try (WalkIterator<Long> keys = map.keySet().iterator(); WalkIterator<byte[]> values = map.values().iterator()) {
                while (keys.hasNext() && values.hasNext()) {
                    long key = keys.next();
                    Check.equal("a value", wanted.get(key), values.next());
                    most = Math.max(most, values.itemsHere());
                    if (++seen % 1000 == 1) {
                        Check.equal("a get amid walks", wanted.get(key), map.get(key));
                    }
                }
            }
            Check.equal("all entries", (long) MANY, seen);
            Check.that(most + " items at once", most < 64 * 1024 / 200);
            Check.equal("a parallel sum", wanted.values().stream().mapToLong(value -> value.length).sum(),
                    map.values().parallelStream().mapToLong(value -> value.length).sum());
            leaveOften(map);
            map.clear();
            Check.that("all is gone", map.isEmpty());
        }
        return "two walks over " + MANY + " entries at once, and gets";
    }

    /** Walks that are left one after the other take nothing with them. */
    private static void leaveOften(RemoteMap<Long, byte[]> map) {
        for (int time = 0; time < LEFT; time++) {
            try (Stream<byte[]> values = map.values().stream()) {
                Check.that("a value", values.anyMatch(value -> value.length >= 200));
            }
        }
    }

    /** A program's answers come as a stream too, with their counts at the end of the iterator. */
    static String programs(Path server) throws Exception {
        try (Mapd mapd = Mapd.start(server);
                RemoteMap<String, Long> map = mapd.open(Codec.strings(), Codec.longs(), 1)) {
            map.putAll(new TreeMap<>(Map.of("a", 1L, "b", 2L, "c", 3L)));
            byte[] ten = Codec.longs().encode(10L);
            try (Stream<Map.Entry<String, Long>> sums = map.stream(1, Programs.SUM, ten, Codec.longs())) {
                Check.equal("the sums", 36L, sums.mapToLong(Map.Entry::getValue).sum());
            }
            try (WalkIterator<Map.Entry<String, Long>> sums = map.walk(1, Programs.SUM, ten, Codec.longs())) {
                Check.equal("the first", Map.entry("a", 11L), sums.next());
                sums.remove();
                sums.forEachRemaining(sum -> Check.that("the others", sum.getValue() > 11));
                Check.equal("the counts", new Counts(3, 3, 0), sums.counts());
            }
            Check.equal("what was removed", Set.of("b", "c"), map.keySet());
            RefusedException refusal = Check.raises("a program that is refused", RefusedException.class,
                    () -> map.walk(1, Program.ofText("exit\n", Programs.SUM.sizes()), null, Codec.longs()));
            Check.equal("its refusal", 40, refusal.number());
            Check.equal("a get after it", 2L, map.get("b"));
        }
        return "with their counts";
    }
}
