package bpfmap;

import java.io.IOException;
import java.io.UncheckedIOException;
import java.util.ArrayList;
import java.util.Iterator;
import java.util.List;
import java.util.Map;
import java.util.TreeMap;
import java.util.concurrent.CompletableFuture;
import java.util.concurrent.CompletionException;
import java.util.concurrent.TimeUnit;
import java.util.concurrent.TimeoutException;

/**
 * A fault at each read, write and wait of a script of calls, one after the other: each answer is that of its own call, and the
 * calls after the fault go on.
 */
final class FaultsTest {
    private static final int KEYS = 4;
    private static final int PATIENCE = 60;
    private static final Settings SETTINGS = Settings.DEFAULT;

    private final MemoryTable table = new MemoryTable();
    private final FaultyTransport.Faults faults;
    private final Map<String, String> entries = new TreeMap<>();
    private int answers;
    private int errors;

    private FaultsTest(FaultyTransport.Kind kind, long at) {
        faults = new FaultyTransport.Faults(kind, at);
        MemoryTable.Session filler = table.session();
        for (int key = 0; key < KEYS; key++) {
            entries.put("key " + key, "value of key " + key);
            filler.take(Request.put(bytes("key " + key), bytes("value of key " + key)).frame());
        }
    }

    /** Something that a script calls. */
    private interface Call {
        void make() throws IOException;
    }

    /** A script. */
    private interface Script {
        void run(FaultsTest test) throws IOException;
    }

    static String calls() throws IOException {
        return atEach(FaultsTest::callsOfAMap);
    }

    static String pipelines() throws IOException {
        return atEach(FaultsTest::pipelinesOfAConnection);
    }

    static String walks() throws IOException {
        return atEach(FaultsTest::walksOfAMap);
    }

    static String asynchronous() throws IOException {
        return atEach(FaultsTest::callsOfAnAsyncMap);
    }

    /** Runs a script with each kind of fault at each of its operations. */
    private static String atEach(Script script) throws IOException {
        int runs = 0;
        int failed = 0;
        for (FaultyTransport.Kind kind : FaultyTransport.Kind.values()) {
            boolean wasReached = true;
            for (long at = 1; wasReached; at++) {
                FaultsTest test = new FaultsTest(kind, at);
                script.run(test);
                Thread.interrupted();
                wasReached = test.faults.wasReached();
                Check.that(kind + " at " + at + ": calls after the fault are answered", test.answers > 0);
                Check.that(kind + " at " + at + ": " + test.errors + " errors of one fault", test.errors <= KEYS + 1);
                Check.equal("the table", KEYS, test.table.size());
                runs++;
                failed += test.errors > 0 ? 1 : 0;
            }
        }
        Check.that("faults are seen", failed > runs / 2);
        return runs + " faults, none of which gave a call another one's answer";
    }

    private RemoteMap<String, String> open() {
        return new RemoteMap<>(new ConnectionPool(this::connect, SETTINGS), Codec.strings(), Codec.strings());
    }

    private Connection connect() throws IOException {
        return Connection.over(new FaultyTransport(table, faults), "memory", Version.TWO);
    }

    private static byte[] bytes(String text) {
        return Codec.strings().encode(text);
    }

    /** Makes a call, which may end in an error of the one fault; an interrupt is cleared, as the thread's owner would. */
    private void make(Call call) {
        try {
            call.make();
            answers++;
        } catch (IOException | UncheckedIOException | IllegalStateException | OutOfMemoryError e) {
            errors++;
            Thread.interrupted();
        }
    }

    private void callsOfAMap() {
        try (RemoteMap<String, String> map = open()) {
            entries.forEach((key, value) -> {
                make(() -> Check.equal(key, value, map.get(key)));
                make(() -> Check.equal(key, value, map.putIfAbsent(key, "another")));
                make(() -> Check.equal(key, false, map.replace(key, "another", "value")));
                make(() -> Check.equal(key, value, map.put(key, value)));
            });
            make(() -> Check.equal("the count", (long) KEYS, map.mappingCount()));
        }
    }

    private void pipelinesOfAConnection() throws IOException {
        make(this::pipelineOfAConnection);
        make(this::pipelineOfAConnection);
    }

    private void pipelineOfAConnection() throws IOException {
        try (Connection connection = connect()) {
            for (int time = 0; time < 2; time++) {
                Pipeline pipeline = connection.pipeline();
                List<Reply<byte[]>> replies = new ArrayList<>();
                for (String key : entries.keySet()) {
                    replies.add(pipeline.add(Request.get(bytes(key))));
                }
                IOException failure = null;
                runPipeline(pipeline);
                Iterator<String> values = entries.values().iterator();
                for (Reply<byte[]> reply : replies) {
                    String value = values.next();
                    failure = compare(reply, value, failure);
                }
                if (failure != null) {
                    throw failure;
                }
            }
        }
    }

    private static void runPipeline(Pipeline pipeline) {
        try {
            pipeline.run();
        } catch (IllegalStateException | OutOfMemoryError e) {
            Check.equal("what was thrown", "struck", e.getMessage());
        }
    }

    /** An answer belongs to its call; after the first that has none there is none. */
    private static IOException compare(Reply<byte[]> reply, String value, IOException failure) {
        try {
            Check.equal("an answer", value, Codec.strings().decode(reply.get()));
            Check.that("an answer after one that is missing", failure == null);
            return failure;
        } catch (IOException e) {
            return e;
        }
    }

    private void walksOfAMap() {
        try (RemoteMap<String, String> map = open()) {
            make(() -> walk(map.entrySet().iterator(), map));
            make(() -> Check.equal("the keys", List.copyOf(entries.keySet()), map.keySet().stream().toList()));
            make(() -> leave(map));
            make(() -> Check.equal("the values", List.copyOf(entries.values()), List.of(map.values().toArray())));
            make(() -> Check.equal("a get", "value of key 3", map.get("key 3")));
        }
    }

    /** Each item is the next one; in the middle other calls are made. */
    private void walk(WalkIterator<Map.Entry<String, String>> walk, RemoteMap<String, String> map) {
        try (walk) {
            for (Map.Entry<String, String> wanted : entries.entrySet()) {
                Check.that("the walk goes on", walk.hasNext());
                Check.equal("an item", wanted, walk.next());
                make(() -> Check.equal("a get amid a walk", wanted.getValue(), map.get(wanted.getKey())));
            }
            Check.that("the walk ends", !walk.hasNext());
            Check.equal("its count", (long) KEYS, walk.counts().given());
        }
    }

    private void leave(RemoteMap<String, String> map) {
        try (WalkIterator<String> keys = map.keySet().iterator()) {
            Check.equal("the first key", "key 0", keys.next());
        }
        Check.equal("a get after a walk that was left", "value of key 2", map.get("key 2"));
    }

    private void callsOfAnAsyncMap() {
        try (RemoteMap<String, String> map = open()) {
            AsyncMap<String, String> calls = map.async(Runnable::run);
            for (int round = 0; round < 2; round++) {
                Map<String, CompletableFuture<String>> futures = new TreeMap<>();
                entries.keySet().forEach(key -> futures.put(key, calls.get(key)));
                futures.forEach((key, future) -> make(() -> Check.equal(key, entries.get(key), answerOf(future))));
            }
        }
    }

    /** The answer, or the exception that came instead. */
    private static String answerOf(CompletableFuture<String> future) throws IOException {
        try {
            return future.orTimeout(PATIENCE, TimeUnit.SECONDS).join();
        } catch (CompletionException e) {
            Check.that("an answer, or a failure: " + e, !(e.getCause() instanceof TimeoutException));
            throw new IOException(e);
        }
    }
}
