package bpfmap;

import java.io.UncheckedIOException;
import java.net.ConnectException;
import java.nio.file.Path;
import java.util.ArrayList;
import java.util.Arrays;
import java.util.List;
import java.util.Map;
import java.util.concurrent.CompletableFuture;
import java.util.concurrent.CompletionException;
import java.util.concurrent.CountDownLatch;
import java.util.concurrent.TimeUnit;

/** A map's calls as futures. */
final class AsyncTest {
    private static final int CALLS = 2_000;
    private static final int PATIENCE = 60;

    private AsyncTest() {}

    /** Calls are made in the order in which they were asked for, many together. */
    static String inOrder(Path server) throws Exception {
        try (Mapd mapd = Mapd.start(server);
                RemoteMap<String, Long> map = mapd.open(Codec.strings(), Codec.longs(), 1)) {
            AsyncMap<String, Long> calls = map.async();
            List<CompletableFuture<Long>> sums = new ArrayList<>();
            for (int call = 0; call < CALLS; call++) {
                sums.add(calls.merge("counter", 1L, Programs.SUM));
            }
            for (int call = 0; call < CALLS; call++) {
                Check.equal("a sum", call + 1L, sums.get(call).get(PATIENCE, TimeUnit.SECONDS));
            }
            eachCall(calls);
        }
        return CALLS + " merges at once, and each call";
    }

    private static void eachCall(AsyncMap<String, Long> calls) throws Exception {
        List<CompletableFuture<?>> made = List.of(calls.put("a", 1L), calls.put("a", 2L), calls.get("a"),
                calls.putIfAbsent("a", 3L), calls.replace("a", 4L), calls.replace("a", 4L, 5L), calls.remove("a", 9L), calls.containsKey("a"),
                calls.compute("a", Programs.SUM, Codec.longs().encode(1L)),
                calls.computeIfPresent("b", Programs.SUM, null), calls.computeIfAbsent("a", Programs.SUM, null), calls.remove("a"),
                calls.get("a"));
        List<Object> answers = new ArrayList<>();
        for (CompletableFuture<?> one : made) {
            answers.add(one.get(PATIENCE, TimeUnit.SECONDS));
        }
        Check.equal("answers", Arrays.asList(null, 1L, 2L, 2L, 2L, true, false, true, 6L, null, 6L, 6L, null), answers);
        calls.putAll(Map.of("x", 1L, "y", 2L)).get(PATIENCE, TimeUnit.SECONDS);
        Check.equal("a count", 3L, calls.mappingCount().get(PATIENCE, TimeUnit.SECONDS));
        byte[] one = Codec.longs().encode(1L);
        Check.equal("a walk", 3, calls.forEach(1, Programs.SUM, one, Codec.longs()).get(PATIENCE, TimeUnit.SECONDS).items().size());
        Check.equal("a search", 1,
                calls.search(1, Programs.SUM, one, Codec.longs()).get(PATIENCE, TimeUnit.SECONDS).items().size());
        Check.equal("a replacement", new Counts(3, 3, 0), calls.replaceAll(Programs.SUM, one).get(PATIENCE, TimeUnit.SECONDS));
        Check.equal("after it", 3L, calls.get("y").get(PATIENCE, TimeUnit.SECONDS));
    }

    /** What hangs on a future may wait for another call, and the caller never waits: the server is silent meanwhile. */
    static String neverWaits() throws Exception {
        CountDownLatch mayAnswer = new CountDownLatch(1);
        PlayedServer.Play play = peer -> {
            mayAnswer.await();
            for (int call = 0; call < 3; call++) {
                peer.read();
                peer.send("00000004 82 0001 3" + call);
            }
            peer.waitForEnd();
        };
        try (PlayedServer server = new PlayedServer(play);
                RemoteMap<String, String> map = RemoteMap.open(Mapd.HOST, server.port(), Codec.strings(), Codec.strings())) {
            AsyncMap<String, String> calls = map.async();
            CompletableFuture<String> first = calls.get("a");
            CompletableFuture<String> both = first.thenApply(value -> value + calls.get("c").join());
            CompletableFuture<String> second = calls.get("b");
            Check.that("nothing is answered yet", !first.isDone() && !second.isDone());
            mayAnswer.countDown();
            Check.equal("the second", "1", second.get(PATIENCE, TimeUnit.SECONDS));
            Check.equal("the first and what hangs on it", "02", both.get(PATIENCE, TimeUnit.SECONDS));
        }
        return "in the caller's thread";
    }

    /** Futures end in the exceptions of a map's calls. */
    static String failures(Path server) throws Exception {
        Mapd mapd = Mapd.start(server);
        AsyncMap<String, Long> calls;
        try (RemoteMap<String, Long> map = mapd.open(Codec.strings(), Codec.longs(), 1)) {
            calls = map.async();
            Program faulty = Program.ofText("exit\n", Programs.SUM.sizes());
            CompletableFuture<Long> refused = calls.merge("a", 1L, faulty);
            CompletableFuture<Long> made = calls.merge("a", 1L, Programs.SUM);
            CompletableFuture<Long> unfit = calls.compute("a", Programs.SUM, new byte[9]);
            CompletableFuture<Walk<String, Long>> walk = calls.forEach(1, faulty, null, Codec.longs());
            Check.equal("a call between", 1L, made.get(PATIENCE, TimeUnit.SECONDS));
            Check.equal("a program", 40, ((RefusedException) causeOf(refused)).number());
            Check.that("a window", causeOf(unfit) instanceof UnfitException);
            Check.that("a walk", causeOf(walk) instanceof RefusedException);
            Check.raises("null, at once", NullPointerException.class, () -> calls.get(null));
            Check.raises("too long, at once", TooLongException.class, () -> calls.get("k".repeat(65)));
            mapd.kill();
            Check.that("a server that ended", causeOf(calls.get("a")) instanceof UncheckedIOException);
            Throwable gone = causeOf(calls.get("a"));
            Check.that("no server: " + gone, gone.getCause() instanceof ConnectException);
        } finally {
            mapd.kill();
        }
        Check.that("a closed map", causeOf(calls.get("a")) instanceof IllegalStateException);
        return "are those of the map";
    }

    private static Throwable causeOf(CompletableFuture<?> failed) {
        return Check.raises("a failure", CompletionException.class, () -> failed.orTimeout(PATIENCE, TimeUnit.SECONDS).join())
                .getCause();
    }

    /** A call that is cancelled before its turn is not sent. */
    static String cancelled() throws Exception {
        CountDownLatch mayAnswer = new CountDownLatch(1);
        PlayedServer.Play play = peer -> {
            peer.read();
            mayAnswer.await();
            peer.send("00000004 82 0001 30");
            peer.read();
            peer.send("00000004 82 0001 31");
            peer.waitForEnd();
        };
        try (PlayedServer server = new PlayedServer(play);
                RemoteMap<String, String> map = RemoteMap.open(Mapd.HOST, server.port(), Codec.strings(), Codec.strings())) {
            AsyncMap<String, String> calls = map.async();
            CompletableFuture<String> first = calls.get("a");
            while (server.requests().isEmpty()) {
                Thread.sleep(1);
            }
            CompletableFuture<String> second = calls.get("b");
            CompletableFuture<String> third = calls.get("c");
            second.cancel(true);
            mayAnswer.countDown();
            Check.equal("the first", "0", first.get(PATIENCE, TimeUnit.SECONDS));
            Check.equal("the third", "1", third.get(PATIENCE, TimeUnit.SECONDS));
            Check.equal("what was sent", List.of("100161", "100163"), server.requests());
        }
        return "is not sent";
    }
}
