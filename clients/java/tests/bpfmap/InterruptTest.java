package bpfmap;

import java.io.IOException;
import java.io.InterruptedIOException;
import java.io.UncheckedIOException;
import java.net.ConnectException;
import java.net.InetAddress;
import java.net.ServerSocket;
import java.nio.file.Path;
import java.util.ArrayList;
import java.util.List;
import java.util.Random;
import java.util.concurrent.CompletableFuture;
import java.util.concurrent.ExecutorService;
import java.util.concurrent.Executors;
import java.util.concurrent.Future;
import java.util.concurrent.TimeUnit;
import java.util.concurrent.atomic.AtomicInteger;
import java.util.concurrent.locks.LockSupport;
import java.util.stream.IntStream;

/** Threads that are interrupted in the middle of calls, and threads that share a map or a connection. */
final class InterruptTest {
    private static final int INTERRUPTS = 200;
    private static final int CALLS = 100;
    private static final int PATIENCE = 5_000;
    private static final long SEED = 57;

    private InterruptTest() {}

    /** A thread waits for an answer that does not come, for a connection, or in a walk: an interrupt ends that. */
    static String whileWaiting() throws Exception {
        PlayedServer.Play silent = PlayedServer.Peer::waitForEnd;
        try (PlayedServer server = new PlayedServer(silent, silent);
                RemoteMap<String, Long> map = RemoteMap.open(Mapd.HOST, server.port(), Codec.strings(), Codec.longs(),
                        Settings.DEFAULT.withConnections(1))) {
            Thread first = interruptible(() -> map.get("a"));
            Thread second = interruptible(() -> map.get("b"));
            for (Thread waiting : List.of(second, first)) {
                waiting.interrupt();
                waiting.join(PATIENCE);
                Check.that("an interrupted thread ends", !waiting.isAlive());
            }
            Thread third = interruptible(() -> map.keySet().stream().count());
            third.interrupt();
            third.join(PATIENCE);
            Check.that("an interrupted walk ends", !third.isAlive());
            Thread.currentThread().interrupt();
            UncheckedIOException before = Check.raises("a call", UncheckedIOException.class, () -> map.get("c"));
            Check.that("it stays interrupted", Thread.interrupted());
            Check.that(before.getMessage(), before.getMessage().contains("nothing was sent"));
        }
        return "for an answer, for a connection and in a walk";
    }

    /** Starts a thread, and returns it when it waits; it must end by an interrupt, and stay interrupted. */
    private static Thread interruptible(Check.Action action) throws InterruptedException {
        Thread thread = new Thread(() -> {
            UncheckedIOException failure = Check.raises("a wait", UncheckedIOException.class, action);
            Check.that("it is an interrupt: " + failure, failure.getCause() instanceof InterruptedIOException);
            Check.that("the thread stays interrupted", Thread.currentThread().isInterrupted());
        });
        thread.setUncaughtExceptionHandler((failed, e) -> {
            e.printStackTrace();
            while (true) {
                LockSupport.park();
            }
        });
        thread.setDaemon(true);
        thread.start();
        Thread.sleep(100);
        return thread;
    }

    /** Over a live server, at any moment of calls, pipelines and walks: each answer is its own call's. */
    static String atAnyMoment(Path server) throws Exception {
        AtomicInteger answered = new AtomicInteger();
        AtomicInteger interrupted = new AtomicInteger();
        try (Mapd mapd = Mapd.start(server);
                RemoteMap<String, String> map = mapd.open(Codec.strings(), Codec.strings(), 2)) {
            for (int key = 0; key < 50; key++) {
                map.put("key " + key, "value of key " + key);
            }
            CompletableFuture<Void> isOver = new CompletableFuture<>();
            Thread caller = new Thread(() -> {
                try {
                    callUntil(isOver, map, mapd, answered, interrupted);
                } catch (Exception | AssertionError e) {
                    isOver.completeExceptionally(e);
                }
            });
            caller.start();
            Random dice = new Random(SEED);
            for (int time = 0; time < INTERRUPTS && !isOver.isDone(); time++) {
                TimeUnit.MICROSECONDS.sleep(dice.nextInt(4000));
                caller.interrupt();
            }
            isOver.complete(null);
            caller.join();
            isOver.join();
        }
        Check.that(answered + " answers and " + interrupted + " interrupts", answered.get() > 0 && interrupted.get() > 0);
        return "answers that belong to their calls, and interrupts in calls: both were seen";
    }

    private static void callUntil(Future<Void> isOver, RemoteMap<String, String> map, Mapd mapd, AtomicInteger answered,
            AtomicInteger interrupted) throws IOException {
        for (int step = 0; !isOver.isDone(); step++) {
            try {
                callSome(step, map, mapd);
                answered.incrementAndGet();
            } catch (InterruptedIOException e) {
                interrupted.incrementAndGet();
            } catch (UncheckedIOException e) {
                Check.that("only interrupts: " + e, e.getCause() instanceof InterruptedIOException);
                interrupted.incrementAndGet();
            }
            Thread.interrupted();
        }
    }

    private static void callSome(int step, RemoteMap<String, String> map, Mapd mapd) throws IOException {
        String key = "key " + step % 50;
        Check.equal(key, "value of " + key, map.get(key));
        Check.equal(key, "value of " + key, map.putIfAbsent(key, "another"));
        if (step % 5 == 0) {
            Check.equal("the keys", 50L, map.keySet().stream().filter(found -> found.startsWith("key ")).count());
            map.forEach((found, value) -> Check.equal("an entry", "value of " + found, value));
        }
        if (step % 7 == 0) {
            runPipeline(mapd);
        }
    }

    private static void runPipeline(Mapd mapd) throws IOException {
        try (Connection connection = mapd.connect()) {
            Pipeline pipeline = connection.pipeline();
            List<Reply<byte[]>> replies = IntStream.range(0, 50)
                    .mapToObj(key -> pipeline.add(Request.get(Codec.strings().encode("key " + key)))).toList();
            pipeline.run();
            for (int key = 0; key < 50; key++) {
                compareReply(replies.get(key), key);
            }
        }
    }

    /** A reply that has no answer was interrupted. */
    private static void compareReply(Reply<byte[]> reply, int key) throws IOException {
        try {
            Check.equal("a reply", "value of key " + key, Codec.strings().decode(reply.get()));
        } catch (IOException e) {
            if (e.getCause() instanceof InterruptedIOException interrupt) {
                throw interrupt;
            }
            throw e;
        }
    }

    /** Threads share a map with fewer connections than threads, and one connection: each has its own answers. */
    static String shared(Path server) throws Exception {
        try (Mapd mapd = Mapd.start(server);
                RemoteMap<String, String> map = mapd.open(Codec.strings(), Codec.strings(), 3);
                Connection connection = mapd.connect()) {
            ExecutorService threads = Executors.newFixedThreadPool(ThreadsTest.THREADS);
            try {
                List<Future<?>> running = new ArrayList<>();
                for (int thread = 0; thread < ThreadsTest.THREADS; thread++) {
                    String own = "key of thread " + thread;
                    running.add(threads.submit(() -> {
                        callAsOwner(own, map, connection);
                        return null;
                    }));
                }
                for (Future<?> one : running) {
                    one.get();
                }
            } finally {
                threads.shutdownNow();
            }
        }
        return ThreadsTest.THREADS + " threads over one map and over one connection, " + 4 * CALLS + " calls each";
    }

    /** Nobody else writes this key, so each answer is known. */
    private static void callAsOwner(String own, RemoteMap<String, String> map, Connection connection) throws IOException {
        byte[] key = Codec.strings().encode(own + " by a connection");
        String last = null;
        for (int call = 0; call < CALLS; call++) {
            String value = own + ", value " + call;
            Check.equal("a put", last, map.put(own, value));
            Check.equal("a get", value, map.get(own));
            byte[] before = connection.call(Request.put(key, Codec.strings().encode(value)));
            Check.equal("a put by a connection", last, before == null ? null : Codec.strings().decode(before));
            Check.equal("a get by a connection", value, Codec.strings().decode(connection.call(Request.get(key))));
            last = value;
        }
    }

    /** An exception names the server that is not there. */
    static String noServer() throws Exception {
        int port;
        try (ServerSocket taken = new ServerSocket(0, 1, InetAddress.getByName(Mapd.HOST))) {
            port = taken.getLocalPort();
        }
        ConnectException refused = Check.raises("no server", ConnectException.class,
                () -> Connection.open(Mapd.HOST, port, Settings.DEFAULT));
        Check.that(refused.getMessage(), refused.getMessage().startsWith(Mapd.HOST + ":" + port + ": "));
        UncheckedIOException unchecked = Check.raises("no server", UncheckedIOException.class,
                () -> RemoteMap.open(Mapd.HOST, port, Codec.strings(), Codec.longs()));
        Check.that(unchecked.getMessage(), unchecked.getMessage().contains(Mapd.HOST + ":" + port));
        Check.equal("an IPv6 address", "[::1]:7070", SocketTransport.named("::1", 7070));
        return "is named by host and port";
    }
}
