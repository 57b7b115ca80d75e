package bpfmap;

import java.nio.file.Path;
import java.util.ArrayList;
import java.util.List;
import java.util.concurrent.ExecutorService;
import java.util.concurrent.Executors;
import java.util.concurrent.Future;

/** Threads that share one counter. */
final class ThreadsTest {
    static final int THREADS = 8;
    private static final int CALLS = 500;
    private static final int LOOPS = 50;

    private ThreadsTest() {}

    /** 8 threads over one map add by a program: with a connection each, and with fewer connections than threads. */
    static String byProgram(Path server) throws Exception {
        for (int connections : new int[] {THREADS, 3}) {
            try (Mapd mapd = Mapd.start(server);
                    RemoteMap<String, Long> map = mapd.open(Codec.strings(), Codec.longs(), connections)) {
                repeat(CALLS, () -> map.merge("counter", 1L, Programs.SUM));
                Check.equal("the sum over " + connections + " connections", (long) THREADS * CALLS, map.get("counter"));
            }
        }
        return THREADS + " threads, " + CALLS + " calls each, over 8 and 3 connections";
    }

    /** The same by a Java function, which loops. */
    static String byFunction(Path server) throws Exception {
        try (Mapd mapd = Mapd.start(server);
                RemoteMap<String, Long> map = mapd.open(Codec.strings(), Codec.longs(), THREADS)) {
            repeat(LOOPS, () -> map.merge("counter", 1L, Long::sum));
            repeat(LOOPS, () -> map.compute("counter", (key, old) -> old + 1));
            Check.equal("the sum", 2L * THREADS * LOOPS, map.get("counter"));
        }
        return THREADS + " threads, " + 2 * LOOPS + " calls each";
    }

    /** Each thread sends its calls in a pipeline of its own connection. */
    static String byPipelines(Path server) throws Exception {
        try (Mapd mapd = Mapd.start(server); Connection last = mapd.connect()) {
            repeat(1, () -> addInPipeline(mapd));
            Check.equal("the sum", (long) THREADS * CALLS, Codec.longs().decode(last.call(Request.get(new byte[0]))));
        }
        return THREADS + " threads, " + CALLS + " calls each";
    }

    private static void addInPipeline(Mapd mapd) throws Exception {
        byte[] one = Codec.longs().encode(1L);
        try (Connection connection = mapd.connect()) {
            long program = connection.numberOf(Programs.SUM);
            Pipeline pipeline = connection.pipeline();
            List<Reply<byte[]>> replies = new ArrayList<>();
            for (int call = 0; call < CALLS; call++) {
                replies.add(pipeline.add(Request.merge(new byte[0], one, program)));
            }
            pipeline.run();
            for (Reply<byte[]> reply : replies) {
                reply.get();
            }
        }
    }

    /** Runs an action on each thread, so many times. */
    static void repeat(int times, Check.Action action) throws Exception {
        ExecutorService threads = Executors.newFixedThreadPool(THREADS);
        try {
            List<Future<?>> running = new ArrayList<>();
            for (int thread = 0; thread < THREADS; thread++) {
                running.add(threads.submit(() -> {
                    for (int time = 0; time < times; time++) {
                        action.run();
                    }
                    return null;
                }));
            }
            for (Future<?> one : running) {
                one.get();
            }
        } finally {
            threads.shutdownNow();
        }
    }
}
