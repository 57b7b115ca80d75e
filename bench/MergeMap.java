import java.lang.management.ManagementFactory;
import java.util.concurrent.ConcurrentHashMap;

/** Merges 1 into the keys of a ConcurrentHashMap by Long::sum, as `bench calls merge` does on a shared map: java MergeMap KEYS THREADS COUNT.
 *  Each thread makes COUNT calls to warm up, and COUNT that are timed. Prints how many were timed, in how many nanoseconds, and how many
 *  nanoseconds of processor time the process had meanwhile. The sum of the values is checked. */
final class MergeMap {
    private static final ConcurrentHashMap<Long, Long> MAP = new ConcurrentHashMap<>();

    private static void makeCalls(long keys, long worker, long count) {
        for (long turn = 0; turn < count; turn++) {
            MAP.merge((worker * (keys / 4) + turn) % keys, 1L, Long::sum);
        }
    }

    private static void makeAllCalls(long keys, int threads, long count) throws InterruptedException {
        Thread[] started = new Thread[threads];
        for (int i = 0; i < threads; i++) {
            long worker = i;
            started[i] = new Thread(() -> makeCalls(keys, worker, count));
            started[i].start();
        }
        for (Thread thread : started) {
            thread.join();
        }
    }

    public static void main(String[] words) throws InterruptedException {
        long keys = Long.parseLong(words[0]);
        int threads = Integer.parseInt(words[1]);
        long count = Long.parseLong(words[2]);
        var system = (com.sun.management.OperatingSystemMXBean) ManagementFactory.getOperatingSystemMXBean();
        for (long key = 0; key < keys; key++) {
            MAP.put(key, 1L);
        }
        makeAllCalls(keys, threads, count);
        long had = system.getProcessCpuTime();
        long begun = System.nanoTime();
        makeAllCalls(keys, threads, count);
        long took = System.nanoTime() - begun;
        System.out.println(threads * count + " " + took + " " + (system.getProcessCpuTime() - had));
        long sum = MAP.values().stream().mapToLong(Long::longValue).sum();
        if (sum != keys + 2 * threads * count) {
            System.err.println("MergeMap: the sum is " + sum);
            System.exit(1);
        }
    }
}
