import java.util.Arrays;
import java.util.List;
import java.util.concurrent.ConcurrentHashMap;
import java.util.concurrent.ConcurrentLinkedQueue;

/** Times walks over a ConcurrentHashMap for walks.sh: java WalkMap KIND ENTRIES MILLISECONDS, where KIND is search, for_each or hit. Prints the
 *  median nanoseconds of a walk by one thread, and of one by all. First it warms up, with many walks over a hundredth of the entries, and
 *  then some over all. It checks each walk's answer. A process has one function, so that the compiler can put it into the walk. All values
 *  are one object, since Java keeps small numbers. */
final class WalkMap {
    private static final int LEAST_WALKS = 3;
    private static final int MOST_WALKS = 1 << 20;
    private static final long ONE_THREAD = Long.MAX_VALUE;
    private static final long ALL_THREADS = 1;
    // Not final, so that the compiler doesn't know it.
    private static long argument = 5;

    /** Answers nothing, unless the value and the argument differ by 77. */
    private static Long rare(Long key, Long value) {
        return value - argument == 77 ? value : null;
    }

    private static Long sum(Long key, Long value) {
        return value + argument;
    }

    private static ConcurrentHashMap<Long, Long> filled(long entries) {
        var map = new ConcurrentHashMap<Long, Long>();
        for (long number = 1; number <= entries; number++) {
            map.put(number * 0x9e3779b97f4a7c15L, 1L);
        }
        return map;
    }

    private static void check(boolean isRight) {
        if (!isRight) {
            throw new IllegalStateException("a walk's answer is wrong");
        }
    }

    private static Runnable walkOf(String kind, ConcurrentHashMap<Long, Long> map, long threshold) {
        var found = new ConcurrentLinkedQueue<Long>();
        return switch (kind) {
            case "search" -> () -> check(map.search(threshold, WalkMap::rare) == null);
            case "hit" -> () -> check(map.search(threshold, WalkMap::sum) == 1 + argument);
            case "for_each" -> () -> {
                map.forEach(threshold, WalkMap::rare, found::add);
                check(found.isEmpty());
            };
            default -> throw new IllegalArgumentException(kind);
        };
    }

    /** Repeats a walk for this long, and returns the median nanoseconds. */
    private static long median(Runnable walk, long milliseconds) {
        long[] took = new long[MOST_WALKS];
        int count = 0;
        long begun = System.nanoTime();
        for (long end = begun + 1_000_000 * milliseconds; count < LEAST_WALKS || begun < end && count < MOST_WALKS; count++) {
            begun = System.nanoTime();
            walk.run();
            took[count] = System.nanoTime() - begun;
        }
        Arrays.sort(took, 0, count);
        return took[count / 2];
    }

    public static void main(String[] words) {
        String kind = words[0];
        long entries = Long.parseLong(words[1]);
        long milliseconds = Long.parseLong(words[2]);
        var map = filled(entries);
        for (var warming : List.of(filled(entries / 100 + 1), map)) {
            median(walkOf(kind, warming, ONE_THREAD), milliseconds);
            median(walkOf(kind, warming, ALL_THREADS), milliseconds);
        }
        System.out.println("java " + median(walkOf(kind, map, ONE_THREAD), milliseconds));
        System.out.println("parallel " + median(walkOf(kind, map, ALL_THREADS), milliseconds));
    }
}
