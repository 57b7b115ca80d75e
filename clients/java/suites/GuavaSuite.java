import bpfmap.Codec;
import bpfmap.RemoteMap;
import com.google.common.collect.testing.ConcurrentMapTestSuiteBuilder;
import com.google.common.collect.testing.TestStringMapGenerator;
import com.google.common.collect.testing.features.CollectionFeature;
import com.google.common.collect.testing.features.CollectionSize;
import com.google.common.collect.testing.features.MapFeature;
import java.nio.charset.StandardCharsets;
import java.util.Comparator;
import java.util.List;
import java.util.Map;
import junit.framework.TestResult;
import junit.framework.TestSuite;
import junit.textui.TestRunner;

/** Guava's suite for each {@code ConcurrentMap}, on a {@code RemoteMap}: GuavaSuite HOST PORT, on a server that nobody else uses. */
public final class GuavaSuite {
    private GuavaSuite() {}

    /** Makes the map of a test: the server's, with these entries and no other. */
    private static final class Maps extends TestStringMapGenerator {
        private final RemoteMap<String, String> map;

        private Maps(RemoteMap<String, String> map) {
            this.map = map;
        }

        @Override
        protected Map<String, String> create(Map.Entry<String, String>[] entries) {
            map.clear();
            for (Map.Entry<String, String> entry : entries) {
                map.put(entry.getKey(), entry.getValue());
            }
            return map;
        }

        @Override
        public Iterable<Map.Entry<String, String>> order(List<Map.Entry<String, String>> entries) {
            entries.sort(Map.Entry.comparingByKey(Comparator.comparing(key -> key.getBytes(StandardCharsets.UTF_8),
                    java.util.Arrays::compareUnsigned)));
            return entries;
        }
    }

    /**
     * @param words host and port of the server
     */
    public static void main(String[] words) {
        boolean isPassed;
        try (var map = RemoteMap.open(words[0], Integer.parseInt(words[1]), Codec.strings(), Codec.strings())) {
            TestSuite suite = ConcurrentMapTestSuiteBuilder.using(new Maps(map)).named("RemoteMap")
                    .withFeatures(MapFeature.GENERAL_PURPOSE, CollectionFeature.SUPPORTS_ITERATOR_REMOVE,
                            CollectionFeature.KNOWN_ORDER, CollectionSize.ANY).createTestSuite();
            TestResult result = TestRunner.run(suite);
            isPassed = result.wasSuccessful();
            System.out.println("Guava's suite: " + result.runCount() + " tests, " + result.failureCount() + " failures, "
                    + result.errorCount() + " errors");
        }
        System.exit(isPassed ? 0 : 1);
    }
}
