import java.util.Map;
import junit.framework.AssertionFailedError;
import junit.framework.Test;
import junit.framework.TestCase;
import junit.framework.TestListener;
import junit.framework.TestResult;
import junit.framework.TestSuite;

/** JSR-166's tests of ConcurrentHashMap. A test that is to fail must fail, and no other may. */
public final class Jsr166Suite {
    /** What a RemoteMap does otherwise, by the test that shows it. */
    private static final Map<String, String> OTHERWISE = Map.of(
            "testSerialization", "a server's map is not serializable",
            "testReentrantComputeIfAbsent", "a function may call the map, since no lock is held meanwhile",
            "testKeySetSpliterator", "a walk doesn't know its size beforehand");

    private Jsr166Suite() {}

    /** Tells of each failure, and counts those that are not to be. */
    private static final class Judge implements TestListener {
        private int unexpected;
        private boolean isFailed;

        @Override
        public void startTest(Test test) {
            isFailed = false;
        }

        @Override
        public void addError(Test test, Throwable error) {
            isFailed = true;
            String why = OTHERWISE.get(((TestCase) test).getName());
            System.out.println(test + (why == null ? " FAILED: " + error : ": " + why));
        }

        @Override
        public void addFailure(Test test, AssertionFailedError failure) {
            addError(test, failure);
        }

        @Override
        public void endTest(Test test) {
            if (isFailed != OTHERWISE.containsKey(((TestCase) test).getName())) {
                unexpected++;
            }
        }
    }

    /**
     * @param words none
     */
    public static void main(String[] words) {
        TestSuite suite = new TestSuite();
        suite.addTest(ConcurrentHashMapTest.suite());
        suite.addTest(ConcurrentHashMap8Test.suite());
        TestResult result = new TestResult();
        Judge judge = new Judge();
        result.addListener(judge);
        suite.run(result);
        System.out.println("JSR-166's tests: " + result.runCount() + ", of which " + (result.failureCount() + result.errorCount())
                + " show what a RemoteMap does otherwise; " + judge.unexpected + " unexpected");
        System.exit(judge.unexpected == 0 ? 0 : 1);
    }
}
