package bpfmap;

import java.nio.file.Path;

/** Runs all tests: AllTests SERVER, at the top of the repository. */
public final class AllTests {
    private static final long NANOS_PER_MILLI = 1_000_000;

    private int passed;
    private int failed;

    private AllTests() {}

    /** A test, which says in a few words what it saw. */
    private interface Test {
        String run() throws Exception;
    }

    /**
     * @param words the server's program
     */
    public static void main(String[] words) {
        Path server = Path.of(words[0]);
        AllTests tests = new AllTests();
        tests.runTable(server, Path.of("tests", "requests.txt"));
        tests.runMap(server);
        tests.runVersions(server);
        tests.runBroken(server);
        tests.runFaults();
        tests.runThreads(server);
        tests.runStreams(server);
        tests.runPrograms();
        tests.judge("sentences of refusals", () -> RefusalTest.sentences(Path.of("docs")));
        tests.judge("the README's blocks", () -> ReadmeTest.blocks(server, Path.of("clients", "java", "README.md")));
        tests.judge("examples", () -> ExamplesTest.printed(server, Path.of("examples", "clients", "README.md")));
        System.out.println("clients/java: " + tests.passed + " tests passed, " + tests.failed + " failed");
        System.exit(tests.failed == 0 ? 0 : 1);
    }

    private void runTable(Path server, Path table) {
        for (Version version : Version.values()) {
            String by = ", version " + version.number();
            judge("table by a connection" + by, () -> TableTest.byConnection(server, table, version));
            judge("table by a map" + by, () -> TableTest.byMap(server, table, version));
        }
    }

    private void runVersions(Path server) {
        judge("limits of a version", () -> VersionsTest.limits(server));
        judge("calls that are made all the same", () -> VersionsTest.calls(server));
        judge("programs and walks of both versions", () -> VersionsTest.programs(server));
        judge("views of version 1", () -> VersionsTest.views(server));
        judge("a pipeline of version 1", () -> VersionsTest.pipeline(server));
        judge("servers of one version", VersionsTest::oneVersion);
    }

    private void runMap(Path server) {
        judge("codecs", MapTest::codecs);
        judge("refused before it is sent", MapTest::refusedHere);
        judge("like ConcurrentHashMap", () -> MapTest.likeConcurrentHashMap(server));
        judge("views", () -> MapTest.views(server));
        judge("walks", () -> MapTest.walks(server));
        judge("programs", () -> MapTest.programs(server));
        judge("a counter by a program", () -> ThreadsTest.byProgram(server));
        judge("a counter by a function", () -> ThreadsTest.byFunction(server));
        judge("a counter by pipelines", () -> ThreadsTest.byPipelines(server));
    }

    private void runBroken(Path server) {
        judge("a long pipeline", () -> BrokenTest.longPipeline(server));
        judge("a refused call in a pipeline", () -> BrokenTest.refusedInPipeline(server));
        judge("a server that ends in a pipeline", () -> BrokenTest.serverEnds(server));
        judge("a connection that is cut", () -> BrokenTest.connectionIsCut(server));
        judge("no second try", BrokenTest::noSecondTry);
        judge("a server that begins anew", () -> BrokenTest.serverBeginsAnew(server));
        judge("a late answer", BrokenTest::answerIsLate);
        judge("a late Hello", BrokenTest::helloIsLate);
        judge("faulty answers", BrokenTest::faultyAnswers);
        judge("refusals that end a session", BrokenTest::refusalsThatEnd);
        judge("a closed map", () -> BrokenTest.closedMap(server));
    }

    private void runFaults() {
        judge("a fault at each moment of calls", FaultsTest::calls);
        judge("a fault at each moment of pipelines", FaultsTest::pipelines);
        judge("a fault at each moment of walks", FaultsTest::walks);
        judge("a fault at each moment of calls as futures", FaultsTest::asynchronous);
        judge("numbers that were kept", NumbersTest::kept);
        judge("programs in requests", NumbersTest::named);
        judge("programs that are refused in a pipeline", NumbersTest::refused);
    }

    private void runThreads(Path server) {
        judge("interrupts of threads that wait", InterruptTest::whileWaiting);
        judge("interrupts at any moment", () -> InterruptTest.atAnyMoment(server));
        judge("threads that share", () -> InterruptTest.shared(server));
        judge("a server that is not there", InterruptTest::noServer);
        judge("calls as futures", () -> AsyncTest.inOrder(server));
        judge("a caller of futures", AsyncTest::neverWaits);
        judge("futures that fail", () -> AsyncTest.failures(server));
        judge("a future that is cancelled", AsyncTest::cancelled);
    }

    private void runStreams(Path server) {
        judge("streams beside a writer", () -> StreamsTest.besideAWriter(server));
        judge("spliterators", StreamsTest::characteristics);
        judge("items as they arrive", StreamsTest::asItemsArrive);
        judge("walks that are left", StreamsTest::left);
        judge("a walk that was closed", StreamsTest::closed);
        judge("calls amid a walk", StreamsTest::callsAmidAWalk);
        judge("streams of programs", () -> StreamsTest.programs(server));
        judge("walks with functions", () -> BulkTest.likeConcurrentHashMap(server));
        judge("a set of keys", () -> BulkTest.newKeySet(server));
    }

    private void runPrograms() {
        judge("instructions as text", () -> ProgramsTest.instructions(Path.of("tests", "instructions.txt")));
        judge("faults of texts", ProgramsTest::faults);
        judge("files of programs", ProgramsTest::files);
        judge("objects of programs", () -> ProgramsTest.objects(Path.of("examples", "c")));
    }

    private void judge(String name, Test test) {
        long start = System.nanoTime();
        try {
            System.out.println(name + ": " + test.run() + " (" + (System.nanoTime() - start) / NANOS_PER_MILLI + " ms)");
            passed++;
        } catch (Exception | AssertionError e) {
            failed++;
            System.err.println("FAILED: " + name + ": " + e);
            e.printStackTrace();
        }
    }
}
