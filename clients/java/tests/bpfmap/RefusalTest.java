package bpfmap;

import java.nio.file.Files;
import java.nio.file.Path;
import java.util.ArrayList;
import java.util.Arrays;
import java.util.List;

/** Names and sentences of refusals are those of the pages. */
final class RefusalTest {
    private RefusalTest() {}

    static String sentences(Path documents) throws Exception {
        List<String> lines = new ArrayList<>(Files.readAllLines(documents.resolve("REFUSALS.md")));
        lines.addAll(Files.readAllLines(documents.resolve("PROTOCOL.md")));
        int compared = 0;
        for (int number : RefusedException.numbers()) {
            RefusedException refusal = new RefusedException(number, 0);
            Check.that("no line has " + refusal.getMessage(), lines.stream().anyMatch(line -> tells(line, refusal)));
            compared++;
        }
        Check.equal("a message", "refused 46 BadExitValue at unit 3: write the answer's bytes without a gap on every way, or give "
                + "each answer an EXIT of its own", new RefusedException(46, 3).getMessage());
        return compared + " refusals";
    }

    /** Whether a row of a table begins with this number, and has the sentence in a column; 66 has no name there. */
    private static boolean tells(String line, RefusedException refusal) {
        List<String> columns = Arrays.stream(line.replace("`", "").split("\\|")).map(String::trim).toList();
        boolean isNamed = refusal.number() == 66 || line.contains(refusal.name());
        return columns.size() > 2 && columns.get(1).equals(Integer.toString(refusal.number())) && isNamed
                && columns.stream().anyMatch(column -> hasSentence(column, refusal));
    }

    private static boolean hasSentence(String column, RefusedException refusal) {
        return column.contains(refusal.sentence());
    }
}
