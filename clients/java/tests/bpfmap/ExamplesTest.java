package bpfmap;

import java.io.IOException;
import java.nio.charset.StandardCharsets;
import java.nio.file.Files;
import java.nio.file.Path;
import java.util.ArrayList;
import java.util.Collections;
import java.util.List;

/** Each example prints what the examples' README says, against a fresh server. */
final class ExamplesTest {
    private static final List<String> NAMES = List.of("HitCounter", "TokenBucket", "SessionStore");

    private ExamplesTest() {}

    static String printed(Path server, Path page) throws Exception {
        List<String> told = Files.readAllLines(page);
        for (String name : NAMES) {
            List<String> block = new ArrayList<>(run(name, server));
            Check.that(name + " prints nothing", !block.isEmpty());
            block.add(0, "```text");
            block.add("```");
            Check.that(page + " has not the block that " + name + " prints: " + block,
                    Collections.indexOfSubList(told, block) >= 0);
        }
        return String.join(", ", NAMES);
    }

    /** The lines that an example prints, its errors among them. */
    private static List<String> run(String name, Path server) throws IOException, InterruptedException {
        try (Mapd mapd = Mapd.start(server)) {
            Process example = new ProcessBuilder("java", "-cp", System.getProperty("java.class.path"), name, Mapd.HOST,
                    Integer.toString(mapd.port())).redirectErrorStream(true).start();
            String text = new String(example.getInputStream().readAllBytes(), StandardCharsets.UTF_8);
            Check.equal(name + "'s status, after printing " + text, 0, example.waitFor());
            return text.lines().toList();
        }
    }
}
