package bpfmap;

import java.io.ByteArrayOutputStream;
import java.io.IOException;
import java.io.PrintStream;
import java.net.URL;
import java.net.URLClassLoader;
import java.nio.charset.StandardCharsets;
import java.nio.file.Files;
import java.nio.file.Path;
import java.util.ArrayList;
import java.util.Comparator;
import java.util.List;
import java.util.stream.Collectors;
import java.util.stream.Stream;
import javax.tools.ToolProvider;

/** The README's blocks of Java as they stand, but for the port: each prints the text that follows it. */
final class ReadmeTest {
    private static final String TRY = "try (var map = RemoteMap.open(";

    private ReadmeTest() {}

    static String blocks(Path server, Path page) throws Exception {
        List<String> code = blocksOf(page, "java");
        String wanted = String.join("", blocksOf(page, "text"));
        Check.that("the first block opens the map", code.get(0).contains(TRY));
        String opening = code.get(0).lines().filter(line -> line.startsWith(TRY)).findFirst().orElseThrow();
        try (Mapd mapd = Mapd.start(server)) {
            String port = Integer.toString(mapd.port());
            String first = run("First", code.get(0).replace("7070", port));
            // The others follow one another inside the first one's try.
            String others = String.join("", code.subList(1, code.size()));
            String inside = linesOf(others, true) + "import bpfmap.*;\n" + opening + "\n" + linesOf(others, false) + "}\n";
            Check.equal("what the blocks print", wanted, first + run("Others", inside.replace("7070", port)));
        }
        return code.size() + " blocks";
    }

    private static List<String> blocksOf(Path page, String language) throws IOException {
        List<String> blocks = new ArrayList<>();
        StringBuilder block = null;
        for (String line : Files.readAllLines(page)) {
            if (line.equals("```" + language)) {
                block = new StringBuilder();
            } else if (line.equals("```") && block != null) {
                blocks.add(block.toString());
                block = null;
            } else if (block != null) {
                block.append(line).append('\n');
            }
        }
        return blocks;
    }

    /** The imports of a text, or its other lines. */
    private static String linesOf(String text, boolean areImports) {
        return text.lines().filter(line -> line.startsWith("import ") == areImports).map(line -> line + "\n")
                .collect(Collectors.joining());
    }

    /** Compiles statements as a program, without a warning, and runs it; returns what it prints. */
    private static String run(String name, String statements) throws Exception {
        Path work = Files.createTempDirectory("readme");
        try {
            Path source = work.resolve(name + ".java");
            Files.writeString(source, linesOf(statements, true) + "public class " + name
                    + " {\npublic static void main(String[] words) throws Exception {\n" + linesOf(statements, false) + "}\n}\n");
            ByteArrayOutputStream said = new ByteArrayOutputStream();
            int status = ToolProvider.getSystemJavaCompiler().run(null, said, said, "-Xlint:all", "-Werror", "-cp",
                    System.getProperty("java.class.path"), "-d", work.toString(), source.toString());
            Check.equal("javac says " + said + " of " + Files.readString(source), 0, status);
            return printed(work, name);
        } finally {
            try (Stream<Path> files = Files.walk(work)) {
                files.sorted(Comparator.reverseOrder()).forEach(file -> file.toFile().delete());
            }
        }
    }

    private static String printed(Path classes, String name) throws Exception {
        PrintStream before = System.out;
        ByteArrayOutputStream printed = new ByteArrayOutputStream();
        try (URLClassLoader loader = new URLClassLoader(new URL[] {classes.toUri().toURL()})) {
            System.setOut(new PrintStream(printed, true, StandardCharsets.UTF_8));
            loader.loadClass(name).getMethod("main", String[].class).invoke(null, (Object) new String[0]);
        } finally {
            System.setOut(before);
        }
        return printed.toString(StandardCharsets.UTF_8);
    }
}
