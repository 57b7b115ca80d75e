package bpfmap;

import java.io.IOException;
import java.nio.charset.StandardCharsets;
import java.nio.file.Files;
import java.nio.file.Path;
import java.util.Arrays;
import java.util.Comparator;
import java.util.HexFormat;
import java.util.List;

/** Programs from text, from object files and from files of each kind. */
final class ProgramsTest {
    private static final Program.Sizes SIZES = new Program.Sizes(64, 8, 8, 8);
    private static final String SUM = """
            ldd r0, [r2+0]
            ldd r9, [r3+0]
            add64 r0, r9
            stxd [r4+0], r0
            mov64 r0, 8
            exit
            """;

    private ProgramsTest() {}

    /** Each row of a table of instructions: its text, a bar, and its units. */
    static String instructions(Path table) throws IOException {
        int rows = 0;
        for (String line : Files.readAllLines(table)) {
            if (!line.startsWith("#") && !line.isEmpty()) {
                String[] columns = line.split(" \\| ");
                Check.equal(line, Program.ofHex(columns[1], SIZES), Program.ofText(columns[0] + "\n", SIZES));
                rows++;
            }
        }
        Check.that("there are rows", rows > 0);
        return rows + " instructions";
    }

    static String faults() {
        refuses(20, 1, "halt\n");
        refuses(20, 2, "exit\n\n");
        refuses(21, 1, "mov64 r0\n");
        refuses(21, 1, "mov64  r0, 1\n");
        refuses(21, 1, "mov64 r0, 01\n");
        refuses(21, 1, "mov64 r0, -0\n");
        refuses(21, 1, "ja 1\n");
        refuses(22, 3, "exit\nexit\nmov64 r11, 0\n");
        refuses(22, 1, "mov64 r0, 2147483648\n");
        refuses(22, 1, "wide r0, 18446744073709551616\n");
        refuses(22, 1, "ldd r0, [r1+32768]\n");
        refuses(23, 1, "exit");
        refuses(23, 1, "exit \n");
        refuses(24, 0, "");
        refuses(24, 4097, "exit\n".repeat(4097));
        Check.equal("the least and the greatest numbers", Program.ofHex("b700000000000080 b7010000ffffff7f", SIZES),
                Program.ofText("mov64 r0, -2147483648\nmov64 r1, 2147483647\n", SIZES));
        RefusedException refusal = Check.raises("a fault", RefusedException.class, () -> Program.ofText("exit\nhalt\n", SIZES));
        Check.equal("its message", "refused 20 UnknownName at line 2: the bytes up to the first blank, newline or end are no name: "
                + "'halt'", refusal.getMessage());
        return "20 to 24, with their lines";
    }

    private static void refuses(int number, long line, String text) {
        RefusedException refusal = Check.raises(text, RefusedException.class, () -> Program.ofText(text, SIZES));
        Check.equal(text, List.of(number, line), List.of(refusal.number(), refusal.place()));
    }

    /** A file says by its bytes what it is. */
    static String files() throws IOException {
        Path file = Files.createTempFile("program", ".bpf");
        try {
            Files.writeString(file, SUM);
            Check.equal("text", Programs.SUM, Program.ofFile(file, SIZES));
            Files.writeString(file, HexFormat.ofDelimiter(" ").formatHex(Programs.SUM.units()) + "\n");
            Check.equal("hex", Programs.SUM, Program.ofFile(file, SIZES));
            Files.writeString(file, "95 00 00 00 00 00 00 00\n".repeat(4096));
            Check.equal("the longest hex", Program.ofText("exit\n".repeat(4096), SIZES), Program.ofFile(file, SIZES));
            Files.write(file, "\u007fELF, or not".getBytes(StandardCharsets.UTF_8));
            Check.raises("no object", ObjectFaultException.class, () -> Program.ofFile(file, SIZES));
            Files.write(file, new byte[] {(byte) 0xff});
            Check.raises("no text", IOException.class, () -> Program.ofFile(file, SIZES));
        } finally {
            Files.delete(file);
        }
        return "of text and of hex";
    }

    /** Objects that clang makes, if it is here: those of the examples, and some that have more than a program. */
    static String objects(Path examples) throws Exception {
        Path work = Files.createTempDirectory("objects");
        try {
            if (!compiles(work, "int unused;", examples)) {
                return "no clang that knows BPF is here, so none was read";
            }
            refusesObject(work, examples, "no PROGRAM", "int unused(void);");
            refusesObject(work, examples, "beside the program", "#include \"bpfmap.h\"\n"
                    + "u64 other(u64 a) { return a; }\nPROGRAM { return NOTHING; }");
            refusesObject(work, examples, "relocation, of 'other'", "#include \"bpfmap.h\"\nu64 other(u64 a);\n"
                    + "PROGRAM { return other(8); }");
            refusesObject(work, examples, "can't be carried along", "#include \"bpfmap.h\"\nu64 data = 8;\n"
                    + "PROGRAM { return NOTHING; }");
            return readExamples(work, examples) + " programs of examples/c, each cut at many places";
        } finally {
            try (var files = Files.walk(work)) {
                files.sorted(Comparator.reverseOrder()).forEach(file -> file.toFile().delete());
            }
        }
    }

    private static int readExamples(Path work, Path examples) throws Exception {
        int read = 0;
        for (String name : List.of("counter.c", "append.c", "token_bucket.c")) {
            Check.that(name, compiles(work, Files.readString(examples.resolve(name)), examples));
            byte[] object = Files.readAllBytes(work.resolve("object.o"));
            Program program = Program.ofFile(work.resolve("object.o"), SIZES);
            Check.that("units of " + name, program.units().length > 0 && program.units().length % 8 == 0);
            for (int length = 0; length < object.length; length += 5) {
                byte[] cut = Arrays.copyOf(object, length);
                Check.raises("a cut object", ObjectFaultException.class, () -> Program.ofObject(cut, SIZES));
            }
            read++;
        }
        return read;
    }

    private static void refusesObject(Path work, Path examples, String message, String source) throws Exception {
        Check.that("clang compiles " + source, compiles(work, source, examples));
        ObjectFaultException fault = Check.raises(source, ObjectFaultException.class,
                () -> Program.ofFile(work.resolve("object.o"), SIZES));
        Check.that(fault.getMessage(), fault.getMessage().contains(message));
    }

    private static boolean compiles(Path work, String source, Path examples) throws InterruptedException {
        try {
            Files.writeString(work.resolve("source.c"), source);
            return new ProcessBuilder("clang", "-target", "bpf", "-mcpu=v3", "-O2", "-I", examples.toString(), "-c",
                    work.resolve("source.c").toString(), "-o", work.resolve("object.o").toString())
                    .redirectErrorStream(true).redirectOutput(work.resolve("said").toFile()).start().waitFor() == 0;
        } catch (IOException e) {
            return false;
        }
    }
}
