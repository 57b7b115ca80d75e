package bpfmap;

import java.io.IOException;
import java.nio.file.Files;
import java.nio.file.Path;
import java.util.ArrayList;
import java.util.Arrays;
import java.util.HexFormat;
import java.util.List;
import java.util.stream.Collectors;

/** The rows of tests/requests.txt, whose head says how they read. */
final class Table {
    private static final String COLUMNS = " \\| ";

    private Table() {}

    /**
     * A request and what is answered.
     *
     * @param name the row's name
     * @param words the call and its arguments
     * @param answer the answer, each of its bytes written out
     */
    record Row(String name, List<String> words, String answer) {
        String call() {
            return words.get(0);
        }

        byte[] bytes(int word) {
            return bytesOf(words.get(word));
        }

        /** An argument, which may be absent. */
        byte[] argument(int word) {
            return words.get(word).equals("none") ? null : bytes(word);
        }

        long number(int word) {
            return Long.parseUnsignedLong(words.get(word));
        }

        /** All words from this one on, as one. */
        byte[] joined(int first) {
            return bytesOf(words.subList(first, words.size()).stream().map(Table::digits).collect(Collectors.joining()));
        }

        /** The program of a register row. */
        Program program() {
            int[] sizes = words.subList(1, 5).stream().mapToInt(Integer::parseInt).toArray();
            return Program.of(joined(5), new Program.Sizes(sizes[0], sizes[1], sizes[2], sizes[3]));
        }
    }

    /** The rows of a session of this version: those of the other one have its name before theirs. */
    static List<Row> read(Path file, Version version) throws IOException {
        String other = "version " + (version == Version.ONE ? 2 : 1) + ": ";
        List<Row> rows = new ArrayList<>();
        for (String line : Files.readAllLines(file)) {
            if (!line.isEmpty() && !line.startsWith("#") && !line.startsWith(other)) {
                rows.add(row(line));
            }
        }
        return rows;
    }

    private static Row row(String line) {
        String[] columns = line.split(COLUMNS, -1);
        if (columns.length != 3) {
            throw new IllegalArgumentException("no row of three columns: " + line);
        }
        List<String> words = Arrays.asList(columns[1].split(" "));
        boolean isRaw = words.get(0).equals("raw");
        String answer = Arrays.stream(columns[2].split(" ")).map(Table::writtenOut).collect(Collectors.joining(isRaw ? "" : " "));
        return new Row(columns[0], words, answer);
    }

    /** A word of an answer; an item is two of bytes. */
    private static String writtenOut(String word) {
        return Arrays.stream(word.split("=")).map(part -> part.contains("*") ? digits(part) : part)
                .collect(Collectors.joining("="));
    }

    /** The digits of a word of bytes. */
    private static String digits(String word) {
        int star = word.indexOf('*');
        if (star >= 0) {
            return word.substring(0, star).repeat(Integer.parseInt(word.substring(star + 1)));
        }
        return word.equals("-") ? "" : word;
    }

    private static byte[] bytesOf(String word) {
        return HexFormat.of().parseHex(digits(word));
    }

    /** Bytes as answers have them. */
    static String text(byte[] bytes) {
        return bytes.length == 0 ? "-" : HexFormat.of().formatHex(bytes);
    }

    static String valueText(byte[] value) {
        return value == null ? "nothing" : "value " + text(value);
    }

    static String text(Counts counts) {
        return "counts " + counts.scanned() + " " + counts.given() + " " + counts.unfit();
    }

    static String text(Walk<byte[], byte[]> walk) {
        String items = walk.items().stream().map(item -> text(item.getKey()) + "=" + text(item.getValue()) + " ")
                .collect(Collectors.joining());
        return "items " + items + text(walk.counts());
    }

    static String text(RefusedException refusal) {
        return "refused " + refusal.number() + " " + refusal.place();
    }

    static String text(UnfitException unfit) {
        return switch (unfit.window()) {
            case KEY -> "unfit key";
            case OLD_VALUE -> "unfit old";
            case ARGUMENT -> "unfit arg";
        };
    }
}
