package bpfmap;

import java.io.IOException;
import java.nio.ByteBuffer;
import java.nio.charset.StandardCharsets;
import java.nio.file.Files;
import java.nio.file.Path;
import java.util.Arrays;
import java.util.HexFormat;
import java.util.Objects;
import java.util.regex.Pattern;

/**
 * A BPF program with the declared sizes of its windows, in bytes. Two programs are equal if bytes and sizes are. The
 * server verifies a program when it is first used; what may stand in one says docs/PROGRAMS.md.
 */
public final class Program {
    private static final int UNIT = 8;
    private static final int LARGEST_SIZE = 0xffff;
    /** Pairs of digits, and no instruction begins with one; possessive, so that a long text takes no stack. */
    private static final Pattern HEX = Pattern.compile("\\s*+(?:[0-9a-fA-F]{2}\\s*+)++");

    private final byte[] units;
    private final Sizes sizes;
    private final int hash;

    /**
     * The declared sizes of a program's windows.
     *
     * @param key 0 to 64
     * @param oldValue 0 to 1,024, in version 1 of the protocol to 256
     * @param argument the same
     * @param result the same
     */
    public record Sizes(int key, int oldValue, int argument, int result) {
        /**
         * Sizes that a frame can hold; those above the limits are the server's to refuse.
         *
         * @param key 0 to 64
         * @param oldValue 0 to 1,024, in version 1 of the protocol to 256
         * @param argument the same
         * @param result the same
         * @throws IllegalArgumentException if one is below 0 or above 65535
         */
        public Sizes {
            checkSize(key);
            checkSize(oldValue);
            checkSize(argument);
            checkSize(result);
        }

        private static void checkSize(int size) {
            if (size < 0 || size > LARGEST_SIZE) {
                throw new IllegalArgumentException("a size is 0 to 65535, not " + size);
            }
        }
    }

    private Program(byte[] units, Sizes sizes) {
        this.units = units;
        this.sizes = sizes;
        hash = 31 * Arrays.hashCode(units) + sizes.hashCode();
    }

    /**
     * A program from its bytes.
     *
     * @param units the program's bytes, 8 a unit
     * @param sizes its declared sizes
     * @return the program
     */
    public static Program of(byte[] units, Sizes sizes) {
        return new Program(units.clone(), Objects.requireNonNull(sizes));
    }

    /**
     * A program from hex text.
     *
     * @param hex pairs of hexadecimal digits, with blank space as one likes: as {@code bpfmap asm} and examples/c/build print
     * @param sizes its declared sizes
     * @return the program
     * @throws IllegalArgumentException if it is no hex text
     */
    public static Program ofHex(String hex, Sizes sizes) {
        return new Program(HexFormat.of().parseHex(hex.replaceAll("\\s", "")), Objects.requireNonNull(sizes));
    }

    /**
     * A program from a file of hex text.
     *
     * @param file a file of such a hex text
     * @param sizes the program's declared sizes
     * @return the program
     * @throws IOException if the file can't be read
     */
    public static Program ofHexFile(Path file, Sizes sizes) throws IOException {
        return ofHex(Files.readString(file), sizes);
    }

    /**
     * A program from the text of docs/PROGRAMS.md, one instruction a line.
     *
     * @param text the text
     * @param sizes the program's declared sizes
     * @return the program
     * @throws RefusedException with 20 to 24 and the line, if it is no such text
     */
    public static Program ofText(String text, Sizes sizes) {
        return new Program(Assembler.assemble(text), Objects.requireNonNull(sizes));
    }

    /**
     * A program from an object file that clang made with {@code -target bpf}. It has one function, {@code program}, and no data.
     *
     * @param content the bytes of the file
     * @param sizes the program's declared sizes
     * @return the program
     * @throws ObjectFaultException if the object has more than a program, or none
     */
    public static Program ofObject(byte[] content, Sizes sizes) {
        return new Program(ObjectFile.instructions(content), Objects.requireNonNull(sizes));
    }

    /**
     * A program from a file: an object file, hex text, or the text of docs/PROGRAMS.md. Its first bytes say which.
     *
     * @param file the file
     * @param sizes the program's declared sizes
     * @return the program
     * @throws IOException if the file can't be read, or is no UTF-8
     * @throws ObjectFaultException if it is an object file of something else than a program
     * @throws RefusedException with 20 to 24 and the line, if it is a text with a fault
     */
    public static Program ofFile(Path file, Sizes sizes) throws IOException {
        byte[] content = Files.readAllBytes(file);
        if (ObjectFile.isOne(content)) {
            return ofObject(content, sizes);
        }
        String text = StandardCharsets.UTF_8.newDecoder().decode(ByteBuffer.wrap(content)).toString();
        return HEX.matcher(text).matches() ? ofHex(text, sizes) : ofText(text, sizes);
    }

    /** Throws as the server would if a version's frames do not hold this program. */
    void check(Version version) {
        if (units.length > version.longestProgram()) {
            boolean isWhole = units.length % UNIT == 0;
            throw new RefusedException(isWhole ? RefusedException.TOO_MANY_UNITS : RefusedException.NOT_WHOLE_UNITS, 0);
        }
    }

    /**
     * The program's bytes.
     *
     * @return a copy of them
     */
    public byte[] units() {
        return units.clone();
    }

    /**
     * The declared sizes of the program's windows.
     *
     * @return the sizes
     */
    public Sizes sizes() {
        return sizes;
    }

    @Override
    public boolean equals(Object other) {
        return other instanceof Program program && Arrays.equals(units, program.units) && sizes.equals(program.sizes);
    }

    @Override
    public int hashCode() {
        return hash;
    }

    @Override
    public String toString() {
        return "program of " + units.length + " bytes, " + sizes;
    }
}
