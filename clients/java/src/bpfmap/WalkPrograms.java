package bpfmap;

/** The programs by which the views of a map walk its entries: all whose values a version carries. */
final class WalkPrograms {
    private static final WalkPrograms OF_ONE = new WalkPrograms(Version.ONE);
    private static final WalkPrograms OF_TWO = new WalkPrograms(Version.TWO);

    private final Program keys;
    private final Program entries;

    private WalkPrograms(Version version) {
        keys = program(version, "mov64 r0, 0\nexit\n");
        entries = program(version, copy(version.longestValue()));
    }

    static WalkPrograms of(Version version) {
        return version == Version.ONE ? OF_ONE : OF_TWO;
    }

    /** Answers no bytes for each entry. */
    Program keys() {
        return keys;
    }

    /** Answers each entry's value. */
    Program entries() {
        return entries;
    }

    /**
     * Loads of 8 bytes and stores. Behind each power of two it ends if the value is no longer, so that a short value takes few
     * instructions; the old value's length is then at most the number of bytes that were stored.
     */
    private static String copy(int longest) {
        StringBuilder text = new StringBuilder();
        for (int offset = 0; offset < longest; offset += Long.BYTES) {
            if (Integer.bitCount(offset) == 1) {
                text.append("jgt64 r7, ").append(offset).append(", +2\nmov64 r0, r7\nexit\n");
            }
            text.append("ldd r0, [r2+").append(offset).append("]\nstxd [r4+").append(offset).append("], r0\n");
        }
        return text.append("mov64 r0, r7\nexit\n").toString();
    }

    private static Program program(Version version, String text) {
        int longest = version.longestValue();
        return Program.ofText(text, new Program.Sizes(Request.LONGEST_KEY, longest, 0, longest));
    }
}
