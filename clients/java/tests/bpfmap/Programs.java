package bpfmap;

/** Programs that several tests use. */
final class Programs {
    /** Adds its argument to the old value, both numbers of 8 bytes. */
    static final Program SUM = Program.ofHex("""
            79 20 00 00 00 00 00 00
            79 39 00 00 00 00 00 00
            0f 90 00 00 00 00 00 00
            7b 04 00 00 00 00 00 00
            b7 00 00 00 08 00 00 00
            95 00 00 00 00 00 00 00
            """, new Program.Sizes(64, 8, 8, 8));

    /** Answers nothing. */
    static final Program NOTHING = Program.ofHex("b7000000ffffffff 9500000000000000", new Program.Sizes(64, 256, 256, 256));

    private Programs() {}
}
