import bpfmap.Codec;
import bpfmap.Program;
import bpfmap.RemoteMap;

/** Counts hits of pages: each hit is one Merge, with a program that adds. So no hit of any client is lost. */
public final class HitCounter {
    /** examples/c/counter.c, as examples/c/build makes it of clang 14: the argument is added to the old value. */
    private static final Program SUM = Program.ofHex("""
            79 21 00 00 00 00 00 00
            79 32 00 00 00 00 00 00
            0f 12 00 00 00 00 00 00
            7b 24 00 00 00 00 00 00
            b7 00 00 00 08 00 00 00
            95 00 00 00 00 00 00 00
            """, new Program.Sizes(64, 8, 8, 8));

    private HitCounter() {}

    /**
     * @param words the server's host and port
     */
    public static void main(String[] words) {
        try (RemoteMap<String, Long> hits = RemoteMap.open(words[0], Integer.parseInt(words[1]), Codec.strings(), Codec.longs())) {
            for (String page : new String[] {"/", "/about", "/", "/", "/about"}) {
                System.out.println(page + " " + hits.merge(page, 1L, SUM));
            }
        }
    }
}
