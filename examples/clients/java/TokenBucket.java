import bpfmap.Codec;
import bpfmap.Program;
import bpfmap.RemoteMap;
import java.nio.ByteBuffer;
import java.nio.ByteOrder;

/** Limits a client's rate by a bucket of ten tokens, of which one comes back a second: each request is one Compute. */
public final class TokenBucket {
    /** examples/c/token_bucket.c, as examples/c/build makes it of clang 14. */
    private static final Program TOKEN_BUCKET = Program.ofHex("""
            79 20 08 00 00 00 00 00
            79 35 00 00 00 00 00 00
            bf 51 00 00 00 00 00 00
            1f 01 00 00 00 00 00 00
            79 22 00 00 00 00 00 00
            0f 21 00 00 00 00 00 00
            a5 01 01 00 0a 00 00 00
            b7 01 00 00 0a 00 00 00
            79 32 08 00 00 00 00 00
            b4 03 00 00 01 00 00 00
            3d 21 01 00 00 00 00 00
            b4 03 00 00 00 00 00 00
            7b 54 08 00 00 00 00 00
            7b 34 10 00 00 00 00 00
            3d 21 01 00 00 00 00 00
            b7 02 00 00 00 00 00 00
            1f 21 00 00 00 00 00 00
            7b 14 00 00 00 00 00 00
            b7 00 00 00 18 00 00 00
            95 00 00 00 00 00 00 00
            """, new Program.Sizes(64, 24, 16, 24));

    private TokenBucket() {}

    /**
     * @param words the server's host and port
     */
    public static void main(String[] words) {
        try (RemoteMap<String, byte[]> buckets = RemoteMap.open(words[0], Integer.parseInt(words[1]), Codec.strings(),
                Codec.bytes())) {
            ask(buckets, "alice", 100, 4);
            ask(buckets, "alice", 100, 4);
            ask(buckets, "alice", 101, 4);
            ask(buckets, "bob", 101, 4);
            ask(buckets, "alice", 102, 4);
        }
    }

    /** Asks for tokens at this time, in seconds. A real service would take the time from its clock. */
    private static void ask(RemoteMap<String, byte[]> buckets, String client, long now, long wanted) {
        byte[] argument = ByteBuffer.allocate(2 * Long.BYTES).order(ByteOrder.LITTLE_ENDIAN).putLong(now).putLong(wanted).array();
        ByteBuffer bucket = ByteBuffer.wrap(buckets.compute(client, TOKEN_BUCKET, argument)).order(ByteOrder.LITTLE_ENDIAN);
        long left = bucket.getLong();
        long counted = bucket.getLong();
        String answer = bucket.getLong() == 1 ? "granted" : "refused";
        System.out.println(client + " at " + counted + ": " + wanted + " " + answer + ", " + left + " left");
    }
}
