import bpfmap.Codec;
import bpfmap.Program;
import bpfmap.RemoteMap;
import java.nio.ByteBuffer;
import java.nio.ByteOrder;

/** Keeps sessions with the time of their last access: each access is one ComputeIfPresent, which makes no session anew. */
public final class SessionStore {
    /** examples/c/session_touch.c, as examples/c/build makes it of clang 14: the later one of two times is kept. */
    private static final Program TOUCH = Program.ofHex("""
            65 07 02 00 ff ff ff ff
            b7 00 00 00 ff ff ff ff
            95 00 00 00 00 00 00 00
            79 31 00 00 00 00 00 00
            79 23 08 00 00 00 00 00
            79 22 00 00 00 00 00 00
            7b 24 00 00 00 00 00 00
            2d 31 01 00 00 00 00 00
            bf 31 00 00 00 00 00 00
            7b 14 08 00 00 00 00 00
            b7 00 00 00 10 00 00 00
            95 00 00 00 00 00 00 00
            """, new Program.Sizes(64, 16, 8, 16));

    /**
     * A session.
     *
     * @param user the user's number
     * @param lastAccess the time of the last access, in seconds
     */
    private record Session(long user, long lastAccess) {}

    /** A session as two numbers of 8 bytes, as the program has it. */
    private static final class SessionCodec implements Codec<Session> {
        @Override
        public byte[] encode(Session session) {
            return ByteBuffer.allocate(2 * Long.BYTES).order(ByteOrder.LITTLE_ENDIAN).putLong(session.user())
                    .putLong(session.lastAccess()).array();
        }

        @Override
        public Session decode(byte[] bytes) {
            ByteBuffer numbers = ByteBuffer.wrap(bytes).order(ByteOrder.LITTLE_ENDIAN);
            return new Session(numbers.getLong(), numbers.getLong());
        }
    }

    private SessionStore() {}

    /**
     * @param words the server's host and port
     */
    public static void main(String[] words) {
        try (RemoteMap<String, Session> sessions = RemoteMap.open(words[0], Integer.parseInt(words[1]), Codec.strings(),
                new SessionCodec())) {
            sessions.put("c0ffee", new Session(42, 100));
            sessions.put("decade", new Session(7, 101));
            access(sessions, "c0ffee", 130);
            access(sessions, "c0ffee", 120);
            access(sessions, "facade", 130);
            expire(sessions, "c0ffee", 110);
            expire(sessions, "decade", 110);
            access(sessions, "decade", 140);
        }
    }

    private static void access(RemoteMap<String, Session> sessions, String name, long now) {
        Session session = sessions.computeIfPresent(name, TOUCH, Codec.longs().encode(now));
        String state = session == null ? "no session" : "user " + session.user() + ", last access " + session.lastAccess();
        System.out.println(name + " at " + now + ": " + state);
    }

    /** Removes a session without an access since this time, unless there is one meanwhile. */
    private static void expire(RemoteMap<String, Session> sessions, String name, long since) {
        Session session = sessions.get(name);
        boolean isGone = session != null && session.lastAccess() < since && sessions.remove(name, session);
        System.out.println(name + " without access since " + since + ": " + (isGone ? "removed" : "kept"));
    }
}
