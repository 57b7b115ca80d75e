package bpfmap;

import java.util.List;

/** Numbers of programs end with their connection. */
final class NumbersTest {
    private static final byte[] KEY = {0x61};
    private static final byte[] ONE = Codec.longs().encode(1L);

    private NumbersTest() {}

    /** A number of an earlier connection is refused, and nothing is sent, even if the server has given the same one again. */
    static String kept() throws Exception {
        PlayedServer.Play play = peer -> {
            peer.read();
            peer.send("00000009 81 0000000000000000");
            peer.waitForEnd();
        };
        try (PlayedServer server = new PlayedServer(play, play)) {
            long kept;
            try (Connection first = server.connect()) {
                kept = first.numberOf(Programs.SUM);
                Check.equal("the number is kept", kept, first.numberOf(Programs.SUM));
            }
            try (Connection second = server.connect()) {
                Check.that("another number", second.numberOf(Programs.NOTHING) != kept);
                List<String> sent = List.copyOf(server.requests());
                refuses(second, Request.merge(KEY, ONE, kept));
                refuses(second, Request.compute(KEY, 1, null));
                refuses(second, Request.forEach(kept, null, 1));
                refuses(second, Request.replaceAll(kept, null));
                Check.raises("in a pipeline", ForeignNumberException.class,
                        () -> second.pipeline().add(Request.merge(KEY, ONE, kept)));
                Check.raises("a walk", ForeignNumberException.class, () -> second.walk(Request.search(kept, null, 1)));
                Check.equal("what was sent", sent, server.requests());
                Check.that("the connection goes on", second.isUsable());
            }
        }
        return "are refused before anything is sent";
    }

    private static void refuses(Connection connection, Request<?> request) {
        ForeignNumberException refusal = Check.raises("a number that was kept", ForeignNumberException.class,
                () -> connection.call(request));
        Check.that("it says what to do: " + refusal.getMessage(), refusal.getMessage().contains("Name the Program itself"));
    }

    /** Requests that name their programs run on each connection, and in pipelines; a refused one is an answer of its own. */
    static String named() throws Exception {
        MemoryTable table = new MemoryTable();
        FaultyTransport.Faults none = new FaultyTransport.Faults(FaultyTransport.Kind.BROKEN, 0);
        Request<byte[]> add = Request.merge(KEY, ONE, Programs.SUM);
        for (long round = 0; round < 3; round++) {
            try (Connection connection = Connection.over(new FaultyTransport(table, none), "memory", Version.TWO)) {
                Check.equal("a call", 3 * round + 1, Codec.longs().decode(connection.call(add)));
                Pipeline pipeline = connection.pipeline();
                Reply<byte[]> second = pipeline.add(add);
                Reply<byte[]> third = pipeline.add(add);
                pipeline.run();
                Check.equal("a reply", 3 * round + 2, Codec.longs().decode(second.get()));
                Check.equal("another", 3 * round + 3, Codec.longs().decode(third.get()));
                connection.adopt(99);
                Check.equal("a number that was adopted", 66, Check.raises("no program", RefusedException.class,
                        () -> connection.call(Request.merge(KEY, ONE, 99))).number());
            }
        }
        return "on each connection";
    }

    /** Of a pipeline only the calls are refused whose program is. */
    static String refused() throws Exception {
        PlayedServer.Play play = peer -> {
            peer.read();
            peer.send("00000006 85 28 00000000");
            peer.read();
            peer.send("00000005 82 0002 7879");
            peer.waitForEnd();
        };
        try (PlayedServer server = new PlayedServer(play); Connection connection = server.connect()) {
            Pipeline pipeline = connection.pipeline();
            Reply<byte[]> refused = pipeline.add(Request.merge(KEY, ONE, Programs.SUM));
            Reply<byte[]> get = pipeline.add(Request.get(KEY));
            pipeline.run();
            Check.equal("the refusal", 40, Check.raises("its program", RefusedException.class, refused::get).number());
            Check.equal("the other call", "xy", Codec.strings().decode(get.get()));
            Check.equal("requests", 2, server.requests().size());
        }
        return "one by one";
    }
}
