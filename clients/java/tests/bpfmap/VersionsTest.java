package bpfmap;

import java.io.IOException;
import java.io.UncheckedIOException;
import java.net.InetAddress;
import java.net.ProtocolException;
import java.net.ServerSocket;
import java.net.Socket;
import java.nio.file.Path;
import java.util.ArrayList;
import java.util.Arrays;
import java.util.HexFormat;
import java.util.List;
import java.util.Map;

/** Clients of both versions of the protocol on one map. */
final class VersionsTest {
    private static final byte[] KEY = {0x61};
    private static final byte[] SHORT = {0x78};
    private static final byte[] LONG = filled(Version.TWO.longestValue());
    /** The least length that version 1 does not carry. */
    private static final byte[] LEAST = filled(Version.ONE.longestValue() + 1);
    private static final Program.Sizes LARGE = new Program.Sizes(64, 1024, 1024, 1024);
    private static final Program COPY = Program.of(WalkPrograms.of(Version.TWO).entries().units(), LARGE);
    private static final int TOO_LONG = 65;
    private static final int PIPELINE = 200;

    private VersionsTest() {}

    private static byte[] filled(int length) {
        byte[] made = new byte[length];
        Arrays.fill(made, (byte) 7);
        return made;
    }

    private static void refuses(String what, int number, Check.Action call) {
        RefusedException refusal = Check.raises(what, RefusedException.class, call);
        Check.equal(what, number, refusal.number());
        Check.equal(what + ": the place", 0L, refusal.place());
    }

    /** Each version carries its longest value, and refuses a longer one before it is sent. */
    static String limits(Path server) throws Exception {
        try (Mapd mapd = Mapd.start(server)) {
            for (Version version : Version.values()) {
                limitsOf(mapd, version);
            }
            Check.equal("the name of 65", "ValueTooLong", new RefusedException(TOO_LONG, 0).name());
        }
        return "256 and 1,024 bytes, 512 and 4,096 units";
    }

    private static void limitsOf(Mapd mapd, Version version) throws Exception {
        byte[] longest = filled(version.longestValue());
        byte[] longer = filled(version.longestValue() + 1);
        Program program = Program.of(new byte[version.longestProgram() / 8 * 8 + 8], LARGE);
        try (Connection connection = mapd.connect(version);
                RemoteMap<byte[], byte[]> map = mapd.open(Codec.bytes(), Codec.bytes(), 1, version)) {
            Check.equal("the version", version, connection.version());
            Check.equal("a put", null, map.put(KEY, longest));
            Check.equal("a get", longest, connection.call(Request.get(KEY)));
            Check.equal("a remove", longest, map.remove(KEY));
            Check.raises("a long value", TooLongException.class, () -> map.put(KEY, longer));
            Check.raises("a long value of a request", TooLongException.class, () -> connection.call(Request.put(KEY, longer)));
            Check.raises("a long argument", TooLongException.class, () -> map.compute(KEY, Programs.SUM, longer));
            Check.raises("a long value in a pipeline", TooLongException.class,
                    () -> connection.pipeline().add(Request.replaceIf(KEY, SHORT, longer)));
            refuses("a long program", RefusedException.TOO_MANY_UNITS, () -> connection.call(Request.register(program)));
            Check.equal("the connection goes on", null, connection.call(Request.get(KEY)));
        }
    }

    /** Calls whose old value version 1 does not carry are made all the same. */
    static String calls(Path server) throws Exception {
        try (Mapd mapd = Mapd.start(server);
                RemoteMap<byte[], byte[]> first = mapd.open(Codec.bytes(), Codec.bytes(), 1, Version.ONE);
                RemoteMap<byte[], byte[]> second = mapd.open(Codec.bytes(), Codec.bytes(), 1)) {
            for (byte[] value : List.of(LEAST, LONG)) {
                callsOn(first, second, value);
            }
        }
        return "put, replace and remove";
    }

    private static void callsOn(RemoteMap<byte[], byte[]> first, RemoteMap<byte[], byte[]> second, byte[] value) {
        Check.equal("a put", null, second.put(KEY, value));
        refuses("a get", TOO_LONG, () -> first.get(KEY));
        refuses("a putIfAbsent", TOO_LONG, () -> first.putIfAbsent(KEY, SHORT));
        Check.equal("nothing was changed", value, second.get(KEY));
        refuses("a put", TOO_LONG, () -> first.put(KEY, SHORT));
        Check.equal("it was made", SHORT, second.put(KEY, value));
        refuses("a replace", TOO_LONG, () -> first.replace(KEY, SHORT));
        Check.equal("it was made too", SHORT, first.get(KEY));
        Check.equal("a put", SHORT, second.put(KEY, value));
        Check.that("answers without a value", !first.remove(KEY, (Object) SHORT) && !first.replace(KEY, SHORT, SHORT));
        Check.equal("a count", 1L, first.mappingCount());
        refuses("a remove", TOO_LONG, () -> first.remove(KEY));
        Check.equal("it was made", null, first.get(KEY));
    }

    /** A program that version 2 registers is called by version 1; a walk with an item that is too long is refused as a whole. */
    static String programs(Path server) throws Exception {
        try (Mapd mapd = Mapd.start(server); Connection first = mapd.connect(Version.ONE); Connection second = mapd.connect()) {
            refuses("large windows", 47, () -> first.numberOf(COPY));
            long copy = second.call(Request.register(COPY));
            first.adopt(copy);
            Check.equal("a merge", LONG, second.call(Request.merge(KEY, LONG, copy)));
            refuses("a merge", TOO_LONG, () -> first.call(Request.merge(KEY, SHORT, copy)));
            refuses("a compute", TOO_LONG, () -> first.call(Request.compute(KEY, copy, null)));
            refuses("a computeIfAbsent", TOO_LONG, () -> first.call(Request.computeIfAbsent(KEY, copy, null)));
            Check.equal("the value that stays", LONG, second.call(Request.computeIfPresent(KEY, copy, null)));
            refuses("a forEach", TOO_LONG, () -> first.call(Request.forEach(copy, null, 1)));
            refuses("a search", TOO_LONG, () -> first.call(Request.search(copy, null, 1)));
            Check.equal("a replaceAll", new Counts(1, 1, 0), first.call(Request.replaceAll(copy, null)));
            second.call(Request.put(new byte[0], SHORT));
            Check.equal("the least item alone", 1, first.call(Request.search(copy, null, 1)).items().size());
            Check.equal("all items", 2, second.call(Request.forEach(copy, null, 1)).items().size());
            Check.that("the connection goes on", first.isUsable());
        }
        return "by a number that both know";
    }

    /** Views of version 1 have all entries whose values it carries, and are refused where there are others. */
    static String views(Path server) throws Exception {
        try (Mapd mapd = Mapd.start(server);
                RemoteMap<String, byte[]> first = mapd.open(Codec.strings(), Codec.bytes(), 1, Version.ONE);
                RemoteMap<String, byte[]> second = mapd.open(Codec.strings(), Codec.bytes(), 1)) {
            second.putAll(Map.of("a", SHORT, "b", filled(256)));
            Check.equal("the keys", List.of("a", "b"), List.copyOf(first.keySet()));
            second.put("c", LEAST);
            refuses("the keys", TOO_LONG, () -> first.keySet().iterator());
            refuses("the values", TOO_LONG, () -> first.values().iterator());
            refuses("all entries removed", TOO_LONG, first::clear);
            Check.equal("the count", 3, first.size());
            Check.equal("the keys of version 2", List.of("a", "b", "c"), List.copyOf(second.keySet()));
            second.clear();
            Check.that("an empty view", first.entrySet().isEmpty() && !first.entrySet().iterator().hasNext());
        }
        return "refused where an entry is too long";
    }

    /** Of a pipeline every second call is refused, and the others are answered. */
    static String pipeline(Path server) throws Exception {
        try (Mapd mapd = Mapd.start(server); Connection first = mapd.connect(Version.ONE); Connection second = mapd.connect()) {
            second.call(Request.put(KEY, LONG));
            Pipeline pipeline = first.pipeline();
            List<Reply<byte[]>> replies = new ArrayList<>();
            for (int call = 0; call < PIPELINE; call++) {
                replies.add(pipeline.add(Request.get(call % 2 == 0 ? KEY : SHORT)));
            }
            pipeline.run();
            for (int call = 0; call < PIPELINE; call += 2) {
                refuses("call " + call, TOO_LONG, replies.get(call)::get);
                Check.equal("the call behind it", null, replies.get(call + 1).get());
            }
        }
        return PIPELINE + " calls";
    }

    /** A server that refuses a version, or answers another one: no second version is tried. */
    static String oneVersion() throws Exception {
        try (PlayedServer server = new PlayedServer(Version.ONE, PlayedServer.Peer::waitForEnd);
                Connection connection = server.connect()) {
            Check.equal("its version", Version.ONE, connection.version());
        }
        Exception refusal = refusesHello("00000006 85 40 00000000", RefusedException.class);
        Check.that("it says what to do: " + refusal.getMessage(), refusal.getMessage().startsWith("refused 64 WrongVersion: ")
                && refusal.getMessage().endsWith("ask for version 1, by Settings.DEFAULT.withVersion(Version.ONE)"));
        refusesHello("00000002 8001", ProtocolException.class);
        return "are not asked twice";
    }

    private static Exception refusesHello(String answer, Class<? extends Exception> kind) throws Exception {
        try (ServerSocket listener = new ServerSocket(0, 1, InetAddress.getByName(Mapd.HOST))) {
            Thread server = new Thread(() -> answerHello(listener, answer));
            server.start();
            Exception thrown = Check.raises(answer, kind,
                    () -> Connection.open(Mapd.HOST, listener.getLocalPort(), Settings.DEFAULT));
            server.join();
            return thrown;
        }
    }

    private static void answerHello(ServerSocket listener, String answer) {
        try (Socket socket = listener.accept()) {
            socket.getInputStream().readNBytes(6);
            socket.getOutputStream().write(HexFormat.of().parseHex(answer.replace(" ", "")));
        } catch (IOException e) {
            throw new UncheckedIOException(e);
        }
    }
}
