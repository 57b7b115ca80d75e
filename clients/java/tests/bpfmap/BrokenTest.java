package bpfmap;

import java.io.EOFException;
import java.io.IOException;
import java.io.OutputStream;
import java.io.UncheckedIOException;
import java.net.InetAddress;
import java.net.ProtocolException;
import java.net.ServerSocket;
import java.net.Socket;
import java.net.SocketTimeoutException;
import java.nio.file.Path;
import java.time.Duration;
import java.util.ArrayList;
import java.util.List;

/** Connections that break, servers that end, and answers that do not come. */
final class BrokenTest {
    private static final byte[] KEY = {0x61};
    private static final byte[] ONE = Codec.longs().encode(1L);
    private static final String PUT = "11" + "0161" + "0001" + "01";
    private static final String NOTHING = "00000003 82 ffff";
    private static final int CALLS = 20_000;
    /** So many of the longest values are more than the buffers of a system take. */
    private static final int LONG = 8_000;
    private static final int TRIES = 12;
    private static final Duration SHORT = Duration.ofMillis(300);
    private static final long PATIENCE = 5_000;

    private BrokenTest() {}

    /** The server is killed while a pipeline runs: first come answers, then errors. */
    static String serverEnds(Path server) throws Exception {
        long delay = 10;
        for (int attempt = 0; attempt < TRIES; attempt++) {
            int answered = answeredUntilKilled(server, delay);
            if (answered > 0 && answered < CALLS) {
                return answered + " of " + CALLS + " calls were answered";
            }
            delay = answered == 0 ? delay * 2 : delay / 2;
        }
        throw new AssertionError("no try ended in the middle of a pipeline");
    }

    private static int answeredUntilKilled(Path server, long delay) throws Exception {
        try (Mapd mapd = Mapd.start(server); Connection connection = mapd.connect()) {
            Pipeline pipeline = connection.pipeline();
            List<Reply<byte[]>> replies = merges(connection, pipeline, CALLS);
            Thread killer = new Thread(() -> {
                sleep(delay);
                mapd.kill();
            });
            killer.start();
            pipeline.run();
            killer.join();
            return countAnswers(replies);
        }
    }

    /** The answers go as far as a cut lets them: what was answered stands at the server, which goes on. */
    static String connectionIsCut(Path server) throws Exception {
        int calls = 1000;
        int answerLength = 15;
        int cut = 400 * answerLength + 7;
        try (Mapd mapd = Mapd.start(server);
                PlayedServer proxy = new PlayedServer(peer -> passOn(peer, mapd.port(), cut));
                Connection direct = mapd.connect(); Connection connection = proxy.connect()) {
            long program = direct.call(Request.register(Programs.SUM));
            connection.adopt(program);
            Pipeline pipeline = connection.pipeline();
            List<Reply<byte[]>> replies = merges(pipeline, program, calls);
            pipeline.run();
            Check.equal("answers before the cut", 400, countAnswers(replies));
            Check.that("a connection that broke is not used again", !connection.isUsable());
            long kept = Codec.longs().decode(direct.call(Request.get(KEY)));
            Check.that("the answered calls stand: " + kept, kept >= 400 && kept <= calls);
            return "400 answers of " + calls + ", " + kept + " calls made";
        }
    }

    /** Passes requests on to a server, and so many bytes of its answers back. */
    private static void passOn(PlayedServer.Peer peer, int port, int answers) throws Exception {
        try (Socket server = new Socket(Mapd.HOST, port)) {
            server.getOutputStream().write(Request.hello(Version.TWO).frame());
            server.getInputStream().readNBytes(6);
            Thread requests = new Thread(() -> copy(peer.socket(), server));
            requests.start();
            peer.socket().getOutputStream().write(server.getInputStream().readNBytes(answers));
            peer.socket().close();
            requests.join();
        }
    }

    /** Passes on all that comes, until either side ends. */
    private static void copy(Socket from, Socket to) {
        try {
            OutputStream output = to.getOutputStream();
            from.getInputStream().transferTo(output);
        } catch (IOException e) {
            return;
        }
    }

    private static List<Reply<byte[]>> merges(Connection connection, Pipeline pipeline, int count) throws IOException {
        return merges(pipeline, connection.numberOf(Programs.SUM), count);
    }

    private static List<Reply<byte[]>> merges(Pipeline pipeline, long program, int count) {
        List<Reply<byte[]>> replies = new ArrayList<>();
        for (int call = 0; call < count; call++) {
            replies.add(pipeline.add(Request.merge(KEY, ONE, program)));
        }
        return replies;
    }

    /** How many calls were answered: 1, 2 and so on, and behind them there are errors alone. */
    private static int countAnswers(List<Reply<byte[]>> replies) throws IOException {
        int answered = 0;
        for (Reply<byte[]> reply : replies) {
            if (reply.isAnswered()) {
                answered++;
                Check.equal("an answer", (long) answered, Codec.longs().decode(reply.get()));
            } else {
                Check.raises("a call without an answer", IOException.class, reply::get);
            }
        }
        Check.that("the first calls are the answered ones", replies.subList(0, answered).stream().allMatch(Reply::isAnswered));
        return answered;
    }

    /** Answers are read while requests are sent: more of both than any buffer of the system takes. */
    static String longPipeline(Path server) throws Exception {
        byte[] value = new byte[Version.TWO.longestValue()];
        try (Mapd mapd = Mapd.start(server); Connection connection = mapd.connect()) {
            Pipeline pipeline = connection.pipeline();
            List<Reply<byte[]>> replies = new ArrayList<>();
            for (int call = 0; call < LONG; call++) {
                replies.add(pipeline.add(Request.put(KEY, value)));
            }
            pipeline.run();
            Check.equal("the first answer", null, replies.get(0).get());
            for (Reply<byte[]> reply : replies.subList(1, LONG)) {
                Check.equal("a later answer", value, reply.get());
            }
            Check.that("the connection goes on", connection.isUsable());
            pipeline.run();
            Check.equal("a call behind it", value, connection.call(Request.get(KEY)));
        }
        return LONG + " puts of " + value.length + " bytes";
    }

    /** A refused call of a pipeline is an error of its own; the calls behind it are answered. */
    static String refusedInPipeline(Path server) throws Exception {
        try (Mapd mapd = Mapd.start(server); Connection connection = mapd.connect()) {
            connection.adopt(5);
            Pipeline pipeline = connection.pipeline();
            Reply<byte[]> unknown = pipeline.add(Request.compute(KEY, 5, null));
            Reply<byte[]> put = pipeline.add(Request.put(KEY, ONE));
            Check.raises("before it runs", IllegalStateException.class, put::get);
            pipeline.run();
            Check.equal("the refusal", 66, Check.raises("no program", RefusedException.class, unknown::get).number());
            Check.that("a refusal is an answer", unknown.isAnswered() && put.isAnswered() && put.get() == null);
            Check.that("the connection goes on", connection.isUsable());
        }
        return "and what follows it";
    }

    /** A call that may have been made is not made again; the next one takes another connection. */
    static String noSecondTry() throws Exception {
        try (PlayedServer server = new PlayedServer(PlayedServer.Peer::read, answering(NOTHING));
                RemoteMap<byte[], byte[]> map = RemoteMap.open(Mapd.HOST, server.port(), Codec.bytes(), Codec.bytes())) {
            Check.raises("a call without an answer", UncheckedIOException.class, () -> map.put(KEY, new byte[] {1}));
            Check.equal("it was sent once", List.of(PUT), server.requests());
            Check.equal("the next call", null, map.put(KEY, new byte[] {1}));
            Check.equal("it was sent once too", List.of(PUT), server.requests());
        }
        return "each call was sent once";
    }

    /** Reads one request, and answers this. */
    private static PlayedServer.Play answering(String answer) {
        return peer -> {
            peer.read();
            peer.send(answer);
            peer.waitForEnd();
        };
    }

    /** A server that began anew has other programs under the old numbers: they are registered again. */
    static String serverBeginsAnew(Path server) throws Exception {
        Mapd first = Mapd.start(server);
        try (RemoteMap<String, Long> map = first.open(Codec.strings(), Codec.longs(), 2)) {
            ThreadsTest.repeat(20, () -> map.merge("a", 1L, Programs.SUM));
            Check.equal("the sum over both connections", 20L * ThreadsTest.THREADS, map.get("a"));
            first.kill();
            Check.raises("no server", UncheckedIOException.class, () -> map.get("a"));
            try (Mapd second = Mapd.start(server, first.port()); Connection other = second.connect()) {
                Check.equal("another program has the number", 0L, other.call(Request.register(Programs.NOTHING)));
                map.merge("a", 5L, Programs.SUM);
                Check.equal("the sum", 6L, map.merge("a", 1L, Programs.SUM));
            }
        } finally {
            first.kill();
        }
        return "and programs are registered again";
    }

    /** A late answer is an error, and the connection is closed: so no later call takes it for its own. */
    static String answerIsLate() throws Exception {
        PlayedServer.Play late = peer -> {
            peer.read();
            sleep(SHORT.toMillis() * 3 / 2);
            peer.sendIfOpen("00000004 82 000101");
            peer.waitForEnd();
        };
        long start = System.nanoTime();
        try (PlayedServer server = new PlayedServer(late);
                Connection connection = Connection.open(Mapd.HOST, server.port(), Settings.DEFAULT.withAnswerTimeout(SHORT))) {
            Check.raises("no answer", SocketTimeoutException.class, () -> connection.call(Request.get(KEY)));
            checkTime(start);
            Check.raises("a call behind it", IOException.class, () -> connection.call(Request.get(KEY)));
        }
        return "after " + SHORT.toMillis() + " ms";
    }

    /** A server that has no worker left takes the connection, and says no Hello. */
    static String helloIsLate() throws Exception {
        long start = System.nanoTime();
        try (ServerSocket listener = new ServerSocket(0, 1, InetAddress.getByName(Mapd.HOST))) {
            IOException late = Check.raises("no Hello", SocketTimeoutException.class, () -> Connection.open(Mapd.HOST,
                    listener.getLocalPort(), Settings.DEFAULT.withAnswerTimeout(SHORT)));
            Check.that("it says what may be wrong: " + late.getMessage(), late.getMessage().contains("no worker"));
        }
        checkTime(start);
        return "after " + SHORT.toMillis() + " ms";
    }

    private static void checkTime(long start) {
        long took = (System.nanoTime() - start) / 1_000_000;
        Check.that("it took " + took + " ms", took >= SHORT.toMillis() && took < PATIENCE);
    }

    /** An answer that is none breaks the connection; so does one that was cut. */
    static String faultyAnswers() throws Exception {
        for (String answer : List.of("00000000", "0000800a", "00000002 8301", "00000003 820001", "00000004 82ffff00",
                "00000002 8401", "00000006 85 3d 000000", "0000000a 82 ffff")) {
            PlayedServer.Play thenEnding = peer -> {
                peer.read();
                peer.send(answer);
            };
            try (PlayedServer server = new PlayedServer(thenEnding); Connection connection = server.connect()) {
                IOException fault = Check.raises(answer, IOException.class, () -> connection.call(Request.get(KEY)));
                Check.that(answer + ": " + fault, fault instanceof ProtocolException || fault instanceof EOFException);
                Check.that(answer + ": the connection is not used again", !connection.isUsable());
            }
        }
        return "are errors";
    }

    /** Refusals behind which a session may end take the connection out of use; others do not. */
    static String refusalsThatEnd() throws Exception {
        for (int number : new int[] {9, 60, 61, 62, 63, 64, 65, 66}) {
            try (PlayedServer server = new PlayedServer(answering(refused(number))); Connection connection = server.connect()) {
                RefusedException refusal = Check.raises("a refusal", RefusedException.class,
                        () -> connection.call(Request.get(KEY)));
                Check.equal("its number", number, refusal.number());
                Check.equal("whether the connection goes on after " + number, number >= 65, connection.isUsable());
            }
        }
        try (PlayedServer server = new PlayedServer(answering(refused(9)), answering(NOTHING));
                RemoteMap<byte[], byte[]> map = RemoteMap.open(Mapd.HOST, server.port(), Codec.bytes(), Codec.bytes())) {
            Check.raises("a refusal", RefusedException.class, () -> map.get(KEY));
            Check.equal("a call of another connection", null, map.get(KEY));
        }
        return "and two that do not";
    }

    private static String refused(int number) {
        return "00000006 85" + String.format("%02x", number) + "00000000";
    }

    /** A map that was closed makes no more calls. */
    static String closedMap(Path server) throws Exception {
        try (Mapd mapd = Mapd.start(server)) {
            RemoteMap<String, Long> map = mapd.open(Codec.strings(), Codec.longs(), 1);
            map.close();
            Check.raises("a call", IllegalStateException.class, () -> map.get("a"));
        }
        return "makes no call";
    }

    private static void sleep(long milliseconds) {
        try {
            Thread.sleep(milliseconds);
        } catch (InterruptedException e) {
            Thread.currentThread().interrupt();
        }
    }
}
