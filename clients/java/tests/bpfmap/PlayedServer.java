package bpfmap;

import java.io.DataInputStream;
import java.io.IOException;
import java.io.OutputStream;
import java.net.InetAddress;
import java.net.ServerSocket;
import java.net.Socket;
import java.net.SocketException;
import java.util.HexFormat;
import java.util.List;
import java.util.concurrent.CompletableFuture;
import java.util.concurrent.CompletionException;
import java.util.concurrent.CopyOnWriteArrayList;
import java.util.concurrent.TimeUnit;

/**
 * A server that answers the Hello of each connection by a version, and then plays what a test says: one play a connection, in order.
 */
final class PlayedServer implements AutoCloseable {
    private static final HexFormat HEX = HexFormat.of();
    private static final int PATIENCE = 10_000;

    private final ServerSocket listener;
    private final Version version;
    private final List<Play> plays;
    private final List<String> requests = new CopyOnWriteArrayList<>();
    private final CompletableFuture<Void> playing;

    /** What is done with one connection. */
    interface Play {
        void with(Peer peer) throws Exception;
    }

    /** The client as the server sees it. */
    static final class Peer {
        private final Socket socket;
        private final DataInputStream input;
        private final List<String> requests;

        private Peer(Socket socket, List<String> requests) throws IOException {
            this.socket = socket;
            this.requests = requests;
            input = new DataInputStream(socket.getInputStream());
        }

        /** Reads the body of a request, which is noted. */
        String read() throws IOException {
            String body = HEX.formatHex(input.readNBytes(input.readInt()));
            requests.add(body);
            return body;
        }

        /** Sends bytes as they are. */
        void send(String hex) throws IOException {
            OutputStream output = socket.getOutputStream();
            output.write(HEX.parseHex(hex.replace(" ", "")));
            output.flush();
        }

        /** Sends bytes, which a client that has ended does not get. */
        void sendIfOpen(String hex) throws IOException {
            try {
                send(hex);
            } catch (SocketException e) {
                socket.close();
            }
        }

        /** Reads until the client has closed the connection, or has broken it. */
        void waitForEnd() throws IOException {
            try {
                input.readAllBytes();
            } catch (SocketException e) {
                socket.close();
            }
        }

        Socket socket() {
            return socket;
        }
    }

    PlayedServer(Play... plays) throws IOException {
        this(Version.TWO, plays);
    }

    PlayedServer(Version version, Play... plays) throws IOException {
        this.version = version;
        listener = new ServerSocket(0, plays.length, InetAddress.getByName(Mapd.HOST));
        this.plays = List.of(plays);
        playing = CompletableFuture.runAsync(this::playAll, work -> new Thread(work, "played-server").start())
                .orTimeout(PATIENCE, TimeUnit.MILLISECONDS);
    }

    int port() {
        return listener.getLocalPort();
    }

    Connection connect() throws IOException {
        return Connection.open(Mapd.HOST, port(), Settings.DEFAULT.withVersion(version));
    }

    /** The bodies of all requests that plays have read. */
    List<String> requests() {
        return requests;
    }

    /** Whether a play has not ended yet. */
    boolean isPlaying() {
        return !playing.isDone();
    }

    private void playAll() {
        for (Play play : plays) {
            playOne(play);
        }
    }

    private void playOne(Play play) {
        try (Socket socket = listener.accept()) {
            socket.setSoTimeout(PATIENCE);
            Peer peer = new Peer(socket, requests);
            Check.equal("the Hello", "000" + version.number(), peer.read());
            requests.clear();
            peer.send("00000002 800" + version.number());
            play.with(peer);
        } catch (Exception e) {
            throw new CompletionException(e);
        }
    }

    /** Waits for the plays to end; throws what went wrong in them. */
    @Override
    public void close() throws IOException {
        try {
            playing.join();
        } finally {
            listener.close();
        }
    }
}
