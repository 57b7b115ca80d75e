package bpfmap;

import java.io.BufferedReader;
import java.io.IOException;
import java.io.InputStream;
import java.io.InputStreamReader;
import java.io.OutputStream;
import java.nio.charset.StandardCharsets;
import java.nio.file.Path;
import java.time.Duration;
import java.util.regex.Matcher;
import java.util.regex.Pattern;

/** A fresh server of the tests, a process of its own. */
final class Mapd implements AutoCloseable {
    static final String HOST = "127.0.0.1";
    static final int WORKERS = 16;
    /** Long enough for a slow server on a busy machine. */
    static final Settings PATIENT = Settings.DEFAULT.withAnswerTimeout(Duration.ofSeconds(60));

    /** How long a server may take to get ready, in milliseconds. */
    private static final int PATIENCE = 20_000;

    private static final Pattern ADDRESS = Pattern.compile("127\\.0\\.0\\.1:(\\d+)");

    private final Process process;
    private final int port;

    private Mapd(Process process, int port) {
        this.process = process;
        this.port = port;
    }

    static Mapd start(Path program) throws IOException {
        return start(program, 0);
    }

    /** Starts a server on this port, or on a free one for 0. */
    static Mapd start(Path program, int port) throws IOException {
        Process process = new ProcessBuilder(program.toString(), "--listen", HOST + ":" + port, "--workers",
                Integer.toString(WORKERS)).start();
        Thread killer = killLater(process);
        try {
            BufferedReader errors = reader(process.getErrorStream());
            BufferedReader output = reader(process.getInputStream());
            String told = errors.readLine();
            Matcher address = ADDRESS.matcher(told == null ? "" : told);
            if (!address.find() || !"ready".equals(output.readLine())) {
                throw new IOException(program + " did not get ready; it said: " + told);
            }
            discard(process.getErrorStream());
            discard(process.getInputStream());
            return new Mapd(process, Integer.parseInt(address.group(1)));
        } catch (IOException e) {
            process.destroyForcibly();
            throw e;
        } finally {
            killer.interrupt();
        }
    }

    /** A thread that kills a process which does not get ready in time, unless it is interrupted. */
    private static Thread killLater(Process process) {
        Thread thread = new Thread(() -> {
            try {
                Thread.sleep(PATIENCE);
                process.destroyForcibly();
            } catch (InterruptedException e) {
                return;
            }
        });
        thread.setDaemon(true);
        thread.start();
        return thread;
    }

    int port() {
        return port;
    }

    Connection connect() throws IOException {
        return connect(Version.TWO);
    }

    Connection connect(Version version) throws IOException {
        return Connection.open(HOST, port, PATIENT.withVersion(version));
    }

    <K, V> RemoteMap<K, V> open(Codec<K> keys, Codec<V> values, int connections) {
        return open(keys, values, connections, Version.TWO);
    }

    <K, V> RemoteMap<K, V> open(Codec<K> keys, Codec<V> values, int connections, Version version) {
        return RemoteMap.open(HOST, port, keys, values, PATIENT.withConnections(connections).withVersion(version));
    }

    /** Ends the server at once. */
    void kill() {
        process.destroyForcibly().onExit().join();
    }

    @Override
    public void close() {
        kill();
    }

    private static BufferedReader reader(InputStream stream) {
        return new BufferedReader(new InputStreamReader(stream, StandardCharsets.UTF_8));
    }

    /** Reads on what the server says later, so that it never waits for that. */
    private static void discard(InputStream stream) {
        Thread thread = new Thread(() -> {
            try {
                stream.transferTo(OutputStream.nullOutputStream());
            } catch (IOException e) {
                return;
            }
        });
        thread.setDaemon(true);
        thread.start();
    }
}
