package bpfmap;

import java.io.IOException;
import java.net.InetAddress;
import java.net.ServerSocket;
import java.net.Socket;
import java.net.SocketException;
import java.util.Arrays;

/** A {@link MemoryTable} behind a port, for walks over many entries; it answers each connection on a thread of its own. */
final class MemoryServer implements AutoCloseable {
    private static final int PIECE = 4096;

    private final MemoryTable table = new MemoryTable();
    private final ServerSocket listener;

    MemoryServer() throws IOException {
        listener = new ServerSocket(0, 16, InetAddress.getByName(Mapd.HOST));
        start(this::accept);
    }

    <K, V> RemoteMap<K, V> open(Codec<K> keys, Codec<V> values) {
        return RemoteMap.open(Mapd.HOST, listener.getLocalPort(), keys, values, Mapd.PATIENT.withConnections(1));
    }

    private interface Work {
        void run() throws IOException;
    }

    private static void start(Work work) {
        Thread thread = new Thread(() -> {
            try {
                work.run();
            } catch (SocketException e) {
                // The test has closed the listener, or a client its connection.
                return;
            } catch (IOException e) {
                throw new AssertionError(e);
            }
        });
        thread.setDaemon(true);
        thread.start();
    }

    private void accept() throws IOException {
        while (true) {
            Socket socket = listener.accept();
            start(() -> serve(socket));
        }
    }

    private void serve(Socket socket) throws IOException {
        try (socket) {
            MemoryTable.Session session = table.session();
            byte[] piece = new byte[PIECE];
            int length = socket.getInputStream().read(piece);
            while (length > 0) {
                socket.getOutputStream().write(session.take(Arrays.copyOf(piece, length)));
                length = socket.getInputStream().read(piece);
            }
        }
    }

    @Override
    public void close() throws IOException {
        listener.close();
    }
}
