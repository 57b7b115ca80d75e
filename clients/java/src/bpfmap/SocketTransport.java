package bpfmap;

import java.io.Closeable;
import java.io.IOException;
import java.io.InterruptedIOException;
import java.net.ConnectException;
import java.net.InetSocketAddress;
import java.net.SocketTimeoutException;
import java.net.StandardSocketOptions;
import java.net.UnknownHostException;
import java.nio.ByteBuffer;
import java.nio.channels.AsynchronousCloseException;
import java.nio.channels.CancelledKeyException;
import java.nio.channels.ClosedSelectorException;
import java.nio.channels.SelectionKey;
import java.nio.channels.Selector;
import java.nio.channels.SocketChannel;

/**
 * A transport over TCP. The channel never blocks; a thread waits at a selector, so it hears an interrupt, and it writes and reads
 * in turn without a second thread.
 */
final class SocketTransport implements Transport {
    private static final long NANOS_PER_MILLI = 1_000_000;

    private final SocketChannel channel;
    private final Selector selector;
    private final int answerTimeout;
    private SelectionKey key;

    private SocketTransport(SocketChannel channel, Selector selector, int answerTimeout) {
        this.channel = channel;
        this.selector = selector;
        this.answerTimeout = answerTimeout;
    }

    /** Connects to a server. Every exception names the host and the port. */
    static SocketTransport connect(String host, int port, Settings settings) throws IOException {
        InetSocketAddress address = new InetSocketAddress(host, port);
        if (address.isUnresolved()) {
            throw new UnknownHostException(named(host, port) + ": there is no host of this name");
        }
        int answerTimeout = Settings.milliseconds(settings.answerTimeout());
        SocketTransport transport = open(answerTimeout);
        try {
            transport.connect(address, Settings.milliseconds(settings.connectTimeout()));
            return transport;
        } catch (IOException e) {
            transport.close();
            throw naming(named(host, port), e);
        } catch (RuntimeException | Error e) {
            transport.close();
            throw e;
        }
    }

    /** Host and port, as messages have them: an IPv6 address stands in brackets. */
    static String named(String host, int port) {
        return (host.indexOf(':') < 0 ? host : "[" + host + "]") + ":" + port;
    }

    private static SocketTransport open(int answerTimeout) throws IOException {
        SocketChannel channel = SocketChannel.open();
        try {
            return new SocketTransport(channel, Selector.open(), answerTimeout);
        } catch (IOException | RuntimeException e) {
            channel.close();
            throw e;
        }
    }

    private void connect(InetSocketAddress address, int timeout) throws IOException {
        channel.configureBlocking(false);
        channel.setOption(StandardSocketOptions.TCP_NODELAY, true);
        key = channel.register(selector, SelectionKey.OP_CONNECT);
        if (!channel.connect(address)) {
            await(SelectionKey.OP_CONNECT, timeout, "no connection came up");
            channel.finishConnect();
        }
        key.interestOps(SelectionKey.OP_READ);
    }

    private static IOException naming(String server, IOException failure) {
        String message = server + ": " + failure.getMessage();
        IOException named = failure instanceof SocketTimeoutException ? new SocketTimeoutException(message)
                : failure instanceof InterruptedIOException ? new InterruptedIOException(message) : new ConnectException(message);
        named.initCause(failure);
        return named;
    }

    @Override
    public int read(ByteBuffer target) throws IOException {
        return channel.read(target);
    }

    @Override
    public int write(ByteBuffer source) throws IOException {
        return channel.write(source);
    }

    @Override
    public void endOutput() throws IOException {
        channel.shutdownOutput();
    }

    @Override
    public void await(boolean orWrite) throws IOException {
        int operations = orWrite ? SelectionKey.OP_READ | SelectionKey.OP_WRITE : SelectionKey.OP_READ;
        await(operations, answerTimeout, "no byte of an answer came");
    }

    private void await(int operations, int timeout, String whatFailed) throws IOException {
        long deadline = System.nanoTime() + timeout * NANOS_PER_MILLI;
        try {
            if (key.interestOps() != operations) {
                key.interestOps(operations);
            }
            long left = timeout;
            while (left > 0 && selector.select(left) == 0) {
                checkInterrupt();
                left = (deadline - System.nanoTime()) / NANOS_PER_MILLI;
            }
            selector.selectedKeys().clear();
            if (left <= 0) {
                throw new SocketTimeoutException(whatFailed + " within " + timeout + " ms");
            }
        } catch (ClosedSelectorException | CancelledKeyException e) {
            throw (IOException) new AsynchronousCloseException().initCause(e);
        }
    }

    private static void checkInterrupt() throws InterruptedIOException {
        if (Thread.currentThread().isInterrupted()) {
            throw new InterruptedIOException("the thread was interrupted while it waited for the server");
        }
    }

    @Override
    public boolean isOpen() {
        return channel.isOpen();
    }

    @Override
    public void close() {
        closeQuietly(channel);
        closeQuietly(selector);
    }

    /** Closes one of the two. That it can't be closed changes nothing for the caller, who uses it no more. */
    private static void closeQuietly(Closeable closed) {
        try {
            closed.close();
        } catch (IOException e) {
            return;
        }
    }
}
