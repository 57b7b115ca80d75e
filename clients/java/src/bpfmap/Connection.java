package bpfmap;

import java.io.IOException;
import java.io.InterruptedIOException;
import java.net.SocketTimeoutException;
import java.util.ArrayList;
import java.util.LinkedHashMap;
import java.util.List;
import java.util.Map;
import java.util.concurrent.Semaphore;

/**
 * One connection to a server. Threads that share it make their calls one after the other. Whatever cuts a call short (a fault of
 * the connection, a late answer, an interrupt, any other exception) closes the connection: the call may have been made, nothing
 * here makes it again, and no later call gets its answer.
 */
public final class Connection implements AutoCloseable {
    private final Transport transport;
    private final Frames frames;
    private final Version version;
    private final Numbers numbers = new Numbers();
    private final Semaphore turn = new Semaphore(1);
    private volatile boolean isWalking;
    private volatile boolean isBetweenCalls;
    private volatile boolean mayHaveEnded;

    private Connection(Transport transport, Version version) {
        this.transport = transport;
        this.version = version;
        frames = new Frames(transport, version);
    }

    /**
     * Connects and says Hello.
     *
     * @param host the server's name or address
     * @param port its port
     * @param settings the times and the version of the protocol
     * @return the connection
     * @throws IOException if there is no server, or it has no worker left for this connection; it names host and port
     * @throws RefusedException if the server does not know the version
     */
    public static Connection open(String host, int port, Settings settings) throws IOException {
        return over(SocketTransport.connect(host, port, settings), SocketTransport.named(host, port), settings.version());
    }

    /** Says Hello over a transport, which is closed if that fails. */
    static Connection over(Transport transport, String server, Version version) throws IOException {
        Connection connection = new Connection(transport, version);
        boolean isOpen = false;
        try {
            connection.call(Request.hello(version));
            isOpen = true;
            return connection;
        } catch (SocketTimeoutException e) {
            throw (IOException) new SocketTimeoutException(server + ": no Hello came: the server may have no worker left for this "
                    + "connection").initCause(e);
        } catch (RefusedException e) {
            throw e.ofHello(version);
        } finally {
            if (!isOpen) {
                connection.close();
            }
        }
    }

    /**
     * Makes one call and waits for its answer. A program that the request names is registered first, if this connection has not
     * done so yet.
     *
     * @param request the call
     * @param <T> the answer
     * @return the answer
     * @throws RefusedException if the server refused the request or its program
     * @throws UnfitException if the program's windows are too small
     * @throws TooLongException if the version does not carry its value; nothing was sent
     * @throws ForeignNumberException if it has a program's number that this connection did not give; nothing was sent
     * @throws IllegalStateException if a walk of this connection is open; nothing was sent
     * @throws IOException if the connection broke, or the thread was interrupted
     */
    public <T> T call(Request<T> request) throws IOException {
        check(request);
        Reply<T> reply = new Reply<>(request);
        makeAll(List.of(reply));
        return reply.get();
    }

    /**
     * Begins a walk, whose items are read as they come. Until it has ended or is closed this connection makes no other call.
     *
     * @param request a request by {@link Request#forEach(Program, byte[], long)} or {@link Request#search(Program, byte[], long)}
     * @return the walk
     * @throws RefusedException if the server refused the request or its program
     * @throws IOException if the connection broke, or the thread was interrupted
     */
    public OpenWalk walk(Request<Walk<byte[], byte[]>> request) throws IOException {
        return walk(request, () -> { });
    }

    /** Begins a walk; the action runs when it has ended or was closed. */
    OpenWalk walk(Request<Walk<byte[], byte[]>> request, Runnable atEnd) throws IOException {
        check(request);
        takeTurn();
        boolean hasBegun = false;
        try {
            Reply<?> reply = new Reply<>(request);
            registerAll(List.of(reply));
            if (reply.refusal() != null) {
                throw reply.refusal();
            }
            isWalking = true;
            hasBegun = true;
            return OpenWalk.begin(this, request, atEnd);
        } finally {
            if (!hasBegun) {
                turn.release();
            }
        }
    }

    /**
     * The number of a program, which is registered if this connection has not done so. The number means something to this
     * connection alone. A request that names the {@link Program} itself needs none.
     *
     * @param program the program
     * @return its number
     * @throws RefusedException if the server refused the program
     * @throws IOException if the connection broke, or the thread was interrupted
     */
    public long numberOf(Program program) throws IOException {
        if (!numbers.has(program)) {
            call(Request.register(program));
        }
        return numbers.given(program);
    }

    /**
     * Allows a server's number that another connection was answered, by {@link Request#register}. You say by this that the server
     * has not been started again since: else it may be another program's.
     *
     * @param number the number that the server answered
     */
    public void adopt(long number) {
        numbers.adopt(number);
    }

    /**
     * The version of the protocol.
     *
     * @return the version that both sides speak
     */
    public Version version() {
        return version;
    }

    /**
     * Begins a pipeline.
     *
     * @return an empty pipeline of this connection
     */
    public Pipeline pipeline() {
        return new Pipeline(this);
    }

    /**
     * Whether a further call can be made here, as far as this side knows.
     *
     * @return whether it can
     */
    public boolean isUsable() {
        return isBetweenCalls && !mayHaveEnded && transport.isOpen();
    }

    /** Closes the socket. Calls that were answered stand. */
    @Override
    public void close() {
        transport.close();
    }

    /** Whether it is usable, and the server has neither ended it nor sent anything that was not asked for. */
    boolean isFresh() {
        return isUsable() && frames.isQuiet();
    }

    /** Throws if this connection can't carry a request. */
    void check(Request<?> request) {
        request.check(version);
        ProgramName name = request.program();
        if (name != null && name.program() == null) {
            numbers.atServer(name);
        } else if (name != null && !numbers.has(name.program())) {
            name.program().check(version);
        }
    }

    /** Makes calls, and reads all their answers. Those whose program is refused end with that refusal, and are not sent. */
    void makeAll(List<? extends Reply<?>> replies) throws IOException {
        takeTurn();
        try {
            registerAll(replies);
            exchange(replies.stream().filter(reply -> !reply.hasEnded()).toList());
        } finally {
            turn.release();
        }
    }

    private void takeTurn() throws IOException {
        if (isWalking) {
            throw new IllegalStateException("a walk of this connection is open: nothing was sent. Read it to its end or "
                    + "close it, or make the call over another connection");
        }
        try {
            turn.acquire();
        } catch (InterruptedException e) {
            Thread.currentThread().interrupt();
            throw new InterruptedIOException("the thread was interrupted before the call: nothing was sent");
        }
    }

    /** Registers the programs that are named and not yet known. */
    private void registerAll(List<? extends Reply<?>> replies) throws IOException {
        Map<Program, Reply<?>> unknown = new LinkedHashMap<>();
        for (Reply<?> reply : replies) {
            ProgramName name = reply.request().program();
            if (name != null && name.program() != null && !numbers.has(name.program())) {
                unknown.computeIfAbsent(name.program(), program -> new Reply<>(Request.register(program)));
            }
        }
        if (!unknown.isEmpty()) {
            exchange(new ArrayList<>(unknown.values()));
            replies.forEach(reply -> refuseWith(unknown, reply));
        }
    }

    private static void refuseWith(Map<Program, Reply<?>> registered, Reply<?> reply) {
        ProgramName name = reply.request().program();
        Reply<?> registration = name == null ? null : registered.get(name.program());
        if (registration != null && registration.refusal() != null) {
            reply.refuse(registration.refusal());
        }
    }

    /** Sends requests and reads their answers; whatever cuts that short closes the connection. */
    private void exchange(List<? extends Reply<?>> replies) throws IOException {
        if (replies.isEmpty()) {
            return;
        }
        try {
            begin(replies.stream().map(Reply::request).toList());
            for (Reply<?> reply : replies) {
                reply.read(this);
            }
            isBetweenCalls = true;
        } finally {
            if (!isBetweenCalls) {
                close();
            }
        }
    }

    /** Hands over requests for sending. From here on the connection is in the middle of a call. */
    void begin(List<? extends Request<?>> requests) throws IOException {
        if (!transport.isOpen()) {
            throw new IOException("the connection is closed: nothing was sent. Open another one");
        }
        isBetweenCalls = false;
        frames.send(requests.stream().map(this::frameOf).iterator());
    }

    private byte[] frameOf(Request<?> request) {
        ProgramName name = request.program();
        return name == null ? request.frame() : request.frame(numbers.atServer(name));
    }

    /** Ends a walk; if its answer was not read to the end, the connection is closed. */
    void endWalk(boolean isWhole) {
        isBetweenCalls = isWhole;
        if (!isWhole) {
            close();
        }
        isWalking = false;
        turn.release();
    }

    /** Reads the answer to this request, the next that was sent. */
    <T> T read(Request<T> request) throws IOException {
        try {
            T answer = request.read(frames::next);
            if (request.registered() != null) {
                numbers.put(request.registered(), (Long) answer);
            }
            return answer;
        } catch (RefusedException e) {
            noteRefusal(e);
            throw e;
        }
    }

    void noteRefusal(RefusedException refusal) {
        mayHaveEnded |= refusal.mayEndSession();
    }

    Frames frames() {
        return frames;
    }
}
