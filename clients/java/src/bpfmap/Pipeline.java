package bpfmap;

import java.io.IOException;
import java.util.ArrayList;
import java.util.List;

/**
 * Requests that are sent together. Their answers are read while requests are still being sent, since a server whose answers are
 * not read stops reading. Each request ends in an answer or an error; if the connection breaks, what was answered stands.
 *
 * <pre>{@code
 * Pipeline pipeline = connection.pipeline();
 * Reply<byte[]> first = pipeline.add(Request.get(key));
 * Reply<byte[]> second = pipeline.add(Request.get(otherKey));
 * pipeline.run();
 * use(first.get(), second.get());
 * }</pre>
 */
public final class Pipeline {
    private final Connection connection;
    private List<Reply<?>> waiting = new ArrayList<>();

    Pipeline(Connection connection) {
        this.connection = connection;
    }

    /**
     * Adds a request; nothing is sent yet.
     *
     * @param request the request
     * @param <T> the answer
     * @return what will come of it
     * @throws TooLongException if the connection's version does not carry its value; it was not added
     * @throws RefusedException if that version's frames do not hold its program; it was not added
     * @throws ForeignNumberException if it has a program's number that the connection did not give; it was not added
     */
    public <T> Reply<T> add(Request<T> request) {
        connection.check(request);
        Reply<T> reply = new Reply<>(request);
        waiting.add(reply);
        return reply;
    }

    /**
     * Sends what was added and reads all answers. Programs that the connection has not registered are registered first. Afterwards
     * the pipeline is empty, and each reply has its answer or error.
     */
    public void run() {
        List<Reply<?>> replies = waiting;
        waiting = new ArrayList<>();
        try {
            connection.makeAll(replies);
        } catch (IOException e) {
            failAll(replies, e);
        } catch (RuntimeException | Error e) {
            failAll(replies, e);
            throw e;
        }
    }

    private static void failAll(List<Reply<?>> replies, Throwable why) {
        replies.stream().filter(reply -> !reply.hasEnded()).forEach(reply -> reply.fail(why));
    }
}
