package bpfmap;

import java.io.IOException;

/**
 * What comes of a request in a pipeline: an answer or an error.
 *
 * @param <T> the answer
 */
public final class Reply<T> {
    private final Request<T> request;
    private T answer;
    private RuntimeException refusal;
    private Throwable failure;
    private boolean hasEnded;

    Reply(Request<T> request) {
        this.request = request;
    }

    Request<T> request() {
        return request;
    }

    /** Reads the answer; throws if the connection breaks. */
    void read(Connection connection) throws IOException {
        try {
            answer = connection.read(request);
        } catch (RefusedException | UnfitException e) {
            refusal = e;
        }
        hasEnded = true;
    }

    /** Ends without being sent: the request's program was refused. */
    void refuse(RuntimeException why) {
        refusal = why;
        hasEnded = true;
    }

    /** Ends without an answer. */
    void fail(Throwable why) {
        failure = why;
        hasEnded = true;
    }

    boolean hasEnded() {
        return hasEnded;
    }

    /** What the server refused, or null. */
    RuntimeException refusal() {
        return refusal;
    }

    /**
     * Whether the server has answered.
     *
     * @return whether the request was made and answered, be it by a refusal
     */
    public boolean isAnswered() {
        return hasEnded && failure == null;
    }

    /**
     * The answer.
     *
     * @return the answer
     * @throws RefusedException if the server refused the request, or the program that it names
     * @throws UnfitException if the program's windows are too small
     * @throws IOException if the connection broke before the answer: the call may have been made
     * @throws IllegalStateException before the pipeline was run
     */
    public T get() throws IOException {
        if (!hasEnded) {
            throw new IllegalStateException("the pipeline was not run yet");
        }
        if (failure != null) {
            throw new IOException("the connection broke before the answer", failure);
        }
        if (refusal != null) {
            throw refusal;
        }
        return answer;
    }
}
