package bpfmap;

import java.io.IOException;
import java.io.UncheckedIOException;
import java.util.ArrayList;
import java.util.List;
import java.util.Queue;
import java.util.concurrent.CompletableFuture;
import java.util.concurrent.ConcurrentLinkedQueue;
import java.util.concurrent.Executor;
import java.util.concurrent.LinkedBlockingQueue;
import java.util.concurrent.ThreadPoolExecutor;
import java.util.concurrent.TimeUnit;
import java.util.concurrent.atomic.AtomicInteger;
import java.util.function.Function;

/**
 * Makes calls in the order in which they come, on one thread: the calls that wait are sent together, in one pipeline. So one
 * connection and one thread carry as many calls as a server can answer, and the thread ends when there is nothing to do.
 */
final class Lane {
    private static final int MOST_TOGETHER = 1024;
    private static final long IDLE_SECONDS = 10;

    private final ConnectionPool pool;
    private final Executor callbacks;
    private final Queue<Waiting<?, ?>> queue = new ConcurrentLinkedQueue<>();
    private final AtomicInteger count = new AtomicInteger();
    private final Executor thread;

    /** A call that waits for its turn, and then for its answer. */
    private static final class Waiting<T, R> {
        private final Request<T> request;
        private final Function<? super T, ? extends R> decoder;
        private final CompletableFuture<R> future = new CompletableFuture<>();
        private Reply<T> reply;

        private Waiting(Request<T> request, Function<? super T, ? extends R> decoder) {
            this.request = request;
            this.decoder = decoder;
        }

        private void addTo(Pipeline pipeline) {
            reply = pipeline.add(request);
        }

        /** Hands over the answer, or what came instead of it. */
        private void complete() {
            try {
                future.complete(decoder.apply(reply.get()));
            } catch (IOException e) {
                future.completeExceptionally(new UncheckedIOException(e));
            } catch (RuntimeException | Error e) {
                future.completeExceptionally(e);
            }
        }

        /** Hands over what came before a failure of all calls that were sent together, or the failure. */
        private void complete(Throwable failure) {
            if (reply != null && reply.isAnswered()) {
                complete();
            } else {
                future.completeExceptionally(failure);
            }
        }
    }

    /**
     * @param pool where the connection comes from
     * @param callbacks runs what hangs on the futures, so that it never holds the calls up
     */
    Lane(ConnectionPool pool, Executor callbacks) {
        this.pool = pool;
        this.callbacks = callbacks;
        thread = threads(1);
    }

    /** Makes so many threads at most, which end when there is nothing to do for them. What they can't do yet waits. */
    static Executor threads(int most) {
        ThreadPoolExecutor made = new ThreadPoolExecutor(most, most, IDLE_SECONDS, TimeUnit.SECONDS, new LinkedBlockingQueue<>(),
                Lane::newThread);
        made.allowCoreThreadTimeOut(true);
        return made;
    }

    private static Thread newThread(Runnable work) {
        Thread made = new Thread(work, "bpfmap-async");
        made.setDaemon(true);
        return made;
    }

    /** Takes a call. It never waits. */
    <T, R> CompletableFuture<R> submit(Request<T> request, Function<? super T, ? extends R> decoder) {
        Waiting<T, R> call = new Waiting<>(request, decoder);
        queue.add(call);
        if (count.getAndIncrement() == 0) {
            thread.execute(this::drain);
        }
        return call.future;
    }

    private void drain() {
        int taken;
        do {
            List<Waiting<?, ?>> calls = new ArrayList<>();
            for (Waiting<?, ?> call = queue.poll(); call != null; call = calls.size() < MOST_TOGETHER ? queue.poll() : null) {
                calls.add(call);
            }
            taken = calls.size();
            // A call that was cancelled before its turn is not sent.
            calls.removeIf(call -> call.future.isDone());
            make(calls);
        } while (count.addAndGet(-taken) > 0);
    }

    private void make(List<Waiting<?, ?>> calls) {
        if (calls.isEmpty()) {
            return;
        }
        // Whoever interrupted this thread meant an earlier call.
        Thread.interrupted();
        try {
            pool.use(connection -> {
                Pipeline pipeline = connection.pipeline();
                calls.forEach(call -> call.addTo(pipeline));
                pipeline.run();
                return null;
            });
            calls.forEach(call -> callbacks.execute(call::complete));
        } catch (RuntimeException | Error e) {
            calls.forEach(call -> callbacks.execute(() -> call.complete(e)));
        }
    }
}
