package bpfmap;

import java.util.Map;
import java.util.Spliterator;
import java.util.function.Consumer;
import java.util.function.Function;

/** The walks of a map. Those of views need all entries: if version 1 does not carry the value of one, that is refused with 65. */
final class WalkSources<K, V> {
    private final ConnectionPool pool;
    private final Coder<K, V> coder;
    private final Consumer<byte[]> remover;
    private final WalkPrograms programs;

    /**
     * @param pool where the connections of walks come from
     * @param coder what items stand for
     * @param remover removes a key from the map
     */
    WalkSources(ConnectionPool pool, Coder<K, V> coder, Consumer<byte[]> remover) {
        this.pool = pool;
        this.coder = coder;
        this.remover = remover;
        programs = WalkPrograms.of(pool.version());
    }

    WalkSource<K> keys() {
        return ofAll(programs.keys(), coder::key, Spliterator.DISTINCT);
    }

    WalkSource<V> values() {
        return ofAll(programs.entries(), coder::value, 0);
    }

    /** Entries whose {@code setValue} puts into the map. */
    WalkSource<Map.Entry<K, V>> entries(RemoteMap<K, V> map) {
        return ofAll(programs.entries(), item -> new PuttingEntry<>(map, coder.key(item), coder.value(item)), Spliterator.DISTINCT);
    }

    WalkSource<byte[]> rawKeys() {
        return ofAll(programs.keys(), Map.Entry::getKey, 0);
    }

    WalkSource<byte[]> rawValues() {
        return ofAll(programs.entries(), Map.Entry::getValue, 0);
    }

    /** The answers of a program. */
    <R> WalkSource<Map.Entry<K, R>> answers(long threshold, Program program, byte[] argument, Codec<R> answers) {
        Request<Walk<byte[], byte[]>> request = Request.forEach(program, coder.argumentOf(argument), threshold);
        return new WalkSource<>(() -> pool.walk(request), item -> coder.decoded(item, answers), remover, false,
                Spliterator.DISTINCT);
    }

    private <T> WalkSource<T> ofAll(Program program, Function<Map.Entry<byte[], byte[]>, T> decoder, int characteristics) {
        Request<Walk<byte[], byte[]>> request = Request.forEach(program, null, Long.MAX_VALUE);
        return new WalkSource<>(() -> pool.walk(request), decoder, remover, true, characteristics);
    }
}
