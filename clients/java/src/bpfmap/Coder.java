package bpfmap;

import java.util.ArrayList;
import java.util.List;
import java.util.Map;
import java.util.Objects;

/**
 * Turns a map's keys, values and arguments into the bytes of requests, and answers back.
 *
 * @param keys the codec of keys
 * @param values the codec of values
 * @param version the version whose limits hold
 */
record Coder<K, V>(Codec<K> keys, Codec<V> values, Version version) {
    Coder {
        Objects.requireNonNull(keys);
        Objects.requireNonNull(values);
    }

    @SuppressWarnings("unchecked")
    byte[] keyOf(Object key) {
        return Request.checkKey(keys.encode((K) Objects.requireNonNull(key)));
    }

    @SuppressWarnings("unchecked")
    byte[] valueOf(Object value) {
        return Request.checkValue(values.encode((V) Objects.requireNonNull(value)), version);
    }

    byte[] argumentOf(byte[] argument) {
        return argument == null ? null : Request.checkValue(argument, version);
    }

    V decoded(byte[] value) {
        return value == null ? null : values.decode(value);
    }

    K key(Map.Entry<byte[], byte[]> item) {
        return keys.decode(item.getKey());
    }

    V value(Map.Entry<byte[], byte[]> item) {
        return values.decode(item.getValue());
    }

    <R> Map.Entry<K, R> decoded(Map.Entry<byte[], byte[]> item, Codec<R> answers) {
        return Map.entry(keys.decode(item.getKey()), answers.decode(item.getValue()));
    }

    <R> Walk<K, R> decoded(Walk<byte[], byte[]> walk, Codec<R> answers) {
        List<Map.Entry<K, R>> items = new ArrayList<>();
        for (Map.Entry<byte[], byte[]> item : walk.items()) {
            items.add(decoded(item, answers));
        }
        return new Walk<>(items, walk.counts());
    }
}
