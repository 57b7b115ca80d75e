package bpfmap;

/**
 * Turns keys or values into bytes and back. Two keys are the same key if their bytes are equal, and so are two values.
 * What {@code decode} gives for bytes, {@code encode} must turn into the same bytes again.
 *
 * @param <T> what is turned into bytes
 */
public interface Codec<T> {
    /**
     * Turns a value into bytes.
     *
     * @param value what is sent, never null
     * @return its bytes
     */
    byte[] encode(T value);

    /**
     * Turns bytes into a value.
     *
     * @param bytes what the server has, never null
     * @return what they stand for
     * @throws IllegalArgumentException if they stand for nothing
     */
    T decode(byte[] bytes);

    /**
     * The codec of bytes as they are. It copies nothing.
     *
     * @return the codec
     */
    static Codec<byte[]> bytes() {
        return Codecs.BYTES;
    }

    /**
     * The codec of strings in UTF-8. It refuses half a surrogate pair, and bytes that are no UTF-8.
     *
     * @return the codec
     */
    static Codec<String> strings() {
        return Codecs.STRINGS;
    }

    /**
     * The codec of numbers of 64 bits, as 8 bytes, the low one first: as programs load them.
     *
     * @return the codec
     */
    static Codec<Long> longs() {
        return Codecs.LONGS;
    }

    /**
     * The codec of truth values, as a byte 1 or 0.
     *
     * @return the codec
     */
    static Codec<Boolean> booleans() {
        return Codecs.BOOLEANS;
    }
}
