package bpfmap;

import java.nio.ByteBuffer;
import java.nio.ByteOrder;
import java.nio.CharBuffer;
import java.nio.charset.CharacterCodingException;
import java.nio.charset.StandardCharsets;
import java.util.Arrays;

/** The codecs of {@link Codec}. */
final class Codecs {
    static final Codec<byte[]> BYTES = new Bytes();
    static final Codec<String> STRINGS = new Strings();
    static final Codec<Long> LONGS = new Longs();
    static final Codec<Boolean> BOOLEANS = new Booleans();

    private Codecs() {}

    private static final class Bytes implements Codec<byte[]> {
        @Override
        public byte[] encode(byte[] value) {
            return value;
        }

        @Override
        public byte[] decode(byte[] bytes) {
            return bytes;
        }
    }

    private static final class Strings implements Codec<String> {
        @Override
        public byte[] encode(String value) {
            try {
                ByteBuffer bytes = StandardCharsets.UTF_8.newEncoder().encode(CharBuffer.wrap(value));
                return Arrays.copyOf(bytes.array(), bytes.limit());
            } catch (CharacterCodingException e) {
                throw new IllegalArgumentException("this string has half a surrogate pair", e);
            }
        }

        @Override
        public String decode(byte[] bytes) {
            try {
                return StandardCharsets.UTF_8.newDecoder().decode(ByteBuffer.wrap(bytes)).toString();
            } catch (CharacterCodingException e) {
                throw new IllegalArgumentException("these bytes are no UTF-8", e);
            }
        }
    }

    private static final class Longs implements Codec<Long> {
        @Override
        public byte[] encode(Long value) {
            return ByteBuffer.allocate(Long.BYTES).order(ByteOrder.LITTLE_ENDIAN).putLong(value).array();
        }

        @Override
        public Long decode(byte[] bytes) {
            if (bytes.length != Long.BYTES) {
                throw new IllegalArgumentException("a number has 8 bytes, not " + bytes.length);
            }
            return ByteBuffer.wrap(bytes).order(ByteOrder.LITTLE_ENDIAN).getLong();
        }
    }

    private static final class Booleans implements Codec<Boolean> {
        @Override
        public byte[] encode(Boolean value) {
            return new byte[] {(byte) (value ? 1 : 0)};
        }

        @Override
        public Boolean decode(byte[] bytes) {
            if (bytes.length != 1 || bytes[0] < 0 || bytes[0] > 1) {
                throw new IllegalArgumentException("a truth value is a byte 1 or 0, not " + bytes.length + " bytes");
            }
            return bytes[0] == 1;
        }
    }
}
