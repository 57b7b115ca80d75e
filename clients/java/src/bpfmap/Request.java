package bpfmap;

import java.io.IOException;
import java.nio.ByteBuffer;
import java.util.Arrays;
import java.util.Objects;

/**
 * A request of docs/PROTOCOL.md as a frame, with how its answer is read. What no frame can hold is refused here, and nothing is
 * sent: a key, value or argument that is too long by {@link TooLongException}. What version 1 alone does not carry is refused by a
 * connection of that version.
 *
 * <p>A request with a program names the {@link Program} itself, which each connection registers at its first use. A number, by
 * {@link Connection#numberOf}, does for the connection that gave it.
 *
 * @param <T> the answer; null stands for nothing
 */
public final class Request<T> {
    static final int LONGEST_KEY = 64;

    private static final Field ABSENT = new Field(new byte[] {(byte) 0xff, (byte) 0xff});

    private final byte[] frame;
    private final Reading<T> reading;
    private final int longestValue;
    private final Program registered;
    private final ProgramName program;
    private final int programAt;

    /** A field as a frame has it, with the length of the value that it brings, and the program whose number it is. */
    private record Field(byte[] bytes, int valueLength, ProgramName program) {
        Field(byte[] bytes) {
            this(bytes, 0, null);
        }
    }

    /** Reads an answer from the bodies of its frames. */
    private interface Reading<T> {
        T read(Answers.Bodies bodies) throws IOException;
    }

    private Request(Reading<T> reading, int tag, Field... fields) {
        this(reading, null, tag, fields);
    }

    private Request(Reading<T> reading, Program registered, int tag, Field... fields) {
        int length = 1 + Arrays.stream(fields).mapToInt(field -> field.bytes.length).sum();
        ByteBuffer bytes = ByteBuffer.allocate(Integer.BYTES + length).putInt(length).put((byte) tag);
        ProgramName named = null;
        int namedAt = 0;
        for (Field field : fields) {
            if (field.program != null) {
                named = field.program;
                namedAt = bytes.position();
            }
            bytes.put(field.bytes);
        }
        this.frame = bytes.array();
        this.reading = reading;
        this.registered = registered;
        program = named;
        programAt = namedAt;
        longestValue = Arrays.stream(fields).mapToInt(Field::valueLength).max().orElse(0);
    }

    /** Throws if a version does not carry this request. No other than Register has a body that is too long. */
    void check(Version version) {
        checkValue(longestValue, version);
        if (registered != null) {
            registered.check(version);
        }
    }

    private static void checkValue(int length, Version version) {
        if (length > version.longestValue()) {
            throw new TooLongException("value", length, version.longestValue());
        }
    }

    /** The program that it calls, or null. */
    ProgramName program() {
        return program;
    }

    /** The program that it registers, or null. */
    Program registered() {
        return registered;
    }

    /** The frame of a request that calls no program. */
    byte[] frame() {
        return frame;
    }

    /** The frame, if its program has this number at the server. */
    byte[] frame(long number) {
        byte[] numbered = frame.clone();
        ByteBuffer.wrap(numbered).putLong(programAt, number);
        return numbered;
    }

    /** Reads this request's whole answer; throws what the server refused, or what did not fit. */
    T read(Answers.Bodies bodies) throws IOException {
        return reading.read(bodies);
    }

    /** Begins a session; it is answered with the same version. */
    static Request<Integer> hello(Version spoken) {
        return new Request<>(bodies -> Answers.readHello(bodies, spoken), 0x00, new Field(new byte[] {(byte) spoken.number()}));
    }

    /**
     * Registers a program, and tells the server's own number for it, which another connection may {@link Connection#adopt adopt}.
     * You need this for nothing else: a request that names its {@link Program} registers it.
     *
     * @param program the program to be verified and registered
     * @return a request whose answer is its number
     * @throws RefusedException if it is longer than a frame can hold: 11 or 12, as the server would say
     */
    public static Request<Long> register(Program program) {
        byte[] units = program.units();
        program.check(Version.TWO);
        Program.Sizes sizes = program.sizes();
        ByteBuffer declared = ByteBuffer.allocate(4 * Short.BYTES).putShort((short) sizes.key())
                .putShort((short) sizes.oldValue()).putShort((short) sizes.argument()).putShort((short) sizes.result());
        return new Request<>(Answers::readNumber, program, 0x01, new Field(declared.array()), new Field(units));
    }

    /**
     * Gets a value.
     *
     * @param key the key
     * @return a request for its value
     */
    public static Request<byte[]> get(byte[] key) {
        return new Request<>(Answers::readValue, 0x10, keyField(key));
    }

    /**
     * Puts a value.
     *
     * @param key the key
     * @param value its new value
     * @return a request for the value before
     */
    public static Request<byte[]> put(byte[] key, byte[] value) {
        return new Request<>(Answers::readValue, 0x11, keyField(key), valueField(value));
    }

    /**
     * Puts a value if there is none.
     *
     * @param key the key
     * @param value its value, if it has none
     * @return a request for the value that it has, or nothing
     */
    public static Request<byte[]> putIfAbsent(byte[] key, byte[] value) {
        return new Request<>(Answers::readValue, 0x12, keyField(key), valueField(value));
    }

    /**
     * Removes a key.
     *
     * @param key the key
     * @return a request for the value that was removed
     */
    public static Request<byte[]> remove(byte[] key) {
        return new Request<>(Answers::readValue, 0x13, keyField(key));
    }

    /**
     * Removes a key if it has this value.
     *
     * @param key the key
     * @param expected the value with which it is removed
     * @return a request for whether it was
     */
    public static Request<Boolean> removeIf(byte[] key, byte[] expected) {
        return new Request<>(Answers::readDone, 0x14, keyField(key), valueField(expected));
    }

    /**
     * Replaces a value, if there is one.
     *
     * @param key the key
     * @param value its new value, if it has one
     * @return a request for the value before
     */
    public static Request<byte[]> replace(byte[] key, byte[] value) {
        return new Request<>(Answers::readValue, 0x15, keyField(key), valueField(value));
    }

    /**
     * Replaces a value, if it is this one.
     *
     * @param key the key
     * @param expected the value that is replaced
     * @param value the new one
     * @return a request for whether it was
     */
    public static Request<Boolean> replaceIf(byte[] key, byte[] expected, byte[] value) {
        return new Request<>(Answers::readDone, 0x16, keyField(key), valueField(expected), valueField(value));
    }

    /**
     * The program's answer becomes the key's value. If it answers nothing, the key is removed.
     *
     * @param key the key
     * @param program the program
     * @param argument its argument, or null for none
     * @return a request for the new value
     */
    public static Request<byte[]> compute(byte[] key, Program program, byte[] argument) {
        return compute(key, named(program), argument);
    }

    /**
     * The same by a number that the connection has given.
     *
     * @param key the key
     * @param program the program's number
     * @param argument its argument, or null for none
     * @return a request for the new value
     */
    public static Request<byte[]> compute(byte[] key, long program, byte[] argument) {
        return compute(key, named(program), argument);
    }

    private static Request<byte[]> compute(byte[] key, Field program, byte[] argument) {
        return new Request<>(Answers::readComputed, 0x17, keyField(key), program, argumentField(argument));
    }

    /**
     * If the key has no value, the program's answer becomes its value.
     *
     * @param key the key
     * @param program the program
     * @param argument its argument, or null for none
     * @return a request for the value that the key then has
     */
    public static Request<byte[]> computeIfAbsent(byte[] key, Program program, byte[] argument) {
        return computeIfAbsent(key, named(program), argument);
    }

    /**
     * The same by a number that the connection has given.
     *
     * @param key the key
     * @param program the program's number
     * @param argument its argument, or null for none
     * @return a request for the value that the key then has
     */
    public static Request<byte[]> computeIfAbsent(byte[] key, long program, byte[] argument) {
        return computeIfAbsent(key, named(program), argument);
    }

    private static Request<byte[]> computeIfAbsent(byte[] key, Field program, byte[] argument) {
        return new Request<>(Answers::readComputed, 0x18, keyField(key), program, argumentField(argument));
    }

    /**
     * If the key has a value, the program's answer becomes its value. If it answers nothing, the key is removed.
     *
     * @param key the key
     * @param program the program
     * @param argument its argument, or null for none
     * @return a request for the value that the key then has
     */
    public static Request<byte[]> computeIfPresent(byte[] key, Program program, byte[] argument) {
        return computeIfPresent(key, named(program), argument);
    }

    /**
     * The same by a number that the connection has given.
     *
     * @param key the key
     * @param program the program's number
     * @param argument its argument, or null for none
     * @return a request for the value that the key then has
     */
    public static Request<byte[]> computeIfPresent(byte[] key, long program, byte[] argument) {
        return computeIfPresent(key, named(program), argument);
    }

    private static Request<byte[]> computeIfPresent(byte[] key, Field program, byte[] argument) {
        return new Request<>(Answers::readComputed, 0x19, keyField(key), program, argumentField(argument));
    }

    /**
     * If the key has no value, this one is put. Else the program's answer becomes its value.
     *
     * @param key the key
     * @param value its value, or the program's argument
     * @param program the program
     * @return a request for the value that the key then has
     */
    public static Request<byte[]> merge(byte[] key, byte[] value, Program program) {
        return merge(key, value, named(program));
    }

    /**
     * The same by a number that the connection has given.
     *
     * @param key the key
     * @param value its value, or the program's argument
     * @param program the program's number
     * @return a request for the value that the key then has
     */
    public static Request<byte[]> merge(byte[] key, byte[] value, long program) {
        return merge(key, value, named(program));
    }

    private static Request<byte[]> merge(byte[] key, byte[] value, Field program) {
        return new Request<>(Answers::readComputed, 0x1a, keyField(key), valueField(value), program);
    }

    /**
     * The program runs on entries until the least key is known for which it answers.
     *
     * @param program the program
     * @param argument its argument, or null for none
     * @param threshold from how many entries on more than one thread may walk, as an unsigned number
     * @return a request for its answer at the least key that has one
     */
    public static Request<Walk<byte[], byte[]>> search(Program program, byte[] argument, long threshold) {
        return new Request<>(Answers::readWalk, 0x20, named(program), argumentField(argument), threshold(threshold));
    }

    /**
     * The same by a number that the connection has given.
     *
     * @param program the program's number
     * @param argument its argument, or null for none
     * @param threshold from how many entries on more than one thread may walk, as an unsigned number
     * @return a request for its answer at the least key that has one
     */
    public static Request<Walk<byte[], byte[]>> search(long program, byte[] argument, long threshold) {
        return new Request<>(Answers::readWalk, 0x20, named(program), argumentField(argument), threshold(threshold));
    }

    /**
     * The program runs on each entry.
     *
     * @param program the program
     * @param argument its argument, or null for none
     * @param threshold from how many entries on more than one thread may walk, as an unsigned number
     * @return a request for all its answers
     */
    public static Request<Walk<byte[], byte[]>> forEach(Program program, byte[] argument, long threshold) {
        return new Request<>(Answers::readWalk, 0x21, named(program), argumentField(argument), threshold(threshold));
    }

    /**
     * The same by a number that the connection has given.
     *
     * @param program the program's number
     * @param argument its argument, or null for none
     * @param threshold from how many entries on more than one thread may walk, as an unsigned number
     * @return a request for all its answers
     */
    public static Request<Walk<byte[], byte[]>> forEach(long program, byte[] argument, long threshold) {
        return new Request<>(Answers::readWalk, 0x21, named(program), argumentField(argument), threshold(threshold));
    }

    /**
     * The program runs on each entry, and its answer becomes the key's value.
     *
     * @param program the program
     * @param argument its argument, or null for none
     * @return a request for the counts
     */
    public static Request<Counts> replaceAll(Program program, byte[] argument) {
        return new Request<>(Answers::readCounts, 0x22, named(program), argumentField(argument));
    }

    /**
     * The same by a number that the connection has given.
     *
     * @param program the program's number
     * @param argument its argument, or null for none
     * @return a request for the counts
     */
    public static Request<Counts> replaceAll(long program, byte[] argument) {
        return new Request<>(Answers::readCounts, 0x22, named(program), argumentField(argument));
    }

    /**
     * Counts the entries.
     *
     * @return a request for the number of entries
     */
    public static Request<Counts> count() {
        return new Request<>(Answers::readCounts, 0x23);
    }

    /** The key, if it isn't too long. */
    static byte[] checkKey(byte[] key) {
        if (key.length > LONGEST_KEY) {
            throw new TooLongException("key", key.length, LONGEST_KEY);
        }
        return key;
    }

    /** The value or argument, if it isn't too long for a version. */
    static byte[] checkValue(byte[] value, Version version) {
        checkValue(value.length, version);
        return value;
    }

    private static Field keyField(byte[] key) {
        return new Field(ByteBuffer.allocate(1 + key.length).put((byte) checkKey(key).length).put(key).array());
    }

    private static Field valueField(byte[] value) {
        checkValue(value.length, Version.TWO);
        ByteBuffer bytes = ByteBuffer.allocate(2 + value.length).putShort((short) value.length).put(value);
        return new Field(bytes.array(), value.length, null);
    }

    private static Field argumentField(byte[] argument) {
        return argument == null ? ABSENT : valueField(argument);
    }

    private static Field threshold(long threshold) {
        return new Field(ByteBuffer.allocate(Long.BYTES).putLong(threshold).array());
    }

    private static Field named(Program program) {
        return new Field(new byte[Long.BYTES], 0, new ProgramName(Objects.requireNonNull(program), 0));
    }

    private static Field named(long number) {
        return new Field(new byte[Long.BYTES], 0, new ProgramName(null, number));
    }
}
