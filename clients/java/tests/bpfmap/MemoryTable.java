package bpfmap;

import java.io.ByteArrayOutputStream;
import java.nio.ByteBuffer;
import java.util.ArrayList;
import java.util.Arrays;
import java.util.HexFormat;
import java.util.List;
import java.util.Map;
import java.util.TreeMap;

/**
 * A server in the memory of the tests, for faults that no socket can be made to have: a session takes bytes and gives bytes. It
 * knows the calls and the programs that the tests of faults use.
 */
final class MemoryTable {
    private static final HexFormat HEX = HexFormat.of();
    private static final byte[] ABSENT = {(byte) 0xff, (byte) 0xff};
    private static final int REFUSED_PROGRAM = 66;

    private final Map<String, byte[]> entries = new TreeMap<>();
    private final List<Program> programs = new ArrayList<>();

    /** Bytes of a session that are no whole frame yet, and its answers. */
    final class Session {
        private final ByteArrayOutputStream read = new ByteArrayOutputStream();

        /** Takes bytes; returns the answers to the requests that are whole. */
        byte[] take(byte[] bytes) {
            read.writeBytes(bytes);
            ByteArrayOutputStream answers = new ByteArrayOutputStream();
            ByteBuffer left = ByteBuffer.wrap(read.toByteArray());
            while (left.remaining() >= Integer.BYTES && left.remaining() - Integer.BYTES >= left.getInt(left.position())) {
                ByteBuffer body = left.slice(left.position() + Integer.BYTES, left.getInt(left.position()));
                left.position(left.position() + Integer.BYTES + body.remaining());
                synchronized (MemoryTable.this) {
                    answers.writeBytes(answer(body));
                }
            }
            read.reset();
            read.write(left.array(), left.position(), left.remaining());
            return answers.toByteArray();
        }
    }

    Session session() {
        return new Session();
    }

    synchronized int size() {
        return entries.size();
    }

    private byte[] answer(ByteBuffer body) {
        int tag = body.get() & 0xff;
        return switch (tag) {
            case 0x00 -> frame(Body.HELLO, new byte[] {body.get()});
            case 0x01 -> register(body);
            case 0x20, 0x21, 0x22 -> walk(tag, body);
            case 0x23 -> end(entries.size(), 0);
            default -> answerOfKey(tag, HEX.formatHex(bytes(body, body.get() & 0xff)), body);
        };
    }

    private byte[] register(ByteBuffer body) {
        int[] sizes = new int[4];
        for (int size = 0; size < sizes.length; size++) {
            sizes[size] = body.getShort() & 0xffff;
        }
        programs.add(Program.of(bytes(body, body.remaining()), new Program.Sizes(sizes[0], sizes[1], sizes[2], sizes[3])));
        return frame(Body.REGISTERED, longBytes(programs.size() - 1));
    }

    private byte[] answerOfKey(int tag, String key, ByteBuffer body) {
        byte[] old = entries.get(key);
        return switch (tag) {
            case 0x10 -> value(old);
            case 0x11 -> value(entries.put(key, field(body)));
            case 0x12 -> value(entries.putIfAbsent(key, field(body)));
            case 0x13 -> value(entries.remove(key));
            case 0x14 -> done(old != null && Arrays.equals(old, field(body)) && entries.remove(key) != null);
            case 0x15 -> value(entries.replace(key, field(body)));
            case 0x16 -> done(old != null && Arrays.equals(old, field(body)) && entries.put(key, field(body)) != null);
            case 0x1a -> merge(key, old, field(body), body.getLong());
            default -> throw new IllegalArgumentException("a tag " + tag);
        };
    }

    private byte[] merge(String key, byte[] old, byte[] given, long number) {
        if (number >= programs.size()) {
            return refused();
        }
        byte[] made = old == null ? given : run(programs.get((int) number), old, given);
        entries.put(key, made);
        return value(made);
    }

    private byte[] walk(int tag, ByteBuffer body) {
        long number = body.getLong();
        if (number >= programs.size()) {
            return refused();
        }
        ByteArrayOutputStream answers = new ByteArrayOutputStream();
        for (Map.Entry<String, byte[]> entry : entries.entrySet()) {
            byte[] key = HEX.parseHex(entry.getKey());
            byte[] made = run(programs.get((int) number), entry.getValue(), new byte[0]);
            ByteBuffer item = ByteBuffer.allocate(1 + key.length + 2 + made.length);
            item.put((byte) key.length).put(key).putShort((short) made.length).put(made);
            answers.writeBytes(frame(Body.ITEM, item.array()));
        }
        answers.writeBytes(end(entries.size(), entries.size()));
        return answers.toByteArray();
    }

    /** What a program answers: the sum, no bytes, or the old value. */
    private static byte[] run(Program program, byte[] old, byte[] argument) {
        if (program.equals(Programs.SUM)) {
            return Codec.longs().encode(Codec.longs().decode(old) + Codec.longs().decode(argument));
        }
        return program.units().length == 16 ? new byte[0] : old;
    }

    private static byte[] refused() {
        return frame(Body.REFUSED, new byte[] {REFUSED_PROGRAM, 0, 0, 0, 0});
    }

    private static byte[] end(long scanned, long given) {
        return frame(Body.END, ByteBuffer.allocate(3 * Long.BYTES).putLong(scanned).putLong(given).putLong(0).array());
    }

    private static byte[] done(boolean isDone) {
        return frame(Body.DONE, new byte[] {(byte) (isDone ? 1 : 0)});
    }

    private static byte[] value(byte[] value) {
        return frame(Body.VALUE, value == null ? ABSENT
                : ByteBuffer.allocate(2 + value.length).putShort((short) value.length).put(value).array());
    }

    private static byte[] longBytes(long number) {
        return ByteBuffer.allocate(Long.BYTES).putLong(number).array();
    }

    private static byte[] frame(int tag, byte[] fields) {
        return ByteBuffer.allocate(Integer.BYTES + 1 + fields.length).putInt(1 + fields.length).put((byte) tag).put(fields).array();
    }

    private static byte[] field(ByteBuffer body) {
        return bytes(body, body.getShort() & 0xffff);
    }

    private static byte[] bytes(ByteBuffer body, int length) {
        byte[] taken = new byte[length];
        body.get(taken);
        return taken;
    }
}
