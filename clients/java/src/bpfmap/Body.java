package bpfmap;

import java.net.ProtocolException;
import java.nio.ByteBuffer;
import java.util.HexFormat;

/** The body of a frame that the server sent: a tag and its fields, taken one after the other. */
final class Body {
    static final int HELLO = 0x80;
    static final int REGISTERED = 0x81;
    static final int VALUE = 0x82;
    static final int DONE = 0x83;
    static final int UNFIT = 0x84;
    static final int REFUSED = 0x85;
    static final int ITEM = 0x86;
    static final int END = 0x87;

    private static final int ABSENT = 0xffff;

    private final byte[] bytes;
    private final ByteBuffer fields;
    private final int tag;

    /** The bytes have at least a tag. */
    Body(byte[] bytes) {
        this.bytes = bytes;
        fields = ByteBuffer.wrap(bytes);
        tag = fields.get() & 0xff;
    }

    int tag() {
        return tag;
    }

    int takeByte() throws ProtocolException {
        return take(1).get() & 0xff;
    }

    long takeLong() throws ProtocolException {
        return take(Long.BYTES).getLong();
    }

    byte[] takeKey() throws ProtocolException {
        return takeBytes(takeByte());
    }

    /** A value, or null if there is none. */
    byte[] takeValueOrNothing() throws ProtocolException {
        int length = take(2).getShort() & 0xffff;
        return length == ABSENT ? null : takeBytes(length);
    }

    byte[] takeValue() throws ProtocolException {
        byte[] value = takeValueOrNothing();
        if (value == null) {
            throw fault("a value is missing");
        }
        return value;
    }

    /** What the server refused. */
    RefusedException takeRefusal() throws ProtocolException {
        int number = takeByte();
        long place = take(Integer.BYTES).getInt() & 0xffff_ffffL;
        expectEnd();
        return new RefusedException(number, place);
    }

    /** What did not fit. */
    UnfitException takeUnfit() throws ProtocolException {
        int window = takeByte();
        expectEnd();
        UnfitException.Window[] windows = UnfitException.Window.values();
        if (window < 1 || window > windows.length) {
            throw fault("no window has the number " + window);
        }
        return new UnfitException(windows[window - 1]);
    }

    void expectEnd() throws ProtocolException {
        if (fields.hasRemaining()) {
            throw fault("bytes stand behind its last field");
        }
    }

    ProtocolException fault(String what) {
        return new ProtocolException("the server sent " + HexFormat.of().formatHex(bytes) + ": " + what);
    }

    private byte[] takeBytes(int length) throws ProtocolException {
        byte[] taken = new byte[length];
        take(length).get(taken);
        return taken;
    }

    /** The fields, of which at least so many bytes are left. */
    private ByteBuffer take(int length) throws ProtocolException {
        if (fields.remaining() < length) {
            throw fault("a field is cut short");
        }
        return fields;
    }
}
