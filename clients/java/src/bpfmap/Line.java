package bpfmap;

import java.math.BigInteger;
import java.nio.ByteBuffer;
import java.nio.ByteOrder;
import java.util.Map;

/** A line of a program's text, read from left to right. Its first fault is thrown. */
final class Line {
    static final int WIDE = 0x18;

    private static final int UNIT = 8;
    private static final int REGISTER_FORM = 0x08;
    private static final int LAST_REGISTER = 10;
    /** No number has more digits; longer ones are out of range. */
    private static final int MOST_DIGITS = 20;

    private final String text;
    private final int place;
    private int at;
    private int opcode;
    private int target;
    private int source;
    private int offset;
    private int number;
    private int upper;

    Line(String text, int place) {
        this.text = text;
        this.place = place;
    }

    /** A refusal at this line. */
    RefusedException fault(int refusal) {
        return RefusedException.ofLine(refusal, place, text);
    }

    /** The instruction's bytes. */
    byte[] read(Map<String, Assembler.Instruction> instructions) {
        int blank = text.indexOf(' ');
        String name = blank < 0 ? text : text.substring(0, blank);
        Assembler.Instruction named = instructions.get(name);
        if (named == null) {
            throw fault(Assembler.UNKNOWN_NAME);
        }
        opcode = named.opcode();
        offset = named.offset();
        number = named.number();
        at = name.length();
        named.operands().chars().forEach(this::operand);
        if (at < text.length()) {
            throw fault(Assembler.TRAILING);
        }
        return bytes();
    }

    private byte[] bytes() {
        ByteBuffer units = ByteBuffer.allocate(opcode == WIDE ? 2 * UNIT : UNIT).order(ByteOrder.LITTLE_ENDIAN);
        units.put((byte) opcode).put((byte) (source << 4 | target)).putShort((short) offset).putInt(number);
        if (opcode == WIDE) {
            units.putInt(0).putInt(upper);
        }
        return units.array();
    }

    private void operand(int kind) {
        switch (kind) {
            case ' ', '[', ']' -> sign(Character.toString(kind));
            case ',' -> sign(", ");
            case 'd' -> target = register();
            case 's' -> source = register();
            case 'i' -> number = immediate();
            case 'a' -> registerOrNumber();
            case 'w' -> wide();
            case '+' -> offset = distance(Short.SIZE - 1);
            case '*' -> number = distance(Integer.SIZE - 1);
            default -> throw new AssertionError(kind);
        }
    }

    private void registerOrNumber() {
        if (text.startsWith("r", at)) {
            opcode += REGISTER_FORM;
            source = register();
        } else {
            number = immediate();
        }
    }

    private void wide() {
        long value = signed(false, Long.SIZE);
        number = (int) value;
        upper = (int) (value >>> Integer.SIZE);
    }

    private int immediate() {
        return (int) signed(text.startsWith("-", at), Integer.SIZE - 1);
    }

    /** A number that always has a sign. */
    private int distance(int bits) {
        boolean isNegative = text.startsWith("-", at);
        if (!isNegative) {
            sign("+");
        }
        return (int) signed(isNegative, bits);
    }

    private void sign(String wanted) {
        if (!text.startsWith(wanted, at)) {
            throw fault(Assembler.BAD_OPERAND);
        }
        at += wanted.length();
    }

    private int register() {
        sign("r");
        String digits = digits();
        if (digits.length() > 2 || Integer.parseInt(digits) > LAST_REGISTER) {
            throw fault(Assembler.OUT_OF_RANGE);
        }
        return Integer.parseInt(digits);
    }

    /** A number below 2 to the power of {@code bits}; a negative one may be that number less. */
    private long signed(boolean isNegative, int bits) {
        if (isNegative) {
            sign("-");
        }
        String digits = digits();
        if (isNegative && digits.equals("0")) {
            throw fault(Assembler.BAD_OPERAND);
        }
        BigInteger limit = BigInteger.ONE.shiftLeft(bits).subtract(isNegative ? BigInteger.ZERO : BigInteger.ONE);
        if (digits.length() > MOST_DIGITS || new BigInteger(digits).compareTo(limit) > 0) {
            throw fault(Assembler.OUT_OF_RANGE);
        }
        long value = Long.parseUnsignedLong(digits);
        return isNegative ? -value : value;
    }

    private String digits() {
        int start = at;
        while (at < text.length() && text.charAt(at) >= '0' && text.charAt(at) <= '9') {
            at++;
        }
        String digits = text.substring(start, at);
        if (digits.isEmpty() || digits.length() > 1 && digits.charAt(0) == '0') {
            throw fault(Assembler.BAD_OPERAND);
        }
        return digits;
    }
}
