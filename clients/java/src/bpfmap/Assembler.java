package bpfmap;

import java.io.ByteArrayOutputStream;
import java.util.HashMap;
import java.util.List;
import java.util.Map;

/** Turns the text of docs/PROGRAMS.md into a program's bytes. The first faulty line's first fault is thrown, 20 to 24. */
final class Assembler {
    static final int UNKNOWN_NAME = 20;
    static final int BAD_OPERAND = 21;
    static final int OUT_OF_RANGE = 22;
    static final int TRAILING = 23;
    static final int BAD_COUNT = 24;

    private static final int MOST_BYTES = 4096 * 8;

    private static final List<String> CHANGES =
            List.of("add", "sub", "mul", "div", "or", "and", "lsh", "rsh", "", "mod", "xor", "mov", "arsh");
    private static final List<String> CONDITIONS =
            List.of("", "jeq", "jgt", "jge", "jset", "jne", "jsgt", "jsge", "", "", "jlt", "jle", "jslt", "jsle");
    private static final Map<String, Integer> SIZES = Map.of("b", 0x10, "h", 0x08, "w", 0x00, "d", 0x18);
    private static final Map<String, Integer> ORDERS = Map.of("le", 0xd4, "be", 0xdc, "swap", 0xd7);
    private static final Map<String, Instruction> INSTRUCTIONS = instructions();

    private Assembler() {}

    /**
     * What a name gives.
     *
     * @param operands what stands after the name: d and s for registers, a for a register or a number, and so on; see {@link Line}
     * @param opcode the opcode
     * @param offset the offset
     * @param number the number
     */
    record Instruction(String operands, int opcode, int offset, int number) {
        private Instruction(String operands, int opcode) {
            this(operands, opcode, 0, 0);
        }
    }

    static byte[] assemble(String text) {
        if (text.isEmpty()) {
            throw new RefusedException(BAD_COUNT, 0);
        }
        ByteArrayOutputStream units = new ByteArrayOutputStream();
        int start = 0;
        for (int place = 1; start < text.length(); place++) {
            int end = text.indexOf('\n', start);
            Line line = new Line(text.substring(start, end < 0 ? text.length() : end), place);
            units.writeBytes(line.read(INSTRUCTIONS));
            if (end < 0) {
                throw line.fault(TRAILING);
            }
            if (units.size() > MOST_BYTES) {
                throw line.fault(BAD_COUNT);
            }
            start = end + 1;
        }
        return units.toByteArray();
    }

    private static Map<String, Instruction> instructions() {
        Map<String, Instruction> names = new HashMap<>();
        names.put("exit", new Instruction("", 0x95));
        names.put("ja", new Instruction(" +", 0x05));
        names.put("jal", new Instruction(" *", 0x06));
        names.put("wide", new Instruction(" d,w", Line.WIDE));
        putArithmetic(names);
        putConditions(names);
        putOrders(names);
        putMoves(names);
        return names;
    }

    private static void putArithmetic(Map<String, Instruction> names) {
        for (int code = 0; code < CHANGES.size(); code++) {
            names.put(CHANGES.get(code) + "32", new Instruction(" d,a", 16 * code + 0x04));
            names.put(CHANGES.get(code) + "64", new Instruction(" d,a", 16 * code + 0x07));
        }
        names.remove("32");
        names.remove("64");
        names.put("neg32", new Instruction(" d", 0x84));
        names.put("neg64", new Instruction(" d", 0x87));
        names.put("sdiv32", new Instruction(" d,a", 0x34, 1, 0));
        names.put("sdiv64", new Instruction(" d,a", 0x37, 1, 0));
        names.put("smod32", new Instruction(" d,a", 0x94, 1, 0));
        names.put("smod64", new Instruction(" d,a", 0x97, 1, 0));
    }

    private static void putConditions(Map<String, Instruction> names) {
        for (int code = 0; code < CONDITIONS.size(); code++) {
            names.put(CONDITIONS.get(code) + "64", new Instruction(" d,a,+", 16 * code + 0x05));
            names.put(CONDITIONS.get(code) + "32", new Instruction(" d,a,+", 16 * code + 0x06));
        }
        names.remove("64");
        names.remove("32");
    }

    private static void putOrders(Map<String, Instruction> names) {
        ORDERS.forEach((name, opcode) -> {
            for (int bits : new int[] {16, 32, 64}) {
                names.put(name + bits, new Instruction(" d", opcode, 0, bits));
            }
        });
        for (int bits : new int[] {8, 16}) {
            names.put("sx" + bits + "to32", new Instruction(" d,s", 0xbc, bits, 0));
        }
        for (int bits : new int[] {8, 16, 32}) {
            names.put("sx" + bits + "to64", new Instruction(" d,s", 0xbf, bits, 0));
        }
    }

    private static void putMoves(Map<String, Instruction> names) {
        SIZES.forEach((letter, size) -> {
            names.put("ld" + letter, new Instruction(" d,[s+]", 0x61 + size));
            names.put("st" + letter, new Instruction(" [d+],i", 0x62 + size));
            names.put("stx" + letter, new Instruction(" [d+],s", 0x63 + size));
            if (!letter.equals("d")) {
                names.put("lds" + letter, new Instruction(" d,[s+]", 0x81 + size));
            }
        });
    }
}
