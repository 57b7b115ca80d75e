package bpfmap;

import java.nio.BufferUnderflowException;
import java.nio.ByteBuffer;
import java.nio.ByteOrder;
import java.nio.charset.StandardCharsets;
import java.util.ArrayList;
import java.util.Arrays;
import java.util.List;

/** An object file that clang made for BPF: one function, {@code program}, and nothing beside it. */
final class ObjectFile {
    private static final byte[] MAGIC = {0x7f, 'E', 'L', 'F'};
    private static final byte[] CLASS_AND_ORDER = {2, 1};
    private static final int MACHINE_AT = 18;
    private static final int BPF = 247;
    private static final int HEADERS_AT = 40;
    private static final int HEADER_SIZE_AT = 58;
    private static final int HEADER_SIZE = 64;
    private static final int SYMBOL_SIZE = 24;
    private static final int SYMBOLS = 2;
    private static final int RELOCATIONS_WITH_ADDENDS = 4;
    private static final int RELOCATIONS = 9;
    private static final long LOADED = 2;
    private static final int FUNCTION = 2;
    private static final int KIND = 15;

    private final ByteBuffer content;
    private final List<Section> sections = new ArrayList<>();
    private final List<Symbol> symbols = new ArrayList<>();

    /** A header of a section; the name is an offset among the names of sections. */
    private record Section(long name, int kind, long flags, long offset, long size, long link, long info) {}

    private record Symbol(String name, int kind) {}

    private ObjectFile(byte[] bytes) {
        content = ByteBuffer.wrap(bytes).order(ByteOrder.LITTLE_ENDIAN);
    }

    /** Whether this is an object file, of whatever kind. */
    static boolean isOne(byte[] bytes) {
        return bytes.length >= MAGIC.length && Arrays.equals(bytes, 0, MAGIC.length, MAGIC, 0, MAGIC.length);
    }

    /** The instructions of the one function. */
    static byte[] instructions(byte[] bytes) {
        try {
            return new ObjectFile(bytes).read();
        } catch (IndexOutOfBoundsException | BufferUnderflowException e) {
            throw new ObjectFaultException("the object file is cut short");
        }
    }

    private byte[] read() {
        byte[] bytes = content.array();
        int known = MAGIC.length;
        if (!isOne(bytes) || !Arrays.equals(bytes, known, known + 2, CLASS_AND_ORDER, 0, 2)) {
            throw new ObjectFaultException("this is no object file of 64 bits, little-endian");
        }
        int machine = content.getShort(MACHINE_AT) & 0xffff;
        if (machine != BPF) {
            throw new ObjectFaultException("the object is for machine " + machine
                    + ", not for BPF: compile with clang -target bpf");
        }
        long names = readSections();
        readSymbols();
        Section text = sections.stream().filter(section -> text(names + section.name).equals(".text")).findFirst()
                .orElseThrow(() -> new ObjectFaultException("the object has no instructions"));
        sections.forEach(section -> checkSection(section, text, names));
        checkFunctions();
        return Arrays.copyOfRange(bytes, index(text.offset), index(text.offset + text.size));
    }

    /** Reads the headers of sections. Returns where their names are. */
    private long readSections() {
        long headers = content.getLong(HEADERS_AT);
        int size = content.getShort(HEADER_SIZE_AT) & 0xffff;
        int count = content.getShort(HEADER_SIZE_AT + 2) & 0xffff;
        int names = content.getShort(HEADER_SIZE_AT + 4) & 0xffff;
        for (int section = 0; section < count; section++) {
            ByteBuffer header = at(headers + (long) section * size, HEADER_SIZE);
            long name = header.getInt() & 0xffff_ffffL;
            int kind = header.getInt();
            long flags = header.getLong();
            header.getLong();
            sections.add(new Section(name, kind, flags, header.getLong(), header.getLong(), header.getInt() & 0xffff_ffffL,
                    header.getInt() & 0xffff_ffffL));
        }
        if (names >= count) {
            throw new ObjectFaultException("the object has no names of sections");
        }
        return sections.get(names).offset;
    }

    private void readSymbols() {
        Section table = sections.stream().filter(section -> section.kind == SYMBOLS && section.link < sections.size()).findFirst()
                .orElseThrow(() -> new ObjectFaultException("the object has no symbols"));
        long names = sections.get((int) table.link).offset;
        for (long symbol = 0; symbol < table.size; symbol += SYMBOL_SIZE) {
            ByteBuffer fields = at(table.offset + symbol, SYMBOL_SIZE);
            String name = text(names + (fields.getInt() & 0xffff_ffffL));
            symbols.add(new Symbol(name, fields.get() & KIND));
        }
    }

    private void checkSection(Section section, Section text, long names) {
        boolean isRelocation = section.kind == RELOCATIONS || section.kind == RELOCATIONS_WITH_ADDENDS;
        if (isRelocation && section.info == sections.indexOf(text) && section.size > 0) {
            throw new ObjectFaultException("the object has a relocation, of '" + relocated(section)
                    + "': a program calls nothing and has no data");
        }
        if ((section.flags & LOADED) != 0 && section.size > 0 && !section.equals(text)) {
            throw new ObjectFaultException("the object has a section '" + text(names + section.name)
                    + "', which can't be carried along with the instructions");
        }
    }

    /** The name that the first relocation of a section needs. */
    private String relocated(Section section) {
        long symbol = at(section.offset + Long.BYTES, Long.BYTES).getLong() >>> Integer.SIZE;
        return symbol < symbols.size() ? symbols.get((int) symbol).name : "";
    }

    private void checkFunctions() {
        List<String> functions = symbols.stream().filter(symbol -> symbol.kind == FUNCTION).map(Symbol::name).toList();
        functions.stream().filter(name -> !name.equals("program")).findFirst().ifPresent(name -> {
            throw new ObjectFaultException("the object has a function '" + name + "' beside the program: make it ALWAYS_INLINE");
        });
        if (functions.isEmpty()) {
            throw new ObjectFaultException("there is no PROGRAM in the object");
        }
    }

    /** So many bytes from an offset on. */
    private ByteBuffer at(long offset, int length) {
        return content.slice(index(offset), length).order(ByteOrder.LITTLE_ENDIAN);
    }

    private int index(long offset) {
        if (offset < 0 || offset > content.limit()) {
            throw new IndexOutOfBoundsException();
        }
        return (int) offset;
    }

    private String text(long offset) {
        int start = index(offset);
        int end = start;
        while (content.get(end) != 0) {
            end++;
        }
        return new String(content.array(), start, end - start, StandardCharsets.UTF_8);
    }
}
