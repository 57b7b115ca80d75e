package bpfmap;

import java.util.Map;

/**
 * The server refused a request; nothing was done, unless the number is 65. That one comes in version 1 alone, in place of an
 * answer whose value is too long for it: the call was made, and its change stands. 20 to 24 refuse a program's text, here and
 * before anything is sent. Numbers and sentences are those of docs/REFUSALS.md and, of 60 to 64, of docs/PROTOCOL.md.
 */
public final class RefusedException extends RuntimeException {
    private static final long serialVersionUID = 1;

    static final int NO_MEMORY = 9;
    static final int NOT_WHOLE_UNITS = 11;
    static final int TOO_MANY_UNITS = 12;
    static final int VALUE_TOO_LONG = 65;
    private static final int WRONG_VERSION = 64;
    private static final int FIRST_OF_UNITS = 10;
    private static final int FIRST_OF_LINES = 20;
    private static final int LAST_OF_LINES = 24;
    private static final int LAST_OF_UNITS = 47;
    private static final int FIRST_OF_FRAMES = 60;
    private static final int LAST_OF_FRAMES = 64;

    private static final Map<Integer, String[]> MEANINGS = Map.ofEntries(
            meaning(9, "NoMemory", "a request for memory was refused"),
            meaning(10, "Empty", "there is no byte"),
            meaning(11, "NotWholeUnits", "the number of bytes is no multiple of 8"),
            meaning(12, "TooManyUnits", "there are more than 4,096 units (in version 1 of the protocol 512)"),
            meaning(13, "UnknownOpcode", "the opcode is no instruction's"),
            meaning(14, "BadRegister", "a register field that the instruction uses is above 10"),
            meaning(15, "UnusedNotZero", "a field that the instruction doesn't use is not zero"),
            meaning(16, "BadWidth", "an offset of DIV or MOD other than 0 and 1, one of MOV with a register that is none of "
                    + "0, 8, 16 (and 32 at 64 bits), an END of other than 16, 32 or 64 bits"),
            meaning(17, "CutWide", "a wide instruction has no second unit"),
            meaning(20, "UnknownName", "the bytes up to the first blank, newline or end are no name"),
            meaning(21, "BadOperand", "an operand, a separator or the blank after the name is missing or ill-formed, or a number "
                    + "has a needless zero or is -0"),
            meaning(22, "OutOfRange", "a well-formed number doesn't fit its field"),
            meaning(23, "Trailing", "after the last operand stands anything but a newline, the text's end included"),
            meaning(24, "BadCount", "the text is empty (line 0), or this line has no other fault and its instruction passes 4,096 "
                    + "units"),
            meaning(30, "BackwardJump", "a jump's distance is below 0"),
            meaning(31, "JumpOut", "a jump goes to the number of units or past it"),
            meaning(32, "JumpIntoWide", "a jump goes to the second unit of a wide instruction"),
            meaning(33, "FallsOffEnd", "the last instruction is neither EXIT nor an unconditional jump"),
            meaning(40, "UnwrittenRegister", "write the register on every way that leads here"),
            meaning(41, "WriteToR10", "copy it first: mov64 r9, r10"),
            meaning(42, "NotAWindow", "keep addresses apart from numbers where ways meet, and move them by 64-bit ADD and SUB "
                    + "alone"),
            meaning(43, "OutOfWindow", "declare the size greater, or mask or test the number that was added"),
            meaning(44, "ReadOnly", "store to result or stack"),
            meaning(45, "UnwrittenBytes", "store all bytes that the load may touch first, at fixed places, on every way"),
            meaning(46, "BadExitValue", "write the answer's bytes without a gap on every way, or give each answer an EXIT of its "
                    + "own"),
            meaning(47, "SizesTooLarge", "declare less"),
            meaning(60, "BadLength", "a length of 0, or above 32,777 (in version 1 and before a Hello 8,192)"),
            meaning(61, "UnknownRequest", "a tag that is not in the table"),
            meaning(62, "BadField", "cut fields, a key above 64 bytes, a value above 1,024 (in version 1 and before a Hello 256), "
                    + "or ff ff in place of a value"),
            meaning(63, "TrailingBytes", "bytes after the last field"),
            meaning(64, "WrongVersion", "a Hello of a version other than 1 and 2, a first request that is no Hello, or a second "
                    + "Hello"),
            meaning(65, "ValueTooLong", "the answer has a value of more than 256 bytes, which version 1 does not carry; the call "
                    + "was made"),
            meaning(66, "UnknownProgram", "no program has this number"));

    /** The refusal's number. */
    private final int number;
    /** Where the fault is. */
    private final long place;

    RefusedException(int number, long place) {
        this(number, place, "");
    }

    private RefusedException(int number, long place, String advice) {
        super(message(number, place) + advice);
        this.number = number;
        this.place = place;
    }

    /** A refusal of a program's text, with the line that was refused. */
    static RefusedException ofLine(int number, long place, String line) {
        return new RefusedException(number, place, ": '" + line + "'");
    }

    /** What a server's refusal of a Hello with this version says, with what to do about it. */
    RefusedException ofHello(Version version) {
        if (number != WRONG_VERSION) {
            return this;
        }
        String advice = version == Version.TWO
                ? ". This server is older and does not speak version 2: ask for version 1"
                : ". This server does not speak version 1: ask for version 2";
        String how = ", by Settings.DEFAULT.withVersion(Version." + (version == Version.TWO ? Version.ONE : Version.TWO) + ")";
        RefusedException told = new RefusedException(number, place, advice + how);
        told.initCause(this);
        return told;
    }

    /**
     * The refusal's number.
     *
     * @return the number
     */
    public int number() {
        return number;
    }

    /**
     * Where the fault is.
     *
     * @return the unit of a program for 10 to 17 and 30 to 47, counted from 0; the line of a text for 20 to 24, counted from 1;
     *     else 0
     */
    public long place() {
        return place;
    }

    /**
     * The refusal's name.
     *
     * @return the name
     */
    public String name() {
        return meaningOf(number)[0];
    }

    /**
     * The refusal in words.
     *
     * @return what the refusal means; of 40 to 47, how to mend the program
     */
    public String sentence() {
        return meaningOf(number)[1];
    }

    /** Whether the server may end the session behind this refusal. */
    boolean mayEndSession() {
        return number == NO_MEMORY || number >= FIRST_OF_FRAMES && number <= LAST_OF_FRAMES;
    }

    /** The numbers that have a sentence. */
    static Iterable<Integer> numbers() {
        return MEANINGS.keySet();
    }

    private static Map.Entry<Integer, String[]> meaning(int number, String name, String sentence) {
        return Map.entry(number, new String[] {name, sentence});
    }

    private static String[] meaningOf(int number) {
        return MEANINGS.getOrDefault(number, new String[] {"Unknown", "this client knows no refusal of this number"});
    }

    private static String message(int number, long place) {
        String[] meaning = meaningOf(number);
        String where = number < FIRST_OF_UNITS || number > LAST_OF_UNITS ? ""
                : number >= FIRST_OF_LINES && number <= LAST_OF_LINES ? " at line " + place : " at unit " + place;
        return "refused " + number + " " + meaning[0] + where + ": " + meaning[1];
    }
}
