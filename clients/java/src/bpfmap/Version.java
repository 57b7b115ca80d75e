package bpfmap;

/** A version of the protocol, and what it carries. A server that does not know a version refuses it with 64. */
public enum Version {
    /** The only one that older servers know. An answer that is too long for it is refused with 65. */
    ONE(1, 256, 8192),
    /** What is spoken if no other is asked for. */
    TWO(2, 1024, 32_777);

    /** The bytes of a Register's body before its program. */
    static final int BEFORE_PROGRAM = 9;

    private final int number;
    private final int longestValue;
    private final int longestBody;

    Version(int number, int longestValue, int longestBody) {
        this.number = number;
        this.longestValue = longestValue;
        this.longestBody = longestBody;
    }

    /**
     * The version's number.
     *
     * @return its number
     */
    public int number() {
        return number;
    }

    /**
     * The longest value that it carries.
     *
     * @return the most bytes of a value or argument
     */
    public int longestValue() {
        return longestValue;
    }

    /** The most bytes of a frame's body. */
    int longestBody() {
        return longestBody;
    }

    /** The most bytes of a program that a frame can hold. */
    int longestProgram() {
        return longestBody - BEFORE_PROGRAM;
    }
}
