package bpfmap;

/**
 * How a request names its program.
 *
 * @param program the program, which each connection registers for itself, or null
 * @param number if there is no program, the number that a connection has given
 */
record ProgramName(Program program, long number) {}
