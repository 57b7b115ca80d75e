package bpfmap;

/**
 * What a walk counted.
 *
 * @param scanned all entries of the table
 * @param given the answers; of a replacement, the values that were entered
 * @param unfit the entries on which the program was not run, since one of its windows is too small
 */
public record Counts(long scanned, long given, long unfit) {}
