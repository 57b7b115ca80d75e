package bpfmap;

import java.util.List;
import java.util.Map;

/**
 * A walk's answers, in the order of the keys' bytes, and its counts.
 *
 * @param <K> the keys
 * @param <R> the program's answers
 * @param items each key with the program's answer for its entry
 * @param counts what the walk counted
 */
public record Walk<K, R>(List<Map.Entry<K, R>> items, Counts counts) {}
