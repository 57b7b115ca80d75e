package bpfmap;

import java.util.ArrayList;
import java.util.HashMap;
import java.util.HashSet;
import java.util.List;
import java.util.Map;
import java.util.Set;
import java.util.concurrent.ThreadLocalRandom;
import java.util.concurrent.atomic.AtomicInteger;

/**
 * The numbers of programs on one connection. A number that it gives begins with a mark of its own, so a number that another
 * connection gave is told from it whatever the server answered. The server's numbers are known here too, if this connection was
 * answered them.
 */
final class Numbers {
    private static final AtomicInteger MARKS = new AtomicInteger(ThreadLocalRandom.current().nextInt());
    private static final long OWN = Long.MIN_VALUE;
    private static final long INDEX = 0xffff_ffffL;

    private final long mark = OWN | (long) (MARKS.getAndIncrement() & Integer.MAX_VALUE) << Integer.SIZE;
    private final Map<Program, Integer> indexes = new HashMap<>();
    private final List<Long> atServer = new ArrayList<>();
    private final Set<Long> known = new HashSet<>();

    /** Notes the number that the server answered for a program. */
    synchronized void put(Program program, long number) {
        known.add(number);
        Integer index = indexes.putIfAbsent(program, atServer.size());
        if (index == null) {
            atServer.add(number);
        }
    }

    /** Takes a server's number that another connection was answered. */
    synchronized void adopt(long number) {
        known.add(number);
    }

    /** The number to give for a program, or null if it was not registered. */
    synchronized Long given(Program program) {
        Integer index = indexes.get(program);
        return index == null ? null : mark | index;
    }

    /** Whether the program was registered. */
    synchronized boolean has(Program program) {
        return indexes.containsKey(program);
    }

    /** The server's number of a program that was registered; throws if a number is not of this connection. */
    synchronized long atServer(ProgramName name) {
        if (name.program() != null) {
            return atServer.get(indexes.get(name.program()));
        }
        long number = name.number();
        if ((number & ~INDEX) == mark && (number & INDEX) < atServer.size()) {
            return atServer.get((int) number);
        }
        if (known.contains(number)) {
            return number;
        }
        throw new ForeignNumberException(number);
    }
}
