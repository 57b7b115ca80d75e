package bpfmap;

import java.time.Duration;
import java.util.Objects;

/**
 * How a map reaches its server.
 *
 * @param connections how many connections at most calls have at once. Each open walk has one of its own beside these. The server
 *     bounds the connections of all clients together (`--clients`).
 * @param connectTimeout how long a connection may take to come up
 * @param answerTimeout how long an answer may take to come on, counted from its last byte
 * @param version the version of the protocol; no other one is tried if the server refuses it
 */
public record Settings(int connections, Duration connectTimeout, Duration answerTimeout, Version version) {
    /** Two connections, 5 seconds to come up, 10 seconds for an answer, and version 2. */
    public static final Settings DEFAULT = new Settings(2, Duration.ofSeconds(5), Duration.ofSeconds(10));

    /**
     * Settings. Times are from a millisecond to 24 days.
     *
     * @param connections how many connections at most
     * @param connectTimeout how long a connection may take to come up
     * @param answerTimeout how long an answer may take to come on
     * @param version the version of the protocol
     * @throws IllegalArgumentException if a time is not, or there is no connection
     */
    public Settings {
        if (connections < 1) {
            throw new IllegalArgumentException("a map needs a connection, not " + connections);
        }
        milliseconds(connectTimeout);
        milliseconds(answerTimeout);
        Objects.requireNonNull(version);
    }

    /**
     * Settings with version 2.
     *
     * @param connections how many connections at most
     * @param connectTimeout how long a connection may take to come up
     * @param answerTimeout how long an answer may take to come on
     */
    public Settings(int connections, Duration connectTimeout, Duration answerTimeout) {
        this(connections, connectTimeout, answerTimeout, Version.TWO);
    }

    /**
     * These settings with another number of connections.
     *
     * @param most how many connections at most
     * @return these settings with that many
     */
    public Settings withConnections(int most) {
        return new Settings(most, connectTimeout, answerTimeout, version);
    }

    /**
     * These settings with another time for connecting.
     *
     * @param time how long a connection may take to come up
     * @return these settings with that time
     */
    public Settings withConnectTimeout(Duration time) {
        return new Settings(connections, time, answerTimeout, version);
    }

    /**
     * These settings with another time for answers.
     *
     * @param time how long an answer may take to come on
     * @return these settings with that time
     */
    public Settings withAnswerTimeout(Duration time) {
        return new Settings(connections, connectTimeout, time, version);
    }

    /**
     * These settings with another version of the protocol.
     *
     * @param spoken the version of the protocol
     * @return these settings with that version
     */
    public Settings withVersion(Version spoken) {
        return new Settings(connections, connectTimeout, answerTimeout, spoken);
    }

    /** A time as sockets take it, for which 0 would mean no end. */
    static int milliseconds(Duration time) {
        long milliseconds = time.toMillis();
        if (milliseconds < 1 || milliseconds > Integer.MAX_VALUE) {
            throw new IllegalArgumentException("a time is from a millisecond to 24 days, not " + time);
        }
        return (int) milliseconds;
    }
}
