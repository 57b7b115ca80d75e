/**
 * A client of {@code mapd}. {@link bpfmap.RemoteMap} is a {@link java.util.concurrent.ConcurrentMap} that the server keeps, and
 * {@link bpfmap.AsyncMap} has its calls as futures. {@link bpfmap.Connection} is one connection, for those who want to say
 * themselves what is sent.
 *
 * <pre>{@code
 * try (var map = RemoteMap.open("127.0.0.1", 7070, Codec.strings(), Codec.longs())) {
 *     map.put("home", 1L);
 *     System.out.println(map.get("home"));
 * }
 * }</pre>
 */
package bpfmap;
