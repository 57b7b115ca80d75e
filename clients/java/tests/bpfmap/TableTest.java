package bpfmap;

import java.io.ByteArrayOutputStream;
import java.io.IOException;
import java.io.InputStream;
import java.net.Socket;
import java.net.SocketException;
import java.nio.file.Path;
import java.util.ArrayList;
import java.util.HashMap;
import java.util.List;
import java.util.Map;
import java.util.stream.LongStream;

/** Runs the rows of tests/requests.txt by each version, once by a connection and once by a map, each against a fresh server. */
final class TableTest {
    private static final int PATIENCE = 10_000;
    private static final long LARGEST_NUMBER = 100;

    private final List<Table.Row> rows;
    private final List<String> differences = new ArrayList<>();
    private int same;
    private int skipped;

    /** A client that makes a row's call; its answer as the table writes it. */
    private interface Caller {
        /** The answer, or null where the client has no such call. */
        String answer(Table.Row row) throws IOException;
    }

    private TableTest(List<Table.Row> rows) {
        this.rows = rows;
    }

    static String byConnection(Path server, Path table, Version version) throws IOException {
        TableTest test = new TableTest(Table.read(table, version));
        try (Mapd mapd = Mapd.start(server); Connection connection = mapd.connect(version)) {
            // Rows call programs by the server's numbers, among them some that it has not given.
            LongStream.rangeClosed(0, LARGEST_NUMBER).forEach(connection::adopt);
            connection.adopt(-1);
            return test.run("java's connection", row -> row.call().equals("raw")
                    ? rawAnswer(row, mapd.port()) : answer(row, connection));
        }
    }

    static String byMap(Path server, Path table, Version version) throws IOException {
        TableTest test = new TableTest(Table.read(table, version));
        try (Mapd mapd = Mapd.start(server);
                RemoteMap<byte[], byte[]> map = mapd.open(Codec.bytes(), Codec.bytes(), 1, version)) {
            Map<Long, Program> programs = new HashMap<>();
            return test.run("java's map", row -> answer(row, map, programs));
        }
    }

    private String run(String client, Caller caller) throws IOException {
        for (Table.Row row : rows) {
            compare(client, row, answerOrRefusal(row, caller));
        }
        differences.forEach(System.err::println);
        Check.that(differences.size() + " rows differ", differences.isEmpty());
        Check.that("no row was compared", same > 0);
        return same + " rows" + (skipped > 0 ? ", " + skipped + " that a map has no call for" : "");
    }

    private void compare(String client, Table.Row row, String answer) {
        if (answer == null) {
            Check.that("no call was made for row '" + row.name() + "'", hasNoCall(row));
            skipped++;
        } else if (answer.equals(row.answer())) {
            same++;
        } else {
            differences.add(client + ": row '" + row.name() + "': wanted '" + row.answer() + "', got '" + answer + "'");
        }
    }

    /** Whether a map, which names programs by their bytes, has no call for this row. */
    private static boolean hasNoCall(Table.Row row) {
        return row.call().equals("raw") || row.call().equals("register") || row.answer().equals("refused 66 0");
    }

    private static String answerOrRefusal(Table.Row row, Caller caller) throws IOException {
        try {
            return caller.answer(row);
        } catch (RefusedException e) {
            return Table.text(e);
        } catch (UnfitException e) {
            return Table.text(e);
        } catch (TooLongException e) {
            return "refused 1 0";
        }
    }

    private static String answer(Table.Row row, Connection connection) throws IOException {
        return switch (row.call()) {
            case "register" -> "program " + Long.toUnsignedString(connection.call(Request.register(row.program())));
            case "remove_if", "replace_if" -> connection.call(doneRequest(row)).toString();
            case "search", "for_each" -> Table.text(connection.call(walkRequest(row)));
            case "replace_all" -> Table.text(connection.call(Request.replaceAll(row.number(1), row.argument(2))));
            case "count" -> Table.text(connection.call(Request.count()));
            default -> Table.valueText(connection.call(valueRequest(row)));
        };
    }

    private static Request<byte[]> valueRequest(Table.Row row) {
        byte[] key = row.bytes(1);
        return switch (row.call()) {
            case "get" -> Request.get(key);
            case "put" -> Request.put(key, row.bytes(2));
            case "put_if_absent" -> Request.putIfAbsent(key, row.bytes(2));
            case "remove" -> Request.remove(key);
            case "replace" -> Request.replace(key, row.bytes(2));
            case "compute" -> Request.compute(key, row.number(2), row.argument(3));
            case "compute_if_absent" -> Request.computeIfAbsent(key, row.number(2), row.argument(3));
            case "compute_if_present" -> Request.computeIfPresent(key, row.number(2), row.argument(3));
            case "merge" -> Request.merge(key, row.bytes(2), row.number(3));
            default -> throw new IllegalArgumentException("no call has the name " + row.call());
        };
    }

    private static Request<Boolean> doneRequest(Table.Row row) {
        return row.call().equals("remove_if") ? Request.removeIf(row.bytes(1), row.bytes(2))
                : Request.replaceIf(row.bytes(1), row.bytes(2), row.bytes(3));
    }

    private static Request<Walk<byte[], byte[]>> walkRequest(Table.Row row) {
        return row.call().equals("search") ? Request.search(row.number(1), row.argument(2), row.number(3))
                : Request.forEach(row.number(1), row.argument(2), row.number(3));
    }

    /** Sends the row's bytes on a connection of their own; all that comes until it ends. */
    private static String rawAnswer(Table.Row row, int port) throws IOException {
        try (Socket socket = new Socket(Mapd.HOST, port)) {
            socket.setSoTimeout(PATIENCE);
            socket.getOutputStream().write(row.joined(1));
            socket.shutdownOutput();
            return Table.text(readToEnd(socket.getInputStream()));
        }
    }

    private static byte[] readToEnd(InputStream input) throws IOException {
        ByteArrayOutputStream read = new ByteArrayOutputStream();
        try {
            input.transferTo(read);
        } catch (SocketException e) {
            return read.toByteArray();
        }
        return read.toByteArray();
    }

    /** A map's answer. */
    private static String answer(Table.Row row, RemoteMap<byte[], byte[]> map, Map<Long, Program> programs) {
        return switch (row.call()) {
            case "raw" -> null;
            case "register" -> registered(row, map, programs);
            case "remove_if" -> Boolean.toString(map.remove(row.bytes(1), (Object) row.bytes(2)));
            case "replace_if" -> Boolean.toString(map.replace(row.bytes(1), row.bytes(2), row.bytes(3)));
            case "count" -> Table.text(new Counts(map.mappingCount(), 0, 0));
            case "compute", "compute_if_absent", "compute_if_present" -> computed(row, map, programs.get(row.number(2)));
            case "merge" -> merged(row, map, programs.get(row.number(3)));
            case "search", "for_each", "replace_all" -> walked(row, map, programs.get(row.number(1)));
            default -> Table.valueText(value(row, map));
        };
    }

    /** A map registers at a program's first call: so one that is refused is called on the empty key. */
    private static String registered(Table.Row row, RemoteMap<byte[], byte[]> map, Map<Long, Program> programs) {
        if (!row.answer().startsWith("program ")) {
            return Table.valueText(map.compute(new byte[0], row.program(), null));
        }
        programs.put(Long.parseUnsignedLong(row.answer().substring("program ".length())), row.program());
        return null;
    }

    private static byte[] value(Table.Row row, RemoteMap<byte[], byte[]> map) {
        return switch (row.call()) {
            case "get" -> map.get(row.bytes(1));
            case "put" -> map.put(row.bytes(1), row.bytes(2));
            case "put_if_absent" -> map.putIfAbsent(row.bytes(1), row.bytes(2));
            case "remove" -> map.remove(row.bytes(1));
            case "replace" -> map.replace(row.bytes(1), row.bytes(2));
            default -> throw new IllegalArgumentException("no call has the name " + row.call());
        };
    }

    private static String computed(Table.Row row, RemoteMap<byte[], byte[]> map, Program program) {
        if (program == null) {
            return null;
        }
        byte[] key = row.bytes(1);
        byte[] argument = row.argument(3);
        return Table.valueText(switch (row.call()) {
            case "compute" -> map.compute(key, program, argument);
            case "compute_if_absent" -> map.computeIfAbsent(key, program, argument);
            default -> map.computeIfPresent(key, program, argument);
        });
    }

    private static String merged(Table.Row row, RemoteMap<byte[], byte[]> map, Program program) {
        return program == null ? null : Table.valueText(map.merge(row.bytes(1), row.bytes(2), program));
    }

    private static String walked(Table.Row row, RemoteMap<byte[], byte[]> map, Program program) {
        if (program == null) {
            return null;
        }
        byte[] argument = row.argument(2);
        return switch (row.call()) {
            case "search" -> Table.text(map.search(row.number(3), program, argument, Codec.bytes()));
            case "for_each" -> Table.text(map.forEach(row.number(3), program, argument, Codec.bytes()));
            default -> Table.text(map.replaceAll(program, argument));
        };
    }
}
