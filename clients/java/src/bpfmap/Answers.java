package bpfmap;

import java.io.IOException;
import java.util.ArrayList;
import java.util.List;
import java.util.Map;

/** Reads the answers to requests from the bodies of frames. Each throws what the server refused, or what did not fit. */
final class Answers {
    private Answers() {}

    /** Where the bodies of frames come from. */
    interface Bodies {
        Body next() throws IOException;
    }

    static Integer readHello(Bodies bodies, Version spoken) throws IOException {
        Body body = expect(bodies.next(), Body.HELLO);
        int version = body.takeByte();
        body.expectEnd();
        if (version != spoken.number()) {
            throw body.fault("it is of another version");
        }
        return version;
    }

    static Long readNumber(Bodies bodies) throws IOException {
        Body body = expect(bodies.next(), Body.REGISTERED);
        long number = body.takeLong();
        body.expectEnd();
        return number;
    }

    /** The body, if it has this tag. */
    private static Body expect(Body body, int tag) throws IOException {
        if (body.tag() == Body.REFUSED) {
            throw body.takeRefusal();
        }
        if (body.tag() != tag) {
            throw body.fault("it has another tag than the answer, 0x" + Integer.toHexString(tag));
        }
        return body;
    }

    static byte[] readValue(Bodies bodies) throws IOException {
        return valueOf(bodies.next());
    }

    static byte[] readComputed(Bodies bodies) throws IOException {
        Body body = bodies.next();
        if (body.tag() == Body.UNFIT) {
            throw body.takeUnfit();
        }
        return valueOf(body);
    }

    private static byte[] valueOf(Body body) throws IOException {
        byte[] value = expect(body, Body.VALUE).takeValueOrNothing();
        body.expectEnd();
        return value;
    }

    static boolean readDone(Bodies bodies) throws IOException {
        Body body = expect(bodies.next(), Body.DONE);
        int done = body.takeByte();
        body.expectEnd();
        if (done > 1) {
            throw body.fault("it is neither true nor false");
        }
        return done == 1;
    }

    static Counts readCounts(Bodies bodies) throws IOException {
        return countsOf(bodies.next());
    }

    private static Counts countsOf(Body body) throws IOException {
        expect(body, Body.END);
        Counts counts = new Counts(body.takeLong(), body.takeLong(), body.takeLong());
        body.expectEnd();
        return counts;
    }

    static Walk<byte[], byte[]> readWalk(Bodies bodies) throws IOException {
        List<Map.Entry<byte[], byte[]>> items = new ArrayList<>();
        Body body = bodies.next();
        while (body.tag() == Body.ITEM) {
            items.add(itemOf(body));
            body = bodies.next();
        }
        return new Walk<>(items, countsOf(body, items.size()));
    }

    /** An item of a walk. */
    static Map.Entry<byte[], byte[]> itemOf(Body body) throws IOException {
        Map.Entry<byte[], byte[]> item = Map.entry(body.takeKey(), body.takeValue());
        body.expectEnd();
        return item;
    }

    /** The counts of a walk behind so many items. */
    static Counts countsOf(Body body, long items) throws IOException {
        Counts counts = countsOf(body);
        if (counts.given() != items) {
            throw body.fault(items + " items came before it");
        }
        return counts;
    }
}
