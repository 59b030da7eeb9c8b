package ssikvd;

import java.nio.ByteBuffer;
import java.nio.charset.StandardCharsets;
import java.util.Arrays;
import java.util.HashSet;
import java.util.Iterator;
import java.util.List;
import java.util.Set;

/** What the work of {@link Store#transact} reads and writes, in one thread. Once it has ended, its calls throw Invalid. */
public final class Transaction {
    /** The limit of a range that has none. */
    public static final int ALL = Integer.MAX_VALUE;
    private static final int WRITES_MAX = 64, MARKS_MAX = 256;
    private static final byte[] GET = utf8("GET"), SET = utf8("SET"), DEL = utf8("DEL"), RANGE = utf8("RANGE");

    /** A key with its value. */
    public record Pair(byte[] key, byte[] value) {}

    private Session session;
    private final Set<ByteBuffer> written = new HashSet<>(), read = new HashSet<>();

    Transaction(Session session) {
        this.session = session;
    }

    void end() {
        session = null;
    }

    static byte[] utf8(String text) {
        return text.getBytes(StandardCharsets.UTF_8);
    }

    private Frames.Reply ask(byte[]... parts) {
        if (session == null) {
            throw new StoreException.Invalid("the transaction has ended");
        }
        return session.ask(parts);
    }

    /** Adds a key, of which there may be so many. */
    private static void note(Set<ByteBuffer> keys, byte[] key, int most, String limit) {
        var own = ByteBuffer.wrap(key.clone());
        if (!keys.contains(own) && keys.size() == most) {
            throw new StoreException.Full(limit);
        }
        keys.add(own);
    }

    /** The value of the key; null where it isn't there. Throws Invalid, Full at the 257th new key, Unreachable. */
    public byte[] get(byte[] key) {
        if (!written.contains(ByteBuffer.wrap(Frames.key(key, 1)))) {
            note(read, key, MARKS_MAX, "marks");
        }
        return ask(GET, key).value();
    }

    /** Writes the key. Throws Invalid, Full at the 65th key that is written, Unreachable. */
    public void set(byte[] key, byte[] value) {
        Frames.value(value);
        note(written, Frames.key(key, 1), WRITES_MAX, "writes");
        ask(SET, key, value);
    }

    /** Deletes the key, whether it is there or not. Throws what {@code set} throws. */
    public void delete(byte[] key) {
        note(written, Frames.key(key, 1), WRITES_MAX, "writes");
        ask(DEL, key);
    }

    /** The value of a key that is a text, as one. */
    public String get(String key) {
        byte[] value = get(utf8(key));
        return value == null ? null : new String(value, StandardCharsets.UTF_8);
    }

    /** Writes a key and a value that are texts. */
    public void set(String key, String value) {
        set(utf8(key), utf8(value));
    }

    /** Deletes a key that is a text. */
    public void delete(String key) {
        delete(utf8(key));
    }

    /** The pairs between bounds that are texts. */
    public Iterable<Pair> range(String lo, String hi, int limit) {
        return range(utf8(lo), utf8(hi), limit);
    }

    /**
     * The pairs with lo &lt;= key &lt; hi by rising key, at most so many; an empty hi is no upper end. They are asked page by page, as they are needed.
     */
    public Iterable<Pair> range(byte[] lo, byte[] hi, int limit) {
        byte[] from = Frames.key(lo.length == 0 ? new byte[1] : lo, 1), to = Frames.key(hi, 0);
        if (limit < 1) {
            throw new StoreException.Invalid("a limit is at least 1, this one is " + limit);
        }
        return () -> new Pairs(from, to, limit);
    }

    private final class Pairs implements Iterator<Pair> {
        private byte[] at;
        private final byte[] hi;
        private int left;
        private Iterator<byte[]> page = List.<byte[]>of().iterator();

        Pairs(byte[] lo, byte[] hi, int limit) {
            at = lo;
            this.hi = hi;
            left = limit;
        }

        @Override
        public boolean hasNext() {
            if (!page.hasNext() && at != null && left > 0 && (hi.length == 0 || Arrays.compareUnsigned(at, hi) < 0)) {
                turn();
            }
            return page.hasNext();
        }

        private void turn() {
            int size = Math.min(left, Frames.PAIRS_MAX);
            List<byte[]> parts = ask(RANGE, at, hi, utf8(String.valueOf(size))).parts();
            at = parts.size() == 2 * size ? Store.after(parts.get(parts.size() - 2)) : null;
            left -= left == ALL ? 0 : parts.size() / 2;
            page = parts.iterator();
        }

        @Override
        public Pair next() {
            hasNext(); // which asks for the next page; without one the page's own iterator throws
            return new Pair(page.next(), page.next());
        }
    }
}
