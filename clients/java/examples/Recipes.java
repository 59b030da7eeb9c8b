import java.io.BufferedReader;
import java.io.ByteArrayOutputStream;
import java.io.IOException;
import java.io.InputStreamReader;
import java.nio.ByteBuffer;
import java.nio.charset.StandardCharsets;
import java.time.Instant;
import java.util.ArrayList;
import java.util.Arrays;
import java.util.HexFormat;
import java.util.List;
import java.util.concurrent.ThreadLocalRandom;
import java.util.stream.Collectors;
import ssikvd.Store;
import ssikvd.Transaction;

/**
 * The recipes of docs/COOKBOOK.md: {@code java -cp out Recipes ADDRESS CALL WORDS..}. Without a call it takes calls from its input, one in each line.
 *
 * <p>Each method that takes a transaction is part of a work of {@link Store#transact}, and may run more than once.
 */
public final class Recipes {
    private Recipes() {}

    // Keys of several parts

    private static final byte INTEGER = 1, TEXT = 2;

    /** The key of these parts: Long, String or byte[]. Where two keys differ in a part, the first such part decides which is the lesser. */
    public static byte[] key(Object... parts) {
        var made = new ByteArrayOutputStream();
        for (Object part : parts) {
            made.writeBytes(part instanceof Long number ? integer(number) : text(part instanceof byte[] bytes ? bytes : utf8((String) part)));
        }
        return made.toByteArray();
    }

    /** Eight bytes, the greatest first. With 2^63 added, the negative ones come before zero. */
    private static byte[] integer(long number) {
        return ByteBuffer.allocate(9).put(INTEGER).putLong(number + Long.MIN_VALUE).array();
    }

    /** The text and an end that is less than all that may follow. A zero byte in the text is written as 0, 255; the end is 0, 1. */
    private static byte[] text(byte[] data) {
        var made = new ByteArrayOutputStream();
        made.write(TEXT);
        for (byte each : data) {
            made.writeBytes(each == 0 ? new byte[] {0, (byte) 255} : new byte[] {each});
        }
        made.writeBytes(new byte[] {0, 1});
        return made.toByteArray();
    }

    /** The parts of a key: Long, and its texts as byte[]. */
    public static List<Object> partsOf(byte[] key) {
        var parts = new ArrayList<Object>();
        var left = ByteBuffer.wrap(key);
        while (left.hasRemaining()) {
            parts.add(left.get() == INTEGER ? (Object) (left.getLong() - Long.MIN_VALUE) : textFrom(left));
        }
        return parts;
    }

    private static byte[] textFrom(ByteBuffer left) {
        var made = new ByteArrayOutputStream();
        for (byte each = left.get(); each != 0 || left.get() != 1; each = left.get()) {
            made.write(each);
        }
        return made.toByteArray();
    }

    private static String textOf(byte[] key, int part) {
        return utf8((byte[]) partsOf(key).get(part));
    }

    private static byte[] utf8(String text) {
        return text.getBytes(StandardCharsets.UTF_8);
    }

    private static String utf8(byte[] data) {
        return data == null ? null : new String(data, StandardCharsets.UTF_8);
    }

    /** The pairs whose keys begin with these parts, at most so many. */
    private static List<Transaction.Pair> under(Transaction transaction, int limit, Object... parts) {
        byte[] lo = key(parts);
        return between(transaction, lo, Store.endOfPrefix(lo), limit);
    }

    private static List<Transaction.Pair> between(Transaction transaction, byte[] lo, byte[] hi, int limit) {
        var pairs = new ArrayList<Transaction.Pair>();
        transaction.range(lo, hi, limit).forEach(pairs::add);
        return pairs;
    }

    private static long number(byte[] value) {
        return value == null ? 0 : Long.parseLong(utf8(value));
    }

    // Reservations

    /** Who has the room at some moment from the start up to the end; null where nobody has. */
    public static String holder(Transaction transaction, String room, long start, long end) {
        byte[] endOfRoom = Store.endOfPrefix(key("booking", room));
        for (var first : between(transaction, key("booking", room, start + 1), endOfRoom, 1)) { // the first booking that ends after the start
            String[] words = utf8(first.value()).split(" ", 2);
            return Long.parseLong(words[0]) < end ? words[1] : null;
        }
        return null;
    }

    /** Books the room, unless someone has it then. Gives who had it. */
    public static String book(Transaction transaction, String room, long start, long end, String who) {
        String other = holder(transaction, room, start, end);
        if (other == null) {
            transaction.set(key("booking", room, end), utf8(start + " " + who));
        }
        return other;
    }

    // A unique address

    /** Gives the user the address in place of the one before, unless another has it. Did it? */
    public static boolean register(Transaction transaction, String user, String address) {
        byte[] owner = transaction.get(key("address", address));
        if (owner != null && !utf8(owner).equals(user)) {
            return false;
        }
        byte[] old = transaction.get(key("user", user));
        if (old != null) {
            transaction.delete(key("address", old));
        }
        transaction.set(key("address", address), utf8(user));
        transaction.set(key("user", user), utf8(address));
        return true;
    }

    // An index

    /** Writes the state of the task, and its entry in the index in place of the one before. */
    public static void put(Transaction transaction, String task, String state) {
        byte[] old = transaction.get(key("task", task));
        if (old != null) {
            transaction.delete(key("by state", old, task));
        }
        transaction.set(key("task", task), utf8(state));
        transaction.set(key("by state", state, task), new byte[0]);
    }

    /** The tasks in this state, by rising name. */
    public static List<String> withState(Transaction transaction, String state) {
        return under(transaction, Transaction.ALL, "by state", state).stream().map(entry -> textOf(entry.key(), 2)).toList();
    }

    // Holds that expire. The store has no clock: each program passes its own, in whole seconds.

    private static final int SWEPT_MAX = 32; // of two writes each, which makes the 64 of a transaction

    /** A hold: when it ends, and whose it is. */
    private record Hold(long ends, String who) {}

    /** The hold of the seat; null where there is none, swept or not. */
    private static Hold held(Transaction transaction, String seat) {
        byte[] value = transaction.get(key("hold", seat));
        String[] words = value == null ? null : utf8(value).split(" ", 2);
        return words == null ? null : new Hold(Long.parseLong(words[0]), words[1]);
    }

    private static void drop(Transaction transaction, String seat, long ends) {
        transaction.delete(key("hold", seat));
        transaction.delete(key("ends", ends, seat));
    }

    /** Holds the seat, unless it is sold or held by someone. Did it? */
    public static boolean hold(Transaction transaction, String seat, String who, long now, long seconds) {
        if (transaction.get(key("sold", seat)) != null) {
            return false;
        }
        Hold found = held(transaction, seat);
        if (found != null && found.ends > now) {
            return false;
        }
        if (found != null) {
            drop(transaction, seat, found.ends); // its time is over, and no sweep has come by
        }
        transaction.set(key("hold", seat), utf8(now + seconds + " " + who));
        transaction.set(key("ends", now + seconds, seat), new byte[0]);
        return true;
    }

    /** Sells the seat to the one that holds it. Did it? */
    public static boolean buy(Transaction transaction, String seat, String who, long now) {
        Hold found = held(transaction, seat);
        if (found == null || found.ends <= now || !found.who.equals(who)) {
            return false;
        }
        drop(transaction, seat, found.ends);
        transaction.set(key("sold", seat), utf8(who));
        return true;
    }

    /** Drops holds whose time is over, the oldest first, and gives how many. Where it is SWEPT_MAX, there may be more. */
    public static int sweep(Transaction transaction, long now) {
        var found = between(transaction, key("ends"), key("ends", now + 1), SWEPT_MAX);
        for (var entry : found) {
            drop(transaction, textOf(entry.key(), 2), (Long) partsOf(entry.key()).get(1));
        }
        return found.size();
    }

    // A queue

    /** Sets the job at the tail. No two jobs of one producer have the same time. */
    public static void enqueue(Transaction transaction, String job, long at, long producer) {
        transaction.set(key("job", at, producer), utf8(job));
    }

    /** Deletes the job at the head and gives it; null where there is none. */
    public static String take(Transaction transaction) {
        for (var head : under(transaction, 1, "job")) {
            transaction.delete(head.key());
            return utf8(head.value());
        }
        return null;
    }

    /** Takes one of the first jobs by chance. It looks in a transaction of its own, so two clients meet only where they choose the same one. */
    public static String takeNear(Store store, int width) {
        while (true) {
            var near = store.transact(transaction -> under(transaction, width, "job"));
            if (near.isEmpty()) {
                return null;
            }
            byte[] place = near.get(ThreadLocalRandom.current().nextInt(near.size())).key();
            String job = store.transact(transaction -> remove(transaction, place));
            if (job != null) {
                return job;
            }
        }
    }

    /** Deletes the job at this key and gives it; null where another took it. */
    private static String remove(Transaction transaction, byte[] place) {
        byte[] job = transaction.get(place);
        if (job != null) {
            transaction.delete(place);
        }
        return utf8(job);
    }

    // A counter with many writers

    /** Adds to the number at this key: that of the counter, or of the counter and a writer. */
    public static void add(Transaction transaction, byte[] place, long amount) {
        transaction.set(place, utf8(String.valueOf(number(transaction.get(place)) + amount)));
    }

    /** The sum over the counter's key and those of its writers. */
    public static long total(Transaction transaction, String counter) {
        return under(transaction, Transaction.ALL, counter).stream().mapToLong(pair -> number(pair.value())).sum();
    }

    // More than 64 writes. Versions are integers above 0, each greater than the one before.

    private static final int STEP = 62; // with the mark of how far it is, and the current version, 64 writes

    /** An item of a list, and its value. */
    public record Item(String name, String value) {}

    /** The version of the list that is read now; 0 where there is none. */
    public static long current(Transaction transaction, String name) {
        return number(transaction.get(key("current", name)));
    }

    /** Writes the next items of a version, and how far it is; at last also that it is the current one. Is there more to write? */
    public static boolean step(Transaction transaction, String name, long version, List<Item> items) {
        byte[] mark = key("written", name, version);
        int done = (int) number(transaction.get(mark)), end = Math.min(done + STEP, items.size());
        for (Item item : items.subList(Math.min(done, end), end)) {
            transaction.set(key("item", name, version, item.name), utf8(item.value));
        }
        transaction.set(mark, utf8(String.valueOf(end)));
        if (end < items.size()) {
            return true;
        }
        if (version > current(transaction, name)) {
            transaction.set(key("current", name), utf8(String.valueOf(version)));
        }
        return false;
    }

    /** Writes a version in several transactions. If it is interrupted, run it again with the same items: it goes on where it was. */
    public static void load(Store store, String name, long version, List<Item> items) {
        boolean isMore = true;
        while (isMore) {
            isMore = store.transact(transaction -> step(transaction, name, version, items));
        }
    }

    /** The items of the current version and their values. */
    public static List<Item> read(Transaction transaction, String name) {
        var pairs = under(transaction, Transaction.ALL, "item", name, current(transaction, name));
        return pairs.stream().map(pair -> new Item(textOf(pair.key(), 3), utf8(pair.value()))).toList();
    }

    /** Deletes up to 64 items of versions before the current one, and gives how many. */
    public static int clear(Transaction transaction, String name) {
        var found = between(transaction, key("item", name), key("item", name, current(transaction, name)), 64);
        found.forEach(pair -> transaction.delete(pair.key()));
        return found.size();
    }

    // The calls

    /** A part of a key: an integer, bytes as 0x and hex digits, or a text. */
    private static Object part(String word) {
        if (word.matches("-?\\d+")) {
            return Long.valueOf(word);
        }
        return word.startsWith("0x") ? HexFormat.of().parseHex(word, 2, word.length()) : word;
    }

    private static Object[] parts(List<String> words) {
        return words.stream().map(Recipes::part).toArray();
    }

    private static String shown(Object part) {
        return part instanceof byte[] text ? "0x" + HexFormat.of().formatHex(text) : part.toString();
    }

    /** The word at this place as an integer, or else the other. */
    private static long or(List<String> words, int at, long other) {
        return words.size() > at ? integer(words, at) : other;
    }

    private static long integer(List<String> words, int at) {
        return Long.parseLong(words.get(at));
    }

    private static List<Item> items(List<String> words) {
        return words.stream().map(word -> word.split("=", 2)).map(pair -> new Item(pair[0], pair[1])).toList();
    }

    private static String done(Runnable work) {
        work.run();
        return "done";
    }

    private static String orNone(String job) {
        return job == null ? "none" : job;
    }

    /** A call over its words, within a transaction. */
    private static String inTransaction(Transaction transaction, String call, List<String> words) {
        Instant clock = Instant.now();
        long now = clock.getEpochSecond(), nanoseconds = now * 1_000_000_000 + clock.getNano();
        switch (call) {
            case "book":
                String other = book(transaction, words.get(0), integer(words, 1), integer(words, 2), words.get(3));
                return other == null ? "booked" : other + " has it";
            case "register":
                return register(transaction, words.get(0), words.get(1)) ? "registered" : "another has it";
            case "put":
                return done(() -> put(transaction, words.get(0), words.get(1)));
            case "list":
                return String.join(" ", withState(transaction, words.get(0)));
            case "hold":
                return hold(transaction, words.get(0), words.get(1), or(words, 3, now), integer(words, 2)) ? "held" : "not free";
            case "buy":
                return buy(transaction, words.get(0), words.get(1), or(words, 2, now)) ? "sold" : "not held";
            case "sweep":
                return sweep(transaction, or(words, 0, now)) + " dropped";
            case "enqueue":
                return done(() -> enqueue(transaction, words.get(0), or(words, 1, nanoseconds), or(words, 2, ProcessHandle.current().pid())));
            case "take":
                return orNone(take(transaction));
            case "add":
                return done(() -> add(transaction, key(parts(words)), 1));
            case "total":
                return String.valueOf(total(transaction, words.get(0)));
            case "show":
                return read(transaction, words.get(0)).stream().map(item -> item.name + "=" + item.value).collect(Collectors.joining(" "));
            case "clear":
                return clear(transaction, words.get(0)) + " deleted";
            default:
                throw new IllegalArgumentException("no call is " + call);
        }
    }

    /** What a call gives, in one line. */
    private static String answer(Store store, String call, List<String> words) {
        switch (call) {
            case "key":
                return HexFormat.of().formatHex(key(parts(words)));
            case "parts":
                return partsOf(HexFormat.of().parseHex(words.get(0))).stream().map(Recipes::shown).collect(Collectors.joining(" "));
            case "take_near":
                return orNone(takeNear(store, (int) integer(words, 0)));
            case "load":
                return done(() -> load(store, words.get(0), integer(words, 1), items(words.subList(2, words.size()))));
            default:
                return store.transact(transaction -> inTransaction(transaction, call, words));
        }
    }

    private static String answer(Store store, List<String> words) {
        return answer(store, words.get(0), words.subList(1, words.size()));
    }

    public static void main(String[] words) throws IOException {
        try (Store store = Store.connect(words[0]); var lines = new BufferedReader(new InputStreamReader(System.in, StandardCharsets.UTF_8))) {
            if (words.length > 1) {
                System.out.println(answer(store, Arrays.asList(words).subList(1, words.length)));
                return;
            }
            for (String line = lines.readLine(); line != null; line = lines.readLine()) {
                System.out.println(answer(store, List.of(line.split(" "))));
            }
        }
    }
}
