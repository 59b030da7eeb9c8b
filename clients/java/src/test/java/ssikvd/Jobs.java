package ssikvd;

import java.nio.charset.StandardCharsets;
import java.time.Duration;
import java.util.ArrayList;
import java.util.HexFormat;
import java.util.concurrent.atomic.AtomicInteger;
import java.util.function.Consumer;
import java.util.function.Function;
import java.util.function.IntConsumer;

/** The jobs of harness/packages.py: {@code Jobs ADDRESS JOB WORDS..}. */
final class Jobs {
    /** What a work of ours throws. */
    private static final class Raised extends RuntimeException {}

    private static String shown(RuntimeException error) {
        if (error instanceof StoreException.Conflict found) {
            return found.key != null ? "Conflict key " + HexFormat.of().formatHex(found.key) : "Conflict pivot " + found.pivot;
        } else if (error instanceof StoreException.Full found) {
            return "Full " + found.limit;
        }
        return error.getClass().getSimpleName() + (error instanceof StoreException.Refused ? " " + error.getMessage() : "");
    }

    private static Store.Options options(int connections, Duration reply, Duration deadline) {
        return new Store.Options(connections, Store.Options.DEFAULT.connectTimeout(), reply, deadline);
    }

    private static Store patient(String address) {
        return Store.connect(address, options(16, Duration.ofSeconds(10), Duration.ofSeconds(60)));
    }

    private static int number(String word) {
        return word == null ? 0 : Integer.parseInt(word);
    }

    /** Runs so many workers at once. */
    private static void together(int workers, IntConsumer work) throws InterruptedException {
        var threads = new ArrayList<Thread>();
        for (int number = 0; number < workers; number++) {
            int worker = number;
            threads.add(new Thread(() -> work.accept(worker)));
        }
        threads.forEach(Thread::start);
        for (Thread thread : threads) {
            thread.join();
        }
    }

    private static void count(String address, String name, int workers, int times) throws InterruptedException {
        Store store = patient(address);
        var tries = new AtomicInteger();
        together(workers, worker -> {
            for (int turn = 0; turn < times; turn++) {
                store.once(name + ":" + worker + ":" + turn, transaction -> {
                    tries.incrementAndGet();
                    transaction.set(name, String.valueOf(number(transaction.get(name)) + 1));
                    return "";
                });
            }
        });
        System.out.println("counter " + number(store.transact(transaction -> transaction.get(name))) + " tries " + tries.get());
    }

    private static String book(Transaction transaction, String room, int worker, int turn) {
        int start = (13 * worker + 7 * turn) % 60, end = start + 1 + (worker + turn) % 5;
        for (var pair : transaction.range("%s:%03d".formatted(room, start + 1), room + ";", 1)) {
            if (number(new String(pair.value(), StandardCharsets.UTF_8).split(" ")[0]) < end) {
                return "taken";
            }
        }
        transaction.set("%s:%03d".formatted(room, end), start + " " + worker + " " + turn);
        return "booked";
    }

    private static void reserve(String address, String room, int workers, int times) throws InterruptedException {
        Store store = patient(address);
        together(workers, worker -> {
            for (int number = 0; number < times; number++) {
                int turn = number;
                String found = store.once("by:" + room + ":" + worker + ":" + turn, transaction -> book(transaction, room, worker, turn));
                System.out.println(worker + " " + turn + " " + found);
            }
        });
    }

    private static long sum(long sum, byte[] data) {
        for (byte each : data) {
            sum = (31 * sum + (each & 0xff)) % 1_000_000_007;
        }
        return sum;
    }

    private static void walk(String address, int most) {
        Store store = patient(address);
        long sum = 0;
        int total = 0;
        for (byte[] at = new byte[1]; at != null; ) {
            byte[] from = at;
            var found = store.transact(transaction -> {
                var pairs = new ArrayList<Transaction.Pair>();
                transaction.range(from, new byte[0], most).forEach(pairs::add);
                return pairs;
            });
            for (var pair : found) {
                sum = sum(sum(sum, pair.key()), pair.value());
            }
            total += found.size();
            at = found.size() == most ? Store.after(found.get(most - 1).key()) : null;
        }
        System.out.println("pairs " + total + " sum " + sum);
    }

    private static <T> void tell(String what, Store store, Function<Transaction, T> work) {
        try {
            store.transact(work);
            System.out.println(what + ": done");
        } catch (StoreException | Raised error) {
            System.out.println(what + ": " + shown(error));
        }
    }

    private static Function<Transaction, Object> doing(Consumer<Transaction> work) {
        return transaction -> {
            work.accept(transaction);
            return null;
        };
    }

    private static Consumer<Transaction> crossing(String read, String written) {
        return transaction -> {
            transaction.get(read);
            transaction.set(written, "1");
        };
    }

    private static void errors(String address) {
        var once = Duration.ZERO;
        Store store = Store.connect(address, options(16, Duration.ofSeconds(10), once));
        Store small = Store.connect(address, options(1, Duration.ofSeconds(10), once));
        tell("overwritten", store, doing(transaction -> {
            transaction.set("k", "1");
            store.transact(doing(other -> other.set("k", "2")));
        }));
        tell("pivot", store, doing(transaction -> {
            crossing("x", "y").accept(transaction);
            store.transact(doing(crossing("y", "x")));
        }));
        tell("writes", store, doing(transaction -> {
            for (int number = 0; number < 65; number++) {
                transaction.set("w" + number, "");
            }
        }));
        tell("marks", store, doing(transaction -> {
            for (int number = 0; number < 257; number++) {
                transaction.get("m" + number);
            }
        }));
        tell("connections", small, transaction -> small.transact(other -> other.get("k")));
        tell("empty key", store, transaction -> transaction.get(""));
        tell("long key", store, transaction -> transaction.get("a".repeat(257)));
        tell("long value", store, doing(transaction -> transaction.set("a", "a".repeat(16_385))));
        tell("zero limit", store, transaction -> transaction.range("", "", 0));
        Transaction kept = store.transact(transaction -> transaction);
        try {
            kept.get("k");
        } catch (StoreException error) {
            System.out.println("ended: " + shown(error));
        }
        tell("raised", store, transaction -> {
            transaction.set("raised", "1");
            throw new Raised();
        });
        System.out.println("after it: " + (store.transact(transaction -> transaction.get("raised")) == null ? "none" : "kept"));
        store.close();
        tell("closed", store, transaction -> null);
    }

    private static Duration seconds(String word) {
        return Duration.ofMillis(Math.round(1_000 * Double.parseDouble(word)));
    }

    private static void attempt(String address, String deadline, String reply, Function<Store, String> work) {
        try {
            System.out.println(work.apply(Store.connect(address, options(16, seconds(reply), seconds(deadline)))));
        } catch (StoreException error) {
            System.out.println(shown(error));
        }
    }

    public static void main(String[] words) throws InterruptedException {
        switch (words[1]) {
            case "count" -> count(words[0], words[2], number(words[3]), number(words[4]));
            case "reserve" -> reserve(words[0], words[2], number(words[3]), number(words[4]));
            case "walk" -> walk(words[0], number(words[2]));
            case "errors" -> errors(words[0]);
            case "set" -> attempt(words[0], words[4], words[5], store -> {
                store.transact(doing(transaction -> transaction.set(words[2], words[3])));
                return "done";
            });
            case "once" -> attempt(words[0], words[3], words[4], store -> store.once(words[2], transaction -> "made"));
            default -> throw new IllegalArgumentException(words[1]);
        }
    }
}
