package ssikvd;

import java.nio.charset.StandardCharsets;
import java.time.Duration;
import java.util.ArrayDeque;
import java.util.Arrays;
import java.util.Deque;
import java.util.concurrent.Semaphore;
import java.util.concurrent.ThreadLocalRandom;
import java.util.concurrent.TimeUnit;
import java.util.function.Function;

/**
 * A pool of connections to ssikvd, an ordered key-value store with strictly serializable transactions. Threads may share it.
 *
 * <p>Reads and writes stand inside {@link #transact} or {@link #once} alone: there is no auto-commit.
 */
public final class Store implements AutoCloseable {
    private static final int CONNECTIONS_MAX = 64;

    /** How a store is used: connections, 1 to 64; times for opening one, for one reply, and after which no try of a transaction begins. */
    public record Options(int connections, Duration connectTimeout, Duration replyTimeout, Duration deadline) {
        /** 16 connections, 5, 10 and 30 seconds. */
        public static final Options DEFAULT = new Options(16, Duration.ofSeconds(5), Duration.ofSeconds(10), Duration.ofSeconds(30));
    }

    private final String host;
    private final int port;
    private final Options options;
    private final Semaphore places;
    private final Deque<Session> idle = new ArrayDeque<>();
    private boolean isClosed;

    /** A store at HOST:PORT, once the server there has answered. Throws Unreachable where none does, and Invalid. */
    public static Store connect(String address) {
        return connect(address, Options.DEFAULT);
    }

    /** The same, with options. */
    public static Store connect(String address, Options options) {
        if (!address.matches(".+:\\d{1,5}") || options.connections() < 1 || options.connections() > CONNECTIONS_MAX) {
            throw new StoreException.Invalid("an address is HOST:PORT, and a pool has 1 to " + CONNECTIONS_MAX + " connections");
        }
        var store = new Store(address, options);
        Session first = store.open();
        try {
            first.ask("PING");
        } finally {
            store.takeBack(first);
        }
        return store;
    }

    private Store(String address, Options options) {
        int colon = address.lastIndexOf(':');
        host = address.substring(0, colon).replaceAll("^\\[|\\]$", "");
        port = Integer.parseInt(address.substring(colon + 1));
        this.options = options;
        places = new Semaphore(options.connections());
    }

    /** The least key above this one; null above the last of all. */
    public static byte[] after(byte[] key) {
        return key.length < Frames.KEY_MAX ? Arrays.copyOf(key, key.length + 1) : endOfPrefix(key);
    }

    /** The least key above all that begin with the prefix; null where there is none. */
    public static byte[] endOfPrefix(byte[] prefix) {
        int size = prefix.length;
        while (size > 0 && prefix[size - 1] == (byte) 0xff) {
            size--;
        }
        byte[] end = size > 0 ? Arrays.copyOf(prefix, size) : null;
        if (size > 0) {
            end[size - 1]++;
        }
        return end;
    }

    /**
     * Runs the work, commits, and gives what the work gave.
     *
     * <p>The work may run more than once, so it does nothing but read and write through its transaction. What it throws aborts the transaction. No try
     * begins after the deadline: then the last try's Conflict, Full or Unreachable is thrown. Throws also Stopped, and Lost.
     */
    public <T> T transact(Function<Transaction, T> work) {
        return new Tries().run(work);
    }

    /**
     * Commits the work once for this key, however often it is called, and gives the bytes that the work gave then, which the store keeps as the key's value.
     *
     * <p>Throws what {@code transact} throws, and Lost where the outcome of a try isn't known.
     */
    public byte[] once(byte[] key, Function<Transaction, byte[]> work) {
        StoreException.Lost lost = null;
        for (var tries = new Tries(); ; tries.pause(lost)) {
            try {
                return tries.run(transaction -> {
                    byte[] found = transaction.get(key);
                    if (found == null) {
                        found = work.apply(transaction);
                        transaction.set(key, found);
                    }
                    return found;
                });
            } catch (StoreException.Lost error) {
                lost = error;
            } catch (RuntimeException error) {
                if (lost != null) {
                    lost.addSuppressed(error);
                }
                throw lost != null ? lost : error;
            }
        }
    }

    /** {@code once} of a key and a result that are texts. */
    public String once(String key, Function<Transaction, String> work) {
        return new String(once(Transaction.utf8(key), transaction -> Transaction.utf8(work.apply(transaction))), StandardCharsets.UTF_8);
    }

    /** Closes the connections that are idle, and each other one at the end of its transaction. Later calls throw Invalid. */
    @Override
    public synchronized void close() {
        isClosed = true;
        closeIdle();
    }

    private void closeIdle() {
        idle.forEach(Session::close);
        idle.clear();
    }

    /** The tries of one call, none of which begins after its deadline. */
    private final class Tries {
        private final long end = System.nanoTime() + options.deadline().toNanos();
        private int failed;

        <T> T run(Function<Transaction, T> work) {
            while (true) {
                try {
                    return attempt(work);
                } catch (StoreException error) {
                    if (!error.beginsAgain()) {
                        throw error;
                    }
                    pause(error);
                }
            }
        }

        /** Waits for a random time, so that two don't meet again and again. Throws the error where no time is left. */
        void pause(StoreException error) {
            long wait = ThreadLocalRandom.current().nextLong(1_000_000L << Math.min(failed++, 6));
            if (wait >= end - System.nanoTime()) {
                throw error;
            }
            try {
                TimeUnit.NANOSECONDS.sleep(wait);
            } catch (InterruptedException interrupted) {
                Thread.currentThread().interrupt();
                throw error;
            }
        }

        private <T> T attempt(Function<Transaction, T> work) {
            Session session = lend();
            var transaction = new Transaction(session);
            boolean isOpen = false;
            try {
                session.ask("BEGIN");
                isOpen = true;
                T made = work.apply(transaction);
                isOpen = false;
                session.commit();
                return made;
            } finally {
                transaction.end();
                giveBack(session, isOpen);
            }
        }

        /** A connection, once one is idle or there is room for one more. */
        private Session lend() {
            try {
                if (!places.tryAcquire(Math.max(0, end - System.nanoTime()), TimeUnit.NANOSECONDS)) {
                    throw new StoreException.Full("connections");
                }
            } catch (InterruptedException interrupted) {
                Thread.currentThread().interrupt();
                throw new StoreException.Full("connections");
            }
            Session found = null;
            try {
                found = take();
                return found != null ? found : (found = open());
            } finally {
                if (found == null) {
                    places.release();
                }
            }
        }
    }

    private synchronized Session take() {
        if (isClosed) {
            throw new StoreException.Invalid("the store is closed");
        }
        return idle.pollLast();
    }

    private Session open() {
        return new Session(host, port, options.connectTimeout(), options.replyTimeout());
    }

    private void giveBack(Session session, boolean isOpen) {
        try {
            if (isOpen) {
                session.ask("ABORT");
            }
        } catch (StoreException ignored) {
            // the connection is lost, or the server has ended the transaction
        } finally {
            takeBack(session);
            places.release();
        }
    }

    /** Keeps the connection where it is whole. Else it is closed, and those that are idle with it. */
    private synchronized void takeBack(Session session) {
        idle.addLast(session);
        if (!session.isWhole || isClosed) {
            closeIdle();
        }
    }
}
